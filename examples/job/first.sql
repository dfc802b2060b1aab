select count(*) from orders;
run 6 ('1994-01-01', 0.06, 24);
run 4 ('1993-07-01');
select count(*) from orders;
