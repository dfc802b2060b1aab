create view late as select l_orderkey from lineitem where l_receiptdate > l_commitdate;
select count(*) from late;
run 12 ('MAIL', 'SHIP', '1994-01-01');
select count(*) from late;
drop view late;
