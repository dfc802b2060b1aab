-- The power test's stream, with the validation values: refresh function 1, the 22 queries, refresh function 2.
-- Query 11's 0.0001 is that of scale factor 1: the benchmark divides it by the scale factor.
refresh insert 1;
run 14 ('1995-09-01');
run 2 (15, 'BRASS', 'EUROPE');
run 9 ('green');
run 20 ('forest', '1994-01-01', 'CANADA');
run 6 ('1994-01-01', 0.06, 24);
run 17 ('Brand#23', 'MED BOX');
run 18 (300);
run 8 ('BRAZIL', 'AMERICA', 'ECONOMY ANODIZED STEEL');
run 21 ('SAUDI ARABIA');
run 13 ('special', 'requests');
run 3 ('BUILDING', '1995-03-15');
run 22 ('13', '31', '23', '29', '30', '18', '17');
run 16 ('Brand#45', 'MEDIUM POLISHED', 49, 14, 23, 45, 19, 3, 36, 9);
run 4 ('1993-07-01');
run 11 ('GERMANY', 0.0001);
run 15 ('1996-01-01');
run 1 (90);
run 10 ('1993-10-01');
run 19 (1, 10, 20, 'Brand#12', 'Brand#23', 'Brand#34');
run 5 ('ASIA', '1994-01-01');
run 7 ('FRANCE', 'GERMANY');
run 12 ('MAIL', 'SHIP', '1994-01-01');
refresh delete 1;
select count(*), sum(o_totalprice) from orders;
select count(*), sum(l_quantity) from lineitem;
