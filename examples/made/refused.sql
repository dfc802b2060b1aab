-- Each refusal of a statement, by the number that it prints; the last statement is answered, as refusals end nothing.
-- 1: a name in FROM is no table and no view
select count(*) from cities;
-- 2: no column of that name is in sight
select r_size from region;
-- 3: two columns of the name: write a.n_name or b.n_name
select count(*) from nation a, nation b where n_name = 'CHINA';
-- 4: one name for two tables: give each an alias
select count(*) from nation, nation;
-- 5: a text and a number
select r_name + 1 from region;
-- 6: add it to GROUP BY, or put it into an aggregate
select r_name, count(*) from region;
-- 7: write it in HAVING
select n_regionkey from nation where count(*) > 4 group by n_regionkey;
-- 8: an aggregate is taken over the rows of its own query alone
select r_name from region where 1 < (select sum(r_regionkey) from nation);
-- 9: a derived table can't look at the query around it: join it instead
select r_name from region where exists   (select * from (select count(*) as n from nation where
  n_regionkey = r_regionkey) as t where n > 5);
-- 10: one column is asked for
select r_name from region where r_regionkey in (select n_nationkey, n_regionkey from nation);
-- 11: ten digits after the point times ten make twenty, and a number has eighteen
select 0.1234567890 * 0.1234567890 from region;
-- 12: an interval moves a date that is written out, and no column
select o_orderdate + interval '1' day from orders;
-- 13: no such day
select date '1996-02-30' from region;
-- 14: the year 10000
select date '9999-12-31' + interval '1' day from region;
-- 15: take the sum over a derived table whose select list has the subquery
select sum((select count(*) from nation where n_regionkey = r_regionkey)) from region;
-- 16: 33 tables
select count(*) from nation a1, nation a2, nation a3, nation a4, nation a5, nation a6, nation a7,
  nation a8, nation a9, nation a10, nation a11, nation a12, nation a13, nation a14, nation a15,
  nation a16, nation a17, nation a18, nation a19, nation a20, nation a21, nation a22, nation a23,
  nation a24, nation a25, nation a26, nation a27, nation a28, nation a29, nation a30, nation a31,
  nation a32, nation a33;
-- 18: both sides of a set operation need as many columns
select r_regionkey, r_name from region union select n_regionkey from nation;
-- 20: the name is taken
create view region as select n_name from nation;
-- 21: no view of that name
drop view cities;
-- 22: the answer has a fault in a row
select 1 / r_regionkey from region;
-- 23: no refresh made a version yet
select count(*) from region at version 1;
-- 30: the queries have the numbers 1 to 22
run 23 ();
-- 31: query 4 has one value
run 4 ();
-- 32: the first value of query 4 is a date
run 4 (5);
select r_name from region where r_regionkey = 2;
