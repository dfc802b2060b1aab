-- UNION, INTERSECT and EXCEPT, and comparisons with ANY, SOME and ALL.

-- Each row once, or as often as the two sides give it.
select n_regionkey from nation where n_nationkey < 3 union select r_regionkey from region where r_regionkey < 3;
select n_regionkey from nation where n_nationkey < 3 union all select r_regionkey from region where r_regionkey < 3;
select c_nationkey from customer intersect select s_nationkey from supplier;
select c_nationkey from customer intersect all select s_nationkey from supplier;
select s_nationkey from supplier except select c_nationkey from customer;
select s_nationkey from supplier except all select c_nationkey from customer;

-- INTERSECT goes before the others; these go from left to right.
select r_regionkey from region except select n_regionkey from nation where n_name < 'C'
  intersect select n_regionkey from nation where n_name like '%A';

-- The first side names the columns; ORDER BY and the limit are the whole's.
select n_name as place, 'nation' as kind from nation where n_regionkey = 2 union all
  select r_name, 'region' from region order by kind desc, place limit 7;

-- A customer's nations beside a supplier's, as rows of FROM.
select n_name, count(*) from (select c_nationkey from customer union all select s_nationkey from supplier) as t (k), nation
where k = n_nationkey group by n_name having count(*) > 2;

-- Both sides read the row around: parts of a supplier that it never delivered.
select s_suppkey, (select count(*) from
    (select ps_partkey from partsupp where ps_suppkey = 1 except select l_partkey from lineitem where l_suppkey = 1) as t) as n
from supplier where s_suppkey = 1;
select s_suppkey from supplier where exists (select ps_partkey from partsupp where ps_suppkey = s_suppkey
  except select l_partkey from lineitem where l_suppkey = s_suppkey) and s_suppkey < 5;

-- ANY is an OR and ALL an AND of comparisons. ALL of no row is true, ANY false.
select c_name from customer where c_acctbal > all (select s_acctbal from supplier);
select c_name from customer where c_acctbal < any (select s_acctbal from supplier) and c_custkey < 8;
select count(*) from nation where n_nationkey = some (select c_nationkey from customer);
select count(*) from nation where n_nationkey <> all (select c_nationkey from customer);
select count(*) from region where r_regionkey > all (select n_nationkey from nation where n_name > 'Z');
select count(*) from region where r_regionkey > any (select n_nationkey from nation where n_name > 'Z');

-- Of the row around: orders that are at least as dear as all of their customer.
select o_orderkey, o_custkey from orders o where o_totalprice >= all
  (select o_totalprice from orders where o_custkey = o.o_custkey);
