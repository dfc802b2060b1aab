-- Nulls in files: `\N` is null, and an empty field of a text is an empty text.

-- A comparison with null is unknown, and so is its negation: WHERE keeps neither. Only `is null` is true.
select c_name from customer where c_acctbal >= 0;
select c_name from customer where not c_acctbal >= 0;
select c_name from customer where c_acctbal is null;
select r_regionkey from region where r_comment = '';
select r_regionkey from region where r_comment is null or r_name is null;

-- Unknown or true is true, unknown and false is false.
select c_name from customer where c_acctbal > 50 or c_mktsegment = 'BUILDING';
select c_name from customer where not (c_acctbal > 50 and c_mktsegment = 'MACHINERY');

-- LIKE, BETWEEN and a list with a null.
select o_orderkey from orders where o_comment not like 'x%';
select o_orderkey from orders where o_totalprice not between 15 and 45;
select c_name from customer where c_nationkey not in (0, 1);
select c_name from customer where c_nationkey in (0, case when 1 = 0 then 1 end);

-- Aggregates leave nulls out, count(*) counts rows. A sum of no value is null.
select count(*), count(c_acctbal), sum(c_acctbal), min(c_acctbal), count(distinct c_mktsegment) from customer;
select sum(l_quantity), sum(l_quantity * l_extendedprice), count(l_commitdate) from lineitem;
select sum(c_acctbal), max(c_phone) from customer where c_name = 'Dan';

-- Nulls are one group, and one row of DISTINCT, of UNION and of EXCEPT. They come last, and first with DESC.
select o_orderstatus, count(*), sum(o_totalprice) from orders group by o_orderstatus;
select distinct o_custkey from orders order by o_custkey desc;
select o_custkey from orders union select c_nationkey from customer;
select o_custkey from orders except all select c_nationkey from customer;

-- A join by equality never joins nulls; an outer join keeps their rows.
select c_name, n_name from customer join nation on c_nationkey = n_nationkey;
select c_name, n_name from customer left join nation on c_nationkey = n_nationkey;

-- NOT IN and ALL beside a null of the subquery are never true; NOT EXISTS is.
select c_name from customer where c_custkey in (select o_custkey from orders);
select c_name from customer where c_custkey not in (select o_custkey from orders);
select c_name from customer where not exists (select * from orders where o_custkey = c_custkey);
select c_name from customer where c_custkey not in (select o_custkey from orders where o_custkey is not null);
select o_orderkey from orders where o_totalprice >= all (select c_acctbal from customer where c_custkey > 2);
select o_orderkey from orders where o_totalprice >= all (select c_acctbal from customer where c_custkey > 2 and c_acctbal is not null);
select o_orderkey from orders where o_totalprice < any (select c_acctbal from customer);

-- A null of the row around finds no row, so its count is 0 and its sum null.
select o_orderkey, (select count(*) from customer where c_custkey = o_custkey) as customers,
  (select sum(c_acctbal) from customer where c_custkey = o_custkey) as balance
from orders;
select o_orderkey, n from orders, lateral (select count(*) as n from customer where c_custkey = o_custkey) as t;

-- CASE without ELSE is null, and so is a part of a null text.
select c_name, case when c_acctbal < 0 then 'owes' when c_acctbal is null then 'unknown' end as standing from customer;
select n_nationkey, substring(n_comment from 1 for 2) from nation;
