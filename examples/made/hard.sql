-- Nulls, faults and subqueries in subqueries, over the tables of this folder.

-- No row: a count is 0, every other aggregate is null.
select count(*), count(o_clerk), sum(o_totalprice), min(o_orderdate), avg(o_totalprice)
from orders where o_orderkey < 0;

-- Ascending, null comes last; descending, first.
select c_custkey, o_orderkey from customer left join orders
  on o_custkey = c_custkey and o_totalprice > 150000
where c_custkey < 8 order by o_orderkey;
select c_custkey, o_orderkey from customer left join orders
  on o_custkey = c_custkey and o_totalprice > 150000
where c_custkey < 8 order by o_orderkey desc;

-- Null is a group of its own; count(x) skips it.
select o_orderstatus, count(*), count(o_orderkey), count(distinct o_custkey)
from customer left join orders on o_custkey = c_custkey and o_orderkey > 12
group by o_orderstatus;

-- A null in its list makes NOT IN unknown, and unknown rows are dropped; without it one nation is left.
select count(*) from nation where n_nationkey not in
  (select o_orderkey from customer left join orders on o_custkey = c_custkey);
select count(*) from nation where n_nationkey not in
  (select o_orderkey from customer left join orders on o_custkey = c_custkey where o_orderkey is not null);

-- A subquery without a row is null; a comparison with null is unknown, and so is its NOT.
select r_name, (select n_name from nation where n_regionkey = r_regionkey and n_name like '%Z%')
from region;
select count(*) from region
where (select n_name from nation where n_regionkey = r_regionkey and n_name like '%Z%') = 'BRAZIL'
  or not (select n_name from nation where n_regionkey = r_regionkey and n_name like '%Z%') = 'BRAZIL';

-- A row without a group: count is 0 there, and sum is null.
select c_custkey, (select count(*) from orders where o_custkey = c_custkey),
  (select sum(o_totalprice) from orders where o_custkey = c_custkey)
from customer where c_custkey in (1, 2, 3);
select count(*) from customer where 0 = (select count(*) from orders where o_custkey = c_custkey);

-- Three levels: the innermost query reads columns of both queries around it.
select r_name, (select count(*) from nation where n_regionkey = r_regionkey and exists
    (select * from customer where c_nationkey = n_nationkey and c_acctbal >
      (select min(s_acctbal) from supplier
       where s_nationkey = n_nationkey or s_nationkey = r_regionkey or s_suppkey = c_custkey))) as n
from region order by n desc, r_name;

-- Of each customer the orders that are dearer than its average, and of these the number of lines
-- that were shipped by a supplier of the customer's region.
select c_custkey, (select count(*) from orders o where o.o_custkey = c.c_custkey
    and o.o_totalprice > (select avg(p.o_totalprice) from orders p where p.o_custkey = c.c_custkey)
    and exists (select * from lineitem where l_orderkey = o.o_orderkey
      and l_suppkey in (select s_suppkey from supplier, nation s, nation d
        where s_nationkey = s.n_nationkey and d.n_nationkey = c.c_nationkey
          and s.n_regionkey = d.n_regionkey))) as dear
from customer c where c_custkey < 12 order by dear desc, c_custkey limit 6;

-- A rank by counting, and a subquery in HAVING that reads the group's key.
select s_name, (select count(*) from supplier b where b.s_acctbal > a.s_acctbal) + 1 as place
from supplier a order by place limit 4;
select o_custkey, count(*) as n from orders o group by o_custkey
having count(*) > (select count(*) from orders where o_custkey = o.o_custkey + 1)
order by n desc, o_custkey limit 5;

-- Quotients and averages are rounded half away from zero.
select 2.00 / 3, -1.0 / 8, -1 / 3.0, 1.5 * 1.25, 7.0 / 2000000, -7.0 / 2000000, 3.0 - 0.125
from region where r_regionkey = 0;
select avg(r_regionkey - 3), avg(r_regionkey * 0.1) from region;

-- A month's end; texts by their bytes, and their parts.
select date '1996-01-31' + interval '1' month, date('1997-02-28') - interval '1' year,
  date '1996-02-29' - interval '1' year, date '1999-12-31' + interval '1' day
from region where r_regionkey = 1;
select n_name, substring(n_name from 2 for 3) from nation
where n_name like '_R%' or n_name like '%I%N' or substring(n_name from 6 for 9) = 'D STATES';

-- 1 / 0 is a fault. It counts only where it decides: not in a row that is dropped, not beside a true OR,
-- not in a CASE that another branch decided, not in an IN that found its value.
select r_regionkey from region where r_regionkey > 1 and 1.0 / r_regionkey < 0.4;
select count(*) from region where r_regionkey = 0 or 1.0 / r_regionkey > 0;
select case when r_regionkey = 0 then 0 else 12 / r_regionkey end from region;
select count(*) from region where 1 in (select 1 / r_regionkey from region);
select count(*) from region a, region b where 1 / a.r_regionkey = b.r_regionkey and b.r_regionkey < 0;
select k from (select r_regionkey as k, 1 / r_regionkey as q from region) as t where k = 4;

-- Here it decides. The row limit hides no fault.
select 1 / r_regionkey from region;
select r_name from region where 2 in (select 1 / r_regionkey from region);
select r_name, 1 / r_regionkey as q from region order by r_name desc limit 1;
select sum(1 / r_regionkey) from region;
select count(*) from region a, region b where 1 / a.r_regionkey = b.r_regionkey;

-- A subquery with more than one row where one value is asked for; a number that is too large; the least fault counts.
select r_name, (select n_name from nation where n_regionkey = r_regionkey) from region;
select 99999999999999999999 * 99999999999999999999 from region;
select 99999999999999999999 * 99999999999999999999 + 1 / r_regionkey from region;
