-- LATERAL: an item of FROM that is taken anew for each row to its left, whose columns it may use.

-- A count for each region, 0 where no nation's name is before C.
select r_name, n from region, lateral (select count(*) as n from nation where n_regionkey = r_regionkey and n_name < 'C') as t;

-- Rows of the item beside the row that they were taken for; a row without one is gone, or stands with null.
select c_custkey, o_orderkey from customer, lateral (select o_orderkey from orders
  where o_custkey = c_custkey and o_totalprice > 100000) as t where c_custkey < 6;
select c_custkey, o_orderkey from customer left join lateral (select o_orderkey from orders
  where o_custkey = c_custkey and o_totalprice > 100000) as t on 1 = 1 where c_custkey < 6;

-- ON speaks of the item's columns too, and may have a subquery.
select c_custkey, n from customer left join lateral (select count(*) as n from orders where o_custkey = c_custkey) as t
  on n > (select count(*) from region where r_regionkey < 3) where c_custkey < 6;

-- The latest order of each customer: a lateral item may read one before it.
select c_custkey, latest, o_orderkey from customer,
  lateral (select max(o_orderdate) from orders where o_custkey = c_custkey) as t (latest),
  lateral (select o_orderkey from orders where o_custkey = c_custkey and o_orderdate = latest) as u;

-- A group of each row; a lateral item within a lateral item; one in a subquery that reads the row around.
select s_suppkey, kind, n from supplier, lateral (select l_shipmode, count(*) from lineitem
  where l_suppkey = s_suppkey group by l_shipmode having count(*) > 2) as t (kind, n);
select r_name, n_name, n from region join lateral (select n_name, n from nation, lateral
    (select count(*) as n from customer where c_nationkey = n_nationkey and n_regionkey = r_regionkey) as u
  where n_regionkey = r_regionkey and n > 1) as t on n_name <> r_name;
select count(*) from orders where exists (select * from customer, lateral
  (select sum(l_quantity) as q from lineitem where l_orderkey = o_orderkey) as t where c_custkey = o_custkey and q > 100);

-- A derived table without the word doesn't see the row to its left.
select r_name from region, (select n_name from nation where n_regionkey = r_regionkey) as t;
