-- Earlier versions: a query that ends with `at version N` is asked over the tables after the first N accepted refreshes.
select count(*), sum(o_totalprice) from orders;
refresh insert 1;
refresh delete 1;
select count(*), sum(o_totalprice) from orders;
select count(*), sum(o_totalprice) from orders at version 0;
select count(*), sum(o_totalprice) from orders at version 1;

-- All of the query is: views, WITH and subqueries too. It stands after ORDER BY and the limit.
create view dear as select o_orderkey, o_custkey from orders where o_totalprice > 140000;
select count(*) from dear where o_custkey in (select c_custkey from customer) at version 0;
select count(*) from dear where o_custkey in (select c_custkey from customer) at version 2;
select o_orderkey from orders order by o_orderkey desc limit 2 at version 1;
with d as (select o_orderkey as k from dear) select count(*) from d, lineitem where l_orderkey = k at version 1;

-- No refresh made version 3. A refused refresh makes none.
refresh insert 1;
select count(*) from orders at version 3;
