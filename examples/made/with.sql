-- WITH: queries that have a name in one statement.

-- A name stands for its query, also twice, and in subqueries.
with spent (customer, amount) as (select o_custkey, sum(o_totalprice) from orders group by o_custkey)
select customer, amount from spent where amount = (select max(amount) from spent);

-- A later query may use those before it.
with spent (customer, amount) as (select o_custkey, sum(o_totalprice) from orders group by o_custkey),
  by_nation (nation, amount) as (select c_nationkey, sum(amount) from customer, spent where c_custkey = customer group by c_nationkey)
select n_name, amount from nation, by_nation where nation = n_nationkey order by amount desc limit 3;

-- A name hides a table of that name, but its own query reads the table.
with nation as (select n_name, n_regionkey from nation where n_regionkey = 1)
select count(*) from nation;

-- Under EXISTS, in a set operation, and in ON.
with late as (select l_orderkey as k, count(*) as n from lineitem where l_receiptdate > l_commitdate group by l_orderkey)
select count(*) from orders where exists (select * from late where k = o_orderkey and n > 2);
with late (k) as (select l_orderkey from lineitem where l_receiptdate > l_commitdate)
select o_orderkey from orders except select k from late;
with late as (select l_orderkey as k, count(*) as n from lineitem where l_receiptdate > l_commitdate group by l_orderkey)
select o_orderkey, n from orders left join late on k = o_orderkey and n > any (select n from late) where o_orderkey < 9;
