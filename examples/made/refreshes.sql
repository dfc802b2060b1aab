-- Views of the session and refreshes of set 1: each answer is over the version that the accepted refreshes before it made.
create view spent (customer, orders_made, amount) as
  select o_custkey, count(*), sum(o_totalprice) from orders group by o_custkey;
select count(*), sum(orders_made) from spent;
refresh insert 1;
select count(*), sum(orders_made) from spent;
refresh insert 1;
refresh delete 1;
select count(*), sum(orders_made) from spent;
select count(*), sum(l_quantity) from lineitem where l_orderkey > 30;
create view spent as select r_name from region;
drop view spent;
drop view spent;
select customer from spent;
