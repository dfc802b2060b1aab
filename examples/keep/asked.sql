-- Whichever version a statement sees, the kept totals are those of its orders: the difference is 0.00.
select (select spent from all_orders) - (select sum(o_totalprice) from orders) from region where r_regionkey = 0;
select (select sum(spent) from spent) - (select sum(o_totalprice) from orders) from region where r_regionkey = 0;
select count(*) from spent, orders where customer = o_custkey;
select customer from spent where made <> (select count(*) from orders where o_custkey = customer);
