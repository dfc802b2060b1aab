-- NOT IN whose left side is computed.
select count(*) from orders
where o_orderkey - 1 not in (select o_orderkey from orders);
