-- One row for all orders.
select count(*) as made, sum(o_totalprice) as spent from orders;
