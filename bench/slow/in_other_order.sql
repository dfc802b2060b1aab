-- IN over the rows of all other orders.
select count(*) from orders
where o_orderdate in (select l_shipdate from lineitem
 where l_orderkey <> o_orderkey and l_quantity = 50 and l_tax = 0);
