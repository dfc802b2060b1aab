-- An equality of a column and a computed value.
select count(*), sum(l_quantity) from orders, lineitem where o_orderkey = l_orderkey + 0;
