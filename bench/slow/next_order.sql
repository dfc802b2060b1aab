-- A table beside itself, each row with the next key's.
select count(*), sum(o2.o_totalprice) from orders o1, orders o2
where o1.o_orderkey + 1 = o2.o_orderkey and o1.o_custkey < 300;
