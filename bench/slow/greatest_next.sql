-- A scalar subquery over the next key's rows.
select count(*) from orders o1
where o_totalprice < (select max(o2.o_totalprice) from orders o2
 where o2.o_orderkey = o1.o_orderkey + 1);
