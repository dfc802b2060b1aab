-- EXISTS of the next key's row.
select count(*) from orders o1
where exists (select * from orders o2 where o2.o_orderkey = o1.o_orderkey + 1);
