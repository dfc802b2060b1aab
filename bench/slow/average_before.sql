-- An average over all earlier rows.
select count(*) from orders o
where o_custkey <= 150 and o_totalprice > (select avg(i.o_totalprice) from orders i
 where i.o_orderdate < o.o_orderdate);
