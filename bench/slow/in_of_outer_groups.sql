-- IN over groups of rows that depend on the row around it.
select count(*) from customer
where c_custkey in (select o_custkey from orders where o_totalprice > c_acctbal * 40
 group by o_custkey having count(*) > 2);
