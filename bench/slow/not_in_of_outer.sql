-- NOT IN over rows that depend on the row around it.
select count(*) from customer
where c_custkey not in (select o_custkey from orders where o_totalprice > c_acctbal * 40);
