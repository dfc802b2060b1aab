-- IN over rows that depend on the row around it: the equality of IN must reach the inner join.
select count(*) from customer
where c_custkey in (select o_custkey from orders where o_totalprice > c_acctbal * 40);
