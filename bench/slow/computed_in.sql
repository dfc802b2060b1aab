-- IN whose left side is computed.
select count(*) from orders
where o_custkey + 0 in (select c_custkey from customer where c_acctbal > 0);
