-- NOT EXISTS of a row with a smaller value, over a large table.
select count(*) from customer
where not exists (select * from orders where o_totalprice < c_acctbal);
