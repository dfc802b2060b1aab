-- EXISTS of a row with a greater value, without an equality.
select count(*) from customer
where exists (select * from supplier where s_acctbal > c_acctbal);
