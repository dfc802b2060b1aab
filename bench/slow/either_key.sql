-- Two equalities with OR between them.
select count(*) from customer, orders
where c_custkey = o_custkey or c_custkey = o_orderkey;
