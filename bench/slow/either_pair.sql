-- A join of a table that meets one of two equalities, with a condition.
select count(*) from part, partsupp
where p_size = 1 and (p_partkey = ps_partkey or p_partkey = ps_suppkey);
