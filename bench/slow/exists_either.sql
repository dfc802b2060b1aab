-- EXISTS of rows that meet one of two equalities.
select count(*) from part
where p_size = 1 and exists (select * from lineitem
 where l_partkey = p_partkey or l_suppkey = p_partkey);
