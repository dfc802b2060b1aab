-- The innermost query depends on the outermost one, two levels up.
select n_name, s_name from nation, supplier
where n_nationkey = s_nationkey and s_suppkey in (select l_suppkey from lineitem
 where l_partkey in (select p_partkey from part where p_name like '%green%'
  and p_size in (select s_nationkey from nation where n_nationkey = s_nationkey)));
