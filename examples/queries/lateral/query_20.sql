select s_name, s_address from supplier, nation
where s_suppkey in (select ps_suppkey from
 (select ps_partkey, ps_suppkey, ps_availqty from partsupp
  where ps_partkey in (select p_partkey from part where p_name like 'forest%')) as stock,
 lateral (select 0.5 * sum(l_quantity) as half from lineitem
  where l_partkey = ps_partkey and l_suppkey = ps_suppkey
  and l_shipdate >= date('1994-01-01')
  and l_shipdate < date('1994-01-01') + interval '1' year) as sold
 where ps_availqty > half)
and s_nationkey = n_nationkey and n_name = 'CANADA' order by s_name;
