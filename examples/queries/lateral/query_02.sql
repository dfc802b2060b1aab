select s_acctbal, s_name, n_name, p_partkey, p_mfgr, s_address, s_phone, s_comment
from part, supplier, partsupp, nation, region,
 lateral (select min(ps_supplycost) as least
  from partsupp, supplier, nation, region
  where ps_partkey = p_partkey and s_suppkey = ps_suppkey
  and s_nationkey = n_nationkey and n_regionkey = r_regionkey and r_name = 'EUROPE') as cost
where p_partkey = ps_partkey and s_suppkey = ps_suppkey and p_size = 15
and p_type like '%BRASS' and s_nationkey = n_nationkey
and n_regionkey = r_regionkey and r_name = 'EUROPE'
and ps_supplycost = least
order by s_acctbal desc, n_name, s_name, p_partkey limit 100;
