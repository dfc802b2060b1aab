select s_name, count(*) as numwait from supplier, lineitem l1, orders, nation,
 lateral (select count(*) as others from lineitem l2 where l2.l_orderkey = l1.l_orderkey
  and l2.l_suppkey <> l1.l_suppkey) as t2,
 lateral (select count(*) as late from lineitem l3 where l3.l_orderkey = l1.l_orderkey
  and l3.l_suppkey <> l1.l_suppkey and l3.l_receiptdate > l3.l_commitdate) as t3
where s_suppkey = l1.l_suppkey and o_orderkey = l1.l_orderkey
and o_orderstatus = 'F' and l1.l_receiptdate > l1.l_commitdate
and others > 0 and late = 0
and s_nationkey = n_nationkey and n_name = 'SAUDI ARABIA'
group by s_name order by numwait desc, s_name limit 100;
