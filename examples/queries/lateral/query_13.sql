select c_count, count(*) as custdist from (
 select c_custkey, count(o_orderkey) from customer left outer join
 lateral (select o_orderkey from orders
  where o_custkey = c_custkey and o_comment not like '%special%requests%') as o on 1 = 1
 group by c_custkey) as c_orders (c_custkey, c_count)
group by c_count order by custdist desc, c_count desc;
