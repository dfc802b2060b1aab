select o_orderpriority, count(*) as order_count from orders,
 lateral (select count(*) as late from lineitem
  where l_orderkey = o_orderkey and l_commitdate < l_receiptdate) as lines
where o_orderdate >= date '1993-07-01' and o_orderdate < date '1993-07-01' + interval '3' month
and late > 0
group by o_orderpriority order by o_orderpriority;
