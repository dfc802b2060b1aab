create view revenue0 (supplier_no, total_revenue) as
 select s_suppkey, total_revenue from supplier,
 lateral (select sum(l_extendedprice * (1 - l_discount)) as total_revenue from lineitem
  where l_suppkey = s_suppkey and l_shipdate >= date '1996-01-01'
  and l_shipdate < date '1996-01-01' + interval '3' month) as revenue;
select s_suppkey, s_name, s_address, s_phone, total_revenue
from supplier, revenue0, lateral (select max(total_revenue) as most from revenue0) as best
where s_suppkey = supplier_no and total_revenue = most
order by s_suppkey;
drop view revenue0;
