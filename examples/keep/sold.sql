-- Of each supplier whose parts were ordered: the lines, the pieces, and what they bring after the discounts.
select l_suppkey as supplier, count(*) as sales, sum(l_quantity) as pieces, sum(l_extendedprice * (1 - l_discount)) as revenue
from lineitem group by l_suppkey;
