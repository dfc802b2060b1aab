select sum(l_extendedprice) / 7.0 as avg_yearly from part, lineitem,
 lateral (select 0.2 * avg(l_quantity) as few from lineitem where l_partkey = p_partkey) as usual
where p_partkey = l_partkey and p_brand = 'Brand#23' and p_container = 'MED BOX'
and l_quantity < few;
