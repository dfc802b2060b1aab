-- What suppliers sold: now, and before the refreshes.
select * from sold;
select * from sold at version 0;

-- The nations with the most revenue, and the pieces of each region, also of those without any.
select n_name, sum(revenue) as revenue from sold, supplier, nation where supplier = s_suppkey and s_nationkey = n_nationkey
group by n_name order by revenue desc limit 3;
select r_name, pieces from region left outer join (
    select n_regionkey, sum(pieces) as pieces from sold, supplier, nation
    where supplier = s_suppkey and s_nationkey = n_nationkey group by n_regionkey
  ) as t on n_regionkey = r_regionkey;

-- The ways of sending that are late most often, and all of them, now and before the refreshes.
select way from late where lines >= all (select lines from late);
select * from late;
select * from late at version 0;
