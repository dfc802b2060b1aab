select r_name from region order by 1;
