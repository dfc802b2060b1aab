-- Of each region the nations whose names begin with A or B; a region without one counts 0.
select r_name, (select count(*) from nation where n_regionkey = r_regionkey and n_name < 'C') as n
from region;
