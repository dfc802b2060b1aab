select r_name from region
