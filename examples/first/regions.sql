select r_name from region where r_regionkey < 2;
