select r_name from region where r_name = 'ASIA;
