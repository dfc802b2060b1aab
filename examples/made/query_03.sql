run 3 ('BUILDING', '1995-03-15');
