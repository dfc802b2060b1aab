run 20 ('forest', '1994-01-01', 'CANADA');
