run 12 ('MAIL', 'SHIP', '1994-01-01');
