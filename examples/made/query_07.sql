run 7 ('FRANCE', 'GERMANY');
