run 9 ('green');
