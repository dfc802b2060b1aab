run 11 ('GERMANY', 0.0001);
