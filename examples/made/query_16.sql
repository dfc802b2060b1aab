run 16 ('Brand#45', 'MEDIUM POLISHED', 49, 14, 23, 45, 19, 3, 36, 9);
