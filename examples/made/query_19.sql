run 19 (1, 10, 20, 'Brand#12', 'Brand#23', 'Brand#34');
