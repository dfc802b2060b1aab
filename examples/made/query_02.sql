run 2 (15, 'BRASS', 'EUROPE');
