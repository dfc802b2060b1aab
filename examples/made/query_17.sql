run 17 ('Brand#23', 'MED BOX');
