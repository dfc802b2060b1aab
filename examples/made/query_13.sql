run 13 ('special', 'requests');
