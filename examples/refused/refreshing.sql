select count(*) from orders;
refresh insert 1;
