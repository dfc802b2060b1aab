-- Each cause for which a refresh is refused, and two that are accepted. A refused one changes nothing.
refresh insert 2; -- 44: the order of a lineitem isn't in the set
refresh delete 2; -- 46: a key stands twice in the file
refresh insert 3; -- 42: an order stands twice in the file
refresh delete 3; -- 45: no order has the key
refresh insert 4; -- 43: a lineitem stands twice in the file
refresh delete 4; -- 47: a line is bad
refresh insert 5; -- 48: there is a lineitem of that order and number
refresh insert 6; -- 47: a line is bad
select count(*) from orders;
refresh insert 1;
refresh insert 1; -- 41: there is an order with the key
refresh delete 1;
select o_orderkey, l_linenumber from orders left join lineitem on l_orderkey = o_orderkey;
