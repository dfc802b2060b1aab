-- What customers spent: now, before the refreshes, and between them.
select * from spent;
select * from spent at version 0;
select * from spent at version 1;

-- Joined with another table: those who spent most, those without orders, and what each segment spent.
select c_name, made, spent from customer, spent where customer = c_custkey order by spent desc limit 3;
select c_name from customer left outer join spent on customer = c_custkey where made is null;
select c_mktsegment, sum(made) as made, sum(spent) as spent from customer, spent where customer = c_custkey group by c_mktsegment;

-- Grouped again, and compared with the average.
select made, count(*) from spent group by made;
select customer, spent from spent where spent > (select avg(spent) from spent);

-- One row, before and after.
select * from all_orders at version 0;
select * from all_orders;

-- In a session a kept view is as any other view.
create view spent as select r_name from region;
drop view spent;
select * from spent;
