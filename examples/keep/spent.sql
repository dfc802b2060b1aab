-- Of each customer with orders: how many, and what they cost.
select o_custkey as customer, count(*) as made, sum(o_totalprice) as spent from orders group by o_custkey;
