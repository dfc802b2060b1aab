-- A join can't be kept. customers.sql asks the same over `spent`: what is kept of orders, joined with customer.
select c_mktsegment, sum(o_totalprice) as spent from orders, customer where o_custkey = c_custkey group by c_mktsegment;
