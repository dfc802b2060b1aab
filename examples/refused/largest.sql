select o_custkey, max(o_totalprice) as largest from orders group by o_custkey;
