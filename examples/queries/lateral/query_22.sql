select cntrycode, count(*) as numcust, sum(c_acctbal) as totacctbal from (
 select substring(c_phone from 1 for 2) as cntrycode, c_acctbal from
 lateral (select avg(c_acctbal) as usual from customer where c_acctbal > 0.00
  and substring(c_phone from 1 for 2)
  in ('13', '31', '23', '29', '30', '18', '17')) as a,
 customer,
 lateral (select count(*) as n from orders where o_custkey = c_custkey) as o
 where substring(c_phone from 1 for 2)
  in ('13', '31', '23', '29', '30', '18', '17')
 and c_acctbal > usual and n = 0) as custsale
group by cntrycode order by cntrycode;
