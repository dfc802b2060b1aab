-- Tables of a course in three of the eight forms. Views give them and their columns names of their own.
create view s (sno, sname, status, city) as select s_suppkey, s_name, s_nationkey, s_address from supplier;
create view p (pno, pname, color, weight, city) as select p_partkey, p_name, p_type, p_retailprice, p_mfgr from part;
create view sp (sno, pno, qty) as select ps_suppkey, ps_partkey, ps_availqty from partsupp;
-- who supplies each part
select sname from s where not exists (
  select * from p where not exists (
    select * from sp where sp.sno = s.sno and sp.pno = p.pno));
-- who supplies none
select sname from s where sno not in (select sno from sp);
-- suppliers in one city, each pair once
select a.sname as one, b.sname as other from s a, s b where a.city = b.city and a.sno < b.sno;
-- how many pieces of each color
select color, sum(qty) as pieces from p, sp where p.pno = sp.pno group by color order by pieces desc;
