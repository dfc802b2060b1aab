-- The lines that came later than was agreed, by the way in which they were sent.
select l_shipmode as way, count(*) as lines from lineitem where l_receiptdate > l_commitdate group by l_shipmode;
