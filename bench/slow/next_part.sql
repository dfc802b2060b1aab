-- An equality of a column and the next key of another table.
select count(*), sum(ps_availqty) from part, partsupp where ps_partkey = p_partkey + 1;
