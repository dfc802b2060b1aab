-- An equality of two parts of texts.
select count(*) from customer, supplier
where substring(c_phone from 1 for 2) = substring(s_phone from 1 for 2);
