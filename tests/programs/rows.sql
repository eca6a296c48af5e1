-- Rows that are put in, sorted, changed, indexed and removed.
create table t(a integer primary key, b text, c real);
with recursive n(i) as (select 1 union all select i + 1 from n where i < 20000)
  insert into t select i, 'text ' || (i * 7919 % 20011) || hex(zeroblob(i % 40)), i / 7.0 from n;
create index by_text on t(b);
select count(*), min(b), max(b) from t where b > 'text 5';
update t set c = c + 1 where a % 3 = 0;
select b, count(*) from t group by substr(b, 1, 7) order by 2 desc, 1 limit 5;
delete from t where a % 2 = 0;
vacuum;
select count(*) from t;
