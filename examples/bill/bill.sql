-- The bill of bill.py at 0.05 and 0.02, in SQL: duckdb -csv <bill.sql
CREATE TABLE audit AS SELECT * FROM read_csv('thirds-audit.csv');
SELECT place, sum(got) AS got, sum(used) AS used, sum(wasted) AS wasted,
       printf('%.2f', CAST(sum(used) AS DOUBLE) * 0.05 + CAST(sum(wasted) AS DOUBLE) * 0.02) AS amount
FROM audit GROUP BY place ORDER BY place;
