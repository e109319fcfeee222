# Tables without rows.

SELECT COUNT(*), SUM(uid) FROM Users
rows 1
0,\N

SELECT uid FROM Users WHERE uid NOT IN (1, NULL)
rows 0

SELECT * FROM Users
rows 0

SELECT COUNT(*), COUNT(email), SUM(uid + 1), MIN(email), MAX(email) FROM Users
rows 1
0,0,\N,\N,\N

SELECT COUNT(*) FROM Users GROUP BY uid
rows 0

SELECT 1 FROM Users HAVING TRUE
rows 1
1

SELECT 1 FROM Users HAVING COUNT(*) > 0
rows 0

SELECT DISTINCT email FROM Users
rows 0

SELECT SUM(DIV(1, 0)) FROM Users
rows 1
\N

SELECT COUNT(DIV(1, 0)), MIN(1 + 9223372036854775807) FROM Users
rows 1
0,\N

SELECT DIV(1, COUNT(*)) FROM Users
refused 62

SELECT DIV(1, 0) FROM Users
rows 0

SELECT uid FROM Users WHERE DIV(1, 0) = 1
rows 0

SELECT 1 FROM Users HAVING DIV(1, 0) = 1
refused 62

SELECT 1 FROM Users GROUP BY uid HAVING DIV(1, 0) = 1
rows 0

SELECT 1 FROM Users u LEFT JOIN Albums a ON DIV(1, 0) = 1
rows 0

SELECT x.n, u.uid FROM (SELECT COUNT(*) AS n FROM Users) x LEFT JOIN Users u ON DIV(1, 0) = 1
rows 1
0,\N

SELECT x.n FROM (SELECT COUNT(*) AS n FROM Users) x JOIN Users u ON TRUE
rows 0

SELECT COUNT(*) FROM Users UNION ALL SELECT SUM(aid) FROM Albums
rows 2
0
\N

SELECT COUNT(*) AS n FROM Users UNION ALL SELECT SUM(aid) FROM Albums ORDER BY n
rows 2
\N
0

SELECT uid FROM Users ORDER BY uid LIMIT 1 OFFSET 1
rows 0

SELECT nope FROM Users
refused 11

SELECT uid FROM Users HAVING TRUE
refused 14

SELECT IFNULL(SUM(uid), 0), COALESCE(MIN(email), MAX(email), 'none') FROM Users
rows 1
0,none
