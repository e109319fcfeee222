# Exact sums: a fault exactly where the exact total leaves INT64.

SELECT SUM(aid) FROM Albums WHERE aid <> -9223372036854775807 - 1
rows 1
9223372036854775807

SELECT SUM(aid) FROM Albums WHERE uid < 3
refused 62

SELECT SUM(aid) FROM Albums
rows 1
-1

SELECT SUM(aid) FROM Albums WHERE aid < 0
refused 62

SELECT SUM(aid) FROM Albums WHERE aid < -1
rows 1
-9223372036854775808

SELECT SUM(-aid) FROM Albums WHERE aid > 0
rows 1
-9223372036854775808

SELECT SUM(-aid) FROM Albums
refused 62

SELECT SUM(aid - 1) FROM Albums WHERE aid > 0
rows 1
9223372036854775806

SELECT uid, SUM(aid) FROM Albums GROUP BY uid
refused 62

SELECT uid, SUM(aid) FROM Albums WHERE aid > -2 GROUP BY uid
rows 3
1,9223372036854775807
2,1
3,-1

SELECT uid, MIN(aid), MAX(aid) FROM Albums GROUP BY uid
rows 3
1,9223372036854775807,9223372036854775807
2,1,1
3,-9223372036854775808,-1

SELECT MIN(aid), MAX(aid), COUNT(aid), COUNT(name) FROM Albums
rows 1
-9223372036854775808,9223372036854775807,4,1

SELECT SUM(a.aid) FROM Albums a JOIN Users u ON TRUE
rows 1
-4

SELECT SUM(a.aid) FROM Albums a JOIN Users u ON a.uid = 1
refused 62

SELECT IF(SUM(aid) = -1, 'exact', 'wrong') FROM Albums
rows 1
exact

SELECT SUM(aid) + 1 FROM Albums WHERE aid > -2
refused 62

SELECT SUM(aid) - 1 FROM Albums WHERE aid > -2
rows 1
9223372036854775806

SELECT -SUM(aid) FROM Albums WHERE aid < -1
refused 62

SELECT COUNT(*) FROM Albums HAVING SUM(aid) < 0
rows 1
4

SELECT COUNT(*) FROM Albums WHERE uid < 3 HAVING COUNT(*) < 0 AND SUM(aid) = 0
refused 62

SELECT CASE WHEN FALSE THEN SUM(aid) ELSE 0 END FROM Albums WHERE uid < 3
refused 62

SELECT SUM(n) FROM (SELECT SUM(aid) AS n FROM Albums WHERE aid > -2 GROUP BY uid) x
rows 1
9223372036854775807

SELECT SUM(n) FROM (SELECT aid AS n FROM Albums UNION ALL SELECT aid FROM Albums) x
rows 1
-2

SELECT SUM(n) FROM (SELECT SUM(aid) AS n FROM Albums WHERE uid < 3 UNION ALL SELECT -1 FROM Albums) x
refused 62

# A fault and FALSE.

SELECT uid FROM Users WHERE DIV(1, uid) = 1 AND uid > 0
rows 1
1

SELECT uid FROM Users WHERE uid < 1 AND DIV(1, uid) = 1 AND uid > 0
rows 0

SELECT uid FROM Users WHERE DIV(1, uid) = 1
refused 62

SELECT uid FROM Users WHERE email = 'a' AND DIV(1, uid) = 1
refused 62

SELECT uid FROM Users WHERE email = 'b' AND DIV(1, uid) = 1
rows 0

SELECT uid FROM Users WHERE email IS NULL AND DIV(1, uid) = 1
rows 1
1
