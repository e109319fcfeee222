# The worked texts.

SELECT uid FROM Users WHERE email LIKE '_' ORDER BY uid DESC LIMIT 1
rows 1
2

SELECT email FROM Users ORDER BY email DESC LIMIT 2 OFFSET 1
rows 2
a
\N

SELECT MIN(email) FROM Users HAVING COUNT(*) > 3
rows 0

SELECT MOD(-7, 2), DIV(-7, 2) FROM Users LIMIT 1
rows 1
-1,-3

SELECT IF(uid > 0, 1, DIV(1, 0)) FROM Users LIMIT 1
rows 1
1

SELECT uid FROM Users WHERE uid = 1 OR DIV(1, 0) = 1 LIMIT 1
refused 62

SELECT -9223372036854775808 FROM Users
refused 2

SELECT email FROM Users GROUP BY uid
refused 14

SELECT uid FROM Users ORDER BY 2
refused 16

SELECT 1 FROM Users u JOIN Users U ON TRUE
refused 18

SELECT ((((((((((((((((((((((((((((((((1)))))))))))))))))))))))))))))))) FROM Users LIMIT 1
rows 1
1

SELECT (((((((((((((((((((((((((((((((((1))))))))))))))))))))))))))))))))) FROM Users
refused 4

SELECT u.uid, x.n FROM Users u JOIN (SELECT uid, COUNT(*) AS n FROM Albums GROUP BY uid) x ON x.uid = u.uid
rows 2
1,2
3,1

SELECT uid FROM Users WHERE uid NOT IN (1, NULL)
rows 0

SELECT u.uid FROM Users u LEFT JOIN Albums a ON u.uid = a.uid WHERE a.name IS NULL
rows 2
2
3

SELECT uid FROM
refused 3

SELECT 'abc
refused 2

SELECT u.uid FROM Users u JOIN Albums a ON a.uid = u.uid WHERE u.uid BETWEEN 2 AND 5
rows 1
3

SELECT u.uid FROM Users u LEFT JOIN Albums a ON a.aid = u.uid + 1 WHERE u.uid = 2
rows 1
2

SELECT uid FROM Users WHERE uid > 5 AND uid < 3
rows 0

SELECT * FROM Users
rows 3
1,a
2,b
3,\N

SELECT * FROM Albums;
rows 3
1,10,x
1,11,y
3,10,\N

select Uid, EMAIL from uSERS where UID = 1
rows 1
1,a

# 10: no such table, at each place of a FROM.

SELECT 1 FROM Nope
refused 10

SELECT 1 FROM Users JOIN Nope ON TRUE
refused 10

SELECT 1 FROM Users LEFT JOIN Nope n ON TRUE
refused 10

SELECT 1 FROM (SELECT 1 FROM Nope) x
refused 10

SELECT 1 FROM Users JOIN (SELECT 1 AS a FROM Nope) x ON TRUE
refused 10

SELECT 1 FROM Users UNION ALL SELECT 1 FROM Nope
refused 10

SELECT 1 FROM (SELECT uid FROM Users UNION ALL SELECT aid FROM Nope) x
refused 10

SELECT 1 FROM Users Albums JOIN Nope Users ON TRUE
refused 10

SELECT 1 FROM users_
refused 10

# 11: no such column, or no item of that name, at each place.

SELECT nope FROM Users
refused 11

SELECT Users.nope FROM Users
refused 11

SELECT x.uid FROM Users
refused 11

SELECT x.* FROM Users
refused 11

SELECT Users.uid FROM Users u
refused 11

SELECT Users.* FROM Users u
refused 11

SELECT uid + nope FROM Users
refused 11

SELECT uid FROM Users WHERE nope = 1
refused 11

SELECT uid FROM Users u JOIN Albums a ON nope = 1
refused 11

SELECT 1 FROM Users u JOIN Albums a ON a.uid = b.uid JOIN Albums b ON TRUE
refused 11

SELECT 1 FROM Users u JOIN Users v ON aid = 1 JOIN Albums a ON TRUE
refused 11

SELECT COUNT(*) FROM Users GROUP BY nope
refused 11

SELECT COUNT(*) FROM Users GROUP BY x.uid
refused 11

SELECT COUNT(*) FROM Users HAVING nope = 1
refused 11

SELECT COUNT(nope) FROM Users
refused 11

SELECT uid FROM Users ORDER BY nope
refused 11

SELECT uid AS a FROM Users ORDER BY uid
refused 11

SELECT uid + 0 FROM Users ORDER BY uid
refused 11

SELECT uid AS a FROM Users WHERE a = 1
refused 11

SELECT uid AS a, a FROM Users
refused 11

SELECT COUNT(*) AS n FROM Users HAVING n > 1
refused 11

SELECT COUNT(*), uid AS a FROM Users GROUP BY a
refused 14

SELECT COUNT(*) FROM (SELECT uid AS a FROM Users) x GROUP BY uid
refused 11

SELECT email FROM (SELECT uid FROM Users) x
refused 11

SELECT x.uid FROM (SELECT uid + 0 FROM Users) x
refused 11

SELECT uid FROM Users UNION ALL SELECT nope FROM Users
refused 11

SELECT uid FROM Users UNION ALL SELECT aid FROM Albums ORDER BY aid
refused 11

SELECT CASE nope WHEN 1 THEN 2 END FROM Users
refused 11

SELECT CASE WHEN TRUE THEN 1 ELSE nope END FROM Users
refused 11

SELECT uid FROM Users WHERE uid IN (1, nope)
refused 11

SELECT uid FROM Users WHERE uid BETWEEN 1 AND nope
refused 11

SELECT uid FROM Users WHERE NOT nope LIKE 'a'
refused 11

SELECT uid FROM Users WHERE nope IS NOT NULL
refused 11

SELECT u.uid FROM Users u JOIN (SELECT u.uid FROM Albums) a ON TRUE
refused 11

# 12: a name that fits two columns.

SELECT uid FROM Users u JOIN Albums a ON TRUE
refused 12

SELECT 1 FROM Users u JOIN Albums a ON uid = 1
refused 12

SELECT 1 FROM Users u JOIN Albums a ON TRUE WHERE UID = 1
refused 12

SELECT COUNT(*) FROM Users u JOIN Albums a ON TRUE GROUP BY uid
refused 12

SELECT COUNT(*) FROM Users u JOIN Albums a ON TRUE HAVING uid = 1
refused 12

SELECT SUM(uid) FROM Users u JOIN Albums a ON TRUE
refused 12

SELECT uid, uid FROM Users ORDER BY uid
refused 12

SELECT uid AS n, email AS N FROM Users ORDER BY n
refused 12

SELECT uid AS n, email AS N FROM Users ORDER BY 1 DESC
rows 3
3,\N
2,b
1,a

SELECT x.uid FROM (SELECT uid, uid FROM Users) x
refused 12

SELECT uid FROM (SELECT uid, email AS uid FROM Users) x
refused 12

SELECT * FROM (SELECT uid, uid FROM Users) x
rows 3
1,1
2,2
3,3

SELECT 1 FROM Users u JOIN Users v ON u.uid = v.uid JOIN Albums a ON email = 'a'
refused 12

SELECT name FROM Users u JOIN Albums a ON u.uid = a.uid
rows 3
x
y
\N

# 13: operands of other types, one for each form.

SELECT uid + email FROM Users
refused 13

SELECT email - 1 FROM Users
refused 13

SELECT TRUE * 1 FROM Users
refused 13

SELECT b'a' + 1 FROM Users
refused 13

SELECT -email FROM Users
refused 13

SELECT -TRUE FROM Users
refused 13

SELECT DIV(uid, email) FROM Users
refused 13

SELECT MOD(email, 1) FROM Users
refused 13

SELECT uid = email FROM Users
refused 13

SELECT uid < TRUE FROM Users
refused 13

SELECT email >= b'a' FROM Users
refused 13

SELECT uid BETWEEN 1 AND 'a' FROM Users
refused 13

SELECT uid BETWEEN 'a' AND 1 FROM Users
refused 13

SELECT NULL BETWEEN 1 AND 'a' FROM Users
refused 13

SELECT uid IN (1, 'a') FROM Users
refused 13

SELECT NULL IN (1, 'a') FROM Users
refused 13

SELECT uid IN (NULL, b'') FROM Users
refused 13

SELECT uid AND TRUE FROM Users
refused 13

SELECT TRUE OR email FROM Users
refused 13

SELECT NOT uid FROM Users
refused 13

SELECT uid LIKE 'a' FROM Users
refused 13

SELECT b'a' LIKE 'a' FROM Users
refused 13

SELECT uid || email FROM Users
refused 13

SELECT uid || uid FROM Users
refused 13

SELECT email || b'a' FROM Users
refused 13

SELECT NULL || 1 FROM Users
refused 13

SELECT STARTS_WITH(email, b'a') FROM Users
refused 13

SELECT STARTS_WITH(uid, uid) FROM Users
refused 13

SELECT STARTS_WITH(email) FROM Users
refused 13

SELECT LENGTH(uid) FROM Users
refused 13

SELECT LENGTH(TRUE) FROM Users
refused 13

SELECT LENGTH() FROM Users
refused 13

SELECT LENGTH(email, email) FROM Users
refused 13

SELECT LENGTH(*) FROM Users
refused 13

SELECT IF(uid, 1, 2) FROM Users
refused 13

SELECT IF(TRUE, 1, 'a') FROM Users
refused 13

SELECT IF(TRUE, 1) FROM Users
refused 13

SELECT IF() FROM Users
refused 13

SELECT IF(*) FROM Users
refused 13

SELECT IFNULL(uid, email) FROM Users
refused 13

SELECT IFNULL(uid) FROM Users
refused 13

SELECT IFNULL(uid, 1, 2) FROM Users
refused 13

SELECT COALESCE() FROM Users
refused 13

SELECT COALESCE(NULL, 1, 'a') FROM Users
refused 13

SELECT CASE WHEN uid THEN 1 END FROM Users
refused 13

SELECT CASE WHEN TRUE THEN 1 ELSE 'a' END FROM Users
refused 13

SELECT CASE WHEN TRUE THEN 1 WHEN FALSE THEN 'a' END FROM Users
refused 13

SELECT CASE uid WHEN 'a' THEN 1 END FROM Users
refused 13

SELECT SUM(email) FROM Users
refused 13

SELECT SUM(TRUE) FROM Users
refused 13

SELECT SUM(*) FROM Users
refused 13

SELECT MIN(*) FROM Users
refused 13

SELECT MIN() FROM Users
refused 13

SELECT COUNT() FROM Users
refused 13

SELECT COUNT(uid, uid) FROM Users
refused 13

SELECT MAX(uid, 1) FROM Users
refused 13

SELECT foo(1) FROM Users
refused 13

SELECT foo() FROM Users
refused 13

SELECT foo(*) FROM Users
refused 13

SELECT uid(1) FROM Users
refused 13

# 13 in the other places.

SELECT uid FROM Users WHERE uid
refused 13

SELECT uid FROM Users WHERE email
refused 13

SELECT 1 FROM Users u JOIN Albums a ON u.uid
refused 13

SELECT 1 FROM Users u LEFT JOIN Albums a ON 1
refused 13

SELECT COUNT(*) FROM Users HAVING COUNT(*)
refused 13

SELECT COUNT(*) FROM Users HAVING 'a'
refused 13

SELECT 1 FROM (SELECT 1 + 'a' FROM Users) x
refused 13

SELECT 1 FROM Users UNION ALL SELECT 1 + 'a' FROM Users
refused 13

SELECT x.n FROM (SELECT NULL AS n FROM Users) x WHERE x.n = 'a'
refused 13

SELECT COALESCE(NULL, NULL) || 'a' FROM Users
refused 13

SELECT IFNULL(NULL, NULL) AND TRUE FROM Users
refused 13

SELECT CASE WHEN TRUE THEN NULL END = 'a' FROM Users
refused 13

SELECT (NULL + NULL) || 'a' FROM Users
refused 13

SELECT MIN(NULL) || 'a' FROM Users
refused 13

# 14: not grouped, and aggregates where none may be.

SELECT uid, COUNT(*) FROM Users
refused 14

SELECT * FROM Users GROUP BY uid
refused 14

SELECT u.* FROM Users u GROUP BY email
refused 14

SELECT email FROM Users HAVING TRUE
refused 14

SELECT 1 FROM Users HAVING uid = 1
refused 14

SELECT COUNT(*) FROM Users GROUP BY email HAVING uid > 1
refused 14

SELECT email FROM Users GROUP BY email HAVING uid > 1
refused 14

SELECT SUM(uid) + uid FROM Users
refused 14

SELECT CASE WHEN FALSE THEN uid ELSE COUNT(*) END FROM Users
refused 14

SELECT uid FROM Users WHERE COUNT(*) > 1
refused 14

SELECT 1 FROM Users WHERE COUNT(*) > 1
refused 14

SELECT 1 FROM Users WHERE SUM(uid) > 1
refused 14

SELECT 1 FROM Users u JOIN Albums a ON COUNT(*) > 1
refused 14

SELECT 1 FROM Users u JOIN Albums a ON MAX(u.uid) = 1
refused 14

SELECT SUM(SUM(uid)) FROM Users
refused 14

SELECT COUNT(COUNT(*)) FROM Users
refused 14

SELECT MIN(1 + MAX(uid)) FROM Users
refused 14

SELECT 1 FROM Users HAVING MIN(COUNT(*)) = 1
refused 14

SELECT a.uid FROM Users u JOIN Albums a ON u.uid = a.uid GROUP BY u.uid
refused 14

SELECT 1 FROM (SELECT uid, COUNT(*) FROM Users) x
refused 14

SELECT 1 FROM Users UNION ALL SELECT uid FROM Users HAVING TRUE
refused 14

SELECT uid + 1 FROM Users GROUP BY email
refused 14

# The same column under another spelling is grouped.

SELECT u.uid, UID FROM Users u GROUP BY uid
rows 3
1,1
2,2
3,3

SELECT uid FROM Users u GROUP BY U.UID, u.uid
rows 3
1
2
3

SELECT * FROM Users GROUP BY email, uid
rows 3
1,a
2,b
3,\N

SELECT uid + 1, COUNT(email) FROM Users GROUP BY uid
rows 3
2,1
3,1
4,0

# 15: patterns.

SELECT email LIKE '\\a' FROM Users
refused 15

SELECT email LIKE 'a\\' FROM Users
refused 15

SELECT email LIKE '\\\\\\' FROM Users
refused 15

SELECT NULL LIKE '\\x' FROM Users
refused 15

SELECT uid FROM Users WHERE email NOT LIKE '%\\'
refused 15

SELECT 1 FROM Users u JOIN Albums a ON a.name LIKE '\\n'
refused 15

SELECT 1 FROM Users HAVING MIN(email) LIKE '\\-'
refused 15

SELECT email LIKE '\\%\\_\\\\' FROM Users
rows 3
false
false
\N

# 16: ordinals.

SELECT uid FROM Users ORDER BY 0
refused 16

SELECT uid, email FROM Users ORDER BY 3
refused 16

SELECT * FROM Users ORDER BY 2 DESC, 3
refused 16

SELECT * FROM Users ORDER BY 2 DESC
rows 3
2,b
1,a
3,\N

SELECT uid FROM Users ORDER BY 9223372036854775807
refused 16

SELECT uid FROM Users UNION ALL SELECT aid FROM Albums ORDER BY 2
refused 16

SELECT 1 FROM (SELECT uid FROM Users ORDER BY 2) x
refused 16

# 17: parameters.

SELECT @p FROM Users
refused 17

SELECT uid FROM Users WHERE uid = @p
refused 17

SELECT 1 FROM Users u JOIN Albums a ON u.uid = @p
refused 17

SELECT COUNT(@p) FROM Users
refused 17

SELECT 1 FROM Users HAVING @p
refused 17

SELECT 1 FROM (SELECT @p FROM Users) x
refused 17

SELECT 1 FROM Users UNION ALL SELECT @p FROM Users
refused 17

param p INT64 2
SELECT @q FROM Users
refused 17

param p INT64 2
SELECT uid FROM Users WHERE uid = @P
rows 1
2

param p INT64 2
param p INT64 3
SELECT uid FROM Users WHERE uid = @p
rows 1
3

param p STRING 2
SELECT uid FROM Users WHERE uid = @p
refused 13

param p INT64 \N
SELECT uid, uid = @p FROM Users
rows 3
1,\N
2,\N
3,\N

param p STRING \N
SELECT uid + @p FROM Users
refused 13

param p STRING 
SELECT uid, email || @p FROM Users
rows 3
1,a
2,b
3,\N

param low INT64 2
param Text STRING b
SELECT uid FROM Users WHERE uid >= @LOW AND email = @text
rows 1
2

param p BOOL true
SELECT uid FROM Users WHERE @p LIMIT 1
rows 1
1

param p BYTES \x
SELECT uid, LENGTH(@p) FROM Users LIMIT 1
rows 1
1,0

param p INT64 -9223372036854775808
SELECT @p FROM Users LIMIT 1
rows 1
-9223372036854775808

param p INT64 -9223372036854775808
SELECT -@p FROM Users LIMIT 1
refused 62

param p STRING a\\%
SELECT @p, LENGTH(@p) FROM Users LIMIT 1
rows 1
a\\%,3

# 18: two items of one name.

SELECT 1 FROM Users JOIN Users ON TRUE
refused 18

SELECT 1 FROM Users JOIN USERS ON TRUE
refused 18

SELECT 1 FROM Users JOIN Albums Users ON TRUE
refused 18

SELECT 1 FROM Users x JOIN (SELECT 1 FROM Users) X ON TRUE
refused 18

SELECT 1 FROM (SELECT 1 FROM Users) x LEFT JOIN (SELECT 1 FROM Users) x ON TRUE
refused 18

SELECT 1 FROM Users u JOIN Albums a ON TRUE JOIN Albums u ON TRUE
refused 18

SELECT 1 FROM (SELECT 1 FROM Users u JOIN Users u ON TRUE) x
refused 18

SELECT COUNT(*) FROM Users JOIN Users u ON TRUE
rows 1
9

SELECT COUNT(*) FROM Users u JOIN (SELECT u.uid FROM Users u) v ON TRUE
rows 1
9

SELECT COUNT(*) FROM Users Albums JOIN Albums Users ON Albums.email IS NOT NULL AND Users.aid > 0
rows 1
6

# 19: the ninth table name of a text.

SELECT COUNT(*) FROM Users a JOIN Users b ON TRUE JOIN Users c ON TRUE JOIN Users d ON TRUE JOIN Users e ON TRUE JOIN Users f ON TRUE JOIN Users g ON TRUE JOIN Users h ON TRUE WHERE a.uid = 1
rows 1
2187

SELECT COUNT(*) FROM Users a JOIN Users b ON TRUE JOIN Users c ON TRUE JOIN Users d ON TRUE JOIN Users e ON TRUE JOIN Users f ON TRUE JOIN Users g ON TRUE JOIN Users h ON TRUE JOIN Users i ON TRUE
refused 19

SELECT 1 FROM Users UNION ALL SELECT 1 FROM Users UNION ALL SELECT 1 FROM Users UNION ALL SELECT 1 FROM Users UNION ALL SELECT 1 FROM Users UNION ALL SELECT 1 FROM Users UNION ALL SELECT 1 FROM Users UNION ALL SELECT 1 FROM Users UNION ALL SELECT 1 FROM Users
refused 19

SELECT COUNT(*) FROM (SELECT 1 FROM Users UNION ALL SELECT 1 FROM Users UNION ALL SELECT 1 FROM Users UNION ALL SELECT 1 FROM Users UNION ALL SELECT 1 FROM Users UNION ALL SELECT 1 FROM Users UNION ALL SELECT 1 FROM Users UNION ALL SELECT 1 FROM Users) x
rows 1
24

SELECT COUNT(*) FROM (SELECT 1 FROM Users a JOIN Users b ON TRUE JOIN Users c ON TRUE JOIN Users d ON TRUE) x JOIN (SELECT 1 FROM Users a JOIN Users b ON TRUE JOIN Users c ON TRUE JOIN Users d ON TRUE) y ON TRUE JOIN Users ON TRUE
refused 19

SELECT 1 FROM Users a JOIN Users b ON TRUE JOIN Users c ON TRUE JOIN Users d ON TRUE JOIN Users e ON TRUE JOIN Users f ON TRUE JOIN Users g ON TRUE JOIN Users h ON TRUE JOIN Nope i ON TRUE
refused 19

SELECT 1 FROM Users a JOIN Users b ON TRUE JOIN Users c ON TRUE JOIN Users d ON TRUE JOIN Users e ON TRUE JOIN Users f ON TRUE JOIN Users g ON TRUE JOIN Nope h ON TRUE JOIN Users i ON TRUE
refused 10

SELECT nope FROM Users a JOIN Users b ON TRUE JOIN Users c ON TRUE JOIN Users d ON TRUE JOIN Users e ON TRUE JOIN Users f ON TRUE JOIN Users g ON TRUE JOIN Users h ON TRUE JOIN Users a ON nope
refused 19

SELECT nope FROM Users a JOIN Users b ON TRUE JOIN Users c ON TRUE JOIN Users d ON TRUE UNION ALL SELECT 1 FROM Users a JOIN Users b ON TRUE JOIN Users c ON TRUE JOIN Users d ON TRUE JOIN Users e ON TRUE
refused 11

SELECT 1 FROM Users a JOIN Users b ON TRUE JOIN Users c ON TRUE JOIN Users d ON TRUE UNION ALL SELECT nope FROM Users a JOIN Users b ON TRUE JOIN Users c ON TRUE JOIN Users d ON TRUE JOIN Users e ON TRUE
refused 19

# 20: blocks of a union that differ.

SELECT uid FROM Users UNION ALL SELECT name FROM Albums
refused 20

SELECT uid FROM Users UNION ALL SELECT uid, uid FROM Users
refused 20

SELECT * FROM Users UNION ALL SELECT * FROM Albums
refused 20

SELECT uid FROM Users UNION ALL SELECT uid FROM Users UNION ALL SELECT TRUE FROM Users
refused 20

SELECT NULL FROM Users UNION ALL SELECT 'a' FROM Users
refused 20

SELECT 'a' FROM Users UNION ALL SELECT NULL FROM Users
refused 20

SELECT b'a' FROM Users UNION ALL SELECT 'a' FROM Users
refused 20

SELECT 1 FROM (SELECT 1 FROM Users UNION ALL SELECT 'a' FROM Users) x
refused 20

SELECT NULL FROM Users UNION ALL SELECT uid FROM Users
rows 6
\N
\N
\N
1
2
3

# The order in which faults are met: FROM from the left, select list, WHERE, GROUP BY, HAVING, union, ORDER BY.

SELECT nope FROM Nope
refused 10

SELECT 1 FROM Users u JOIN Users v ON nope = 1 JOIN Nope w ON TRUE
refused 11

SELECT 1 FROM Users u JOIN Nope v ON TRUE JOIN Users w ON nope = 1
refused 10

SELECT 1 FROM Nope u JOIN Users u ON TRUE
refused 10

SELECT 1 FROM Users u JOIN Nope u ON TRUE
refused 10

SELECT 1 FROM Users u JOIN Users u ON nope
refused 18

SELECT 1 FROM Users u JOIN Users u ON TRUE JOIN Nope v ON TRUE
refused 18

SELECT 1 FROM Users x JOIN (SELECT nope FROM Users) x ON TRUE
refused 11

SELECT 1 FROM Users x JOIN (SELECT 1 FROM Users UNION ALL SELECT 'a' FROM Users) x ON TRUE
refused 20

SELECT 1 FROM Users x JOIN (SELECT 1 FROM Users ORDER BY 2) x ON TRUE
refused 16

SELECT nope FROM Users u JOIN Albums a ON 1
refused 13

SELECT 1 + 'a' FROM Users WHERE nope
refused 13

SELECT @p FROM Users WHERE nope = 1
refused 17

SELECT 1 FROM Users WHERE @p GROUP BY nope
refused 17

SELECT email FROM Users GROUP BY nope
refused 14

SELECT 1 FROM Users WHERE COUNT(*) = 1 GROUP BY nope
refused 14

SELECT 1 FROM Users GROUP BY nope HAVING @p
refused 11

SELECT 1 FROM Users GROUP BY uid, nope HAVING 1
refused 11

SELECT COUNT(*) FROM Users u JOIN Albums a ON TRUE GROUP BY uid, nope
refused 12

SELECT COUNT(*) FROM Users u JOIN Albums a ON TRUE GROUP BY nope, uid
refused 11

SELECT a.aid FROM Users u JOIN Albums a ON TRUE GROUP BY aid, uid
refused 12

SELECT u.uid FROM Users u JOIN Albums a ON TRUE GROUP BY uid
refused 14

SELECT 1 FROM Users HAVING email LIKE '\\a' UNION ALL SELECT nope FROM Users
refused 14

SELECT 1 FROM Users UNION ALL SELECT nope, 'a' FROM Users
refused 11

SELECT 1 FROM Users UNION ALL SELECT 'a' FROM Users ORDER BY 2
refused 20

SELECT 1 FROM Users UNION ALL SELECT 'a' FROM Users UNION ALL SELECT nope FROM Users
refused 11

SELECT uid FROM Users HAVING TRUE ORDER BY 0
refused 14

SELECT uid, email FROM Users ORDER BY 0, nope
refused 16

SELECT uid, email FROM Users ORDER BY nope, 0
refused 11

SELECT uid, uid FROM Users ORDER BY 1, uid, 3
refused 12

SELECT uid, nope FROM Users WHERE COUNT(*) > 1
refused 14

SELECT nope, uid FROM Users WHERE COUNT(*) > 1
refused 11

SELECT uid FROM Users u JOIN Albums a ON COUNT(*) > 1
refused 14

SELECT nope FROM Users u JOIN Albums a ON SUM(u.uid) > 1
refused 14

SELECT x.nope, 1 + 'a' FROM Users
refused 11

SELECT 1 + 'a', x.nope FROM Users
refused 13

SELECT *, nope FROM Users GROUP BY uid
refused 14

SELECT nope, * FROM Users GROUP BY uid
refused 11

# Operands before their operator; at one operator the lower number.

SELECT foo(nope) FROM Users
refused 11

SELECT foo(@p) FROM Users
refused 17

SELECT foo(1 + 'a', nope) FROM Users
refused 13

SELECT LENGTH(nope, 1) FROM Users
refused 11

SELECT LENGTH(1, nope) FROM Users
refused 11

SELECT LENGTH(1, @p) FROM Users
refused 17

SELECT SUM(nope) FROM Users WHERE TRUE
refused 11

SELECT 1 FROM Users WHERE SUM(nope) = 1
refused 11

SELECT 1 FROM Users WHERE SUM(email) = 1
refused 13

SELECT 1 FROM Users WHERE SUM(*) = 1
refused 13

SELECT 1 FROM Users WHERE SUM(uid) = 'a'
refused 14

SELECT SUM(SUM(email)) FROM Users
refused 13

SELECT SUM(LENGTH(SUM(uid))) FROM Users
refused 14

SELECT COUNT(COUNT(nope)) FROM Users
refused 11

SELECT uid LIKE '\\a' FROM Users
refused 13

SELECT nope LIKE '\\a' FROM Users
refused 11

SELECT @p LIKE '\\a' FROM Users
refused 17

SELECT (uid + 'a') LIKE '\\a' FROM Users
refused 13

SELECT 1 AND TRUE AND nope FROM Users
refused 13

SELECT 1 AND nope FROM Users
refused 11

SELECT nope AND 1 FROM Users
refused 11

SELECT TRUE OR 1 OR nope FROM Users
refused 13

SELECT TRUE OR 1 AND nope FROM Users
refused 11

SELECT 1 + 'a' + nope FROM Users
refused 13

SELECT 1 + 'a' * nope FROM Users
refused 11

SELECT uid + 'a' = nope FROM Users
refused 13

SELECT uid = 'a' AND nope FROM Users
refused 13

SELECT uid BETWEEN 'a' AND nope FROM Users
refused 11

SELECT uid IN ('a', nope) FROM Users
refused 11

SELECT uid IN ('a', @p, nope) FROM Users
refused 17

SELECT CASE uid WHEN 'a' THEN nope END FROM Users
refused 13

SELECT CASE uid WHEN nope THEN @p END FROM Users
refused 11

SELECT CASE nope WHEN @p THEN 1 END FROM Users
refused 11

SELECT CASE WHEN 1 THEN nope END FROM Users
refused 11

SELECT CASE WHEN 1 THEN 2 ELSE @p END FROM Users
refused 17

SELECT CASE WHEN TRUE THEN 1 WHEN TRUE THEN 'a' ELSE nope END FROM Users
refused 11

SELECT CASE uid WHEN 1 THEN 'a' WHEN 'b' THEN nope END FROM Users
refused 13

SELECT CASE uid WHEN 1 THEN 'a' WHEN 2 THEN 3 WHEN nope THEN 1 END FROM Users
refused 11

SELECT CASE NULL WHEN 1 THEN 1 WHEN 'a' THEN 2 ELSE 3 END FROM Users
rows 3
3
3
3

SELECT IF(1, nope, 2) FROM Users
refused 11

SELECT IF(nope, 1, 'a') FROM Users
refused 11

SELECT IF(1, 'a', @p) FROM Users
refused 17

SELECT COALESCE(1, 'a', nope) FROM Users
refused 11

SELECT NOT (uid AND nope) FROM Users
refused 11

SELECT -(email || nope) FROM Users
refused 11

SELECT email, COUNT(1 + 'a') FROM Users
refused 14

SELECT COUNT(1 + 'a'), email FROM Users
refused 13

SELECT COUNT(uid), SUM(email + 1) FROM Users
refused 13

# A fault of binding comes before every fault of arithmetic.

SELECT DIV(1, 0) FROM Users ORDER BY 2
refused 16

SELECT nope FROM Users WHERE DIV(1, 0) = 1
refused 11

SELECT uid FROM Users WHERE DIV(1, 0) = 1 UNION ALL SELECT 'a' FROM Users
refused 20

# Texts of no tree, and names that look like words.

SELECT uid FROM Users limit
refused 3

SELECT uid FROM Users OFFSET 1
refused 3

SELECT uid FROM Users offset LIMIT 1 OFFSET 1
rows 1
2

SELECT CROSS.uid, Albums.aid FROM Users CROSS JOIN Albums ON CROSS.uid = Albums.uid
rows 3
1,10
1,11
3,10

SELECT uid AS key FROM Users ORDER BY key DESC
rows 3
3
2
1

SELECT uid div, email mod FROM Users WHERE uid = 1
rows 1
1,a

SELECT 1 FROM Users WHERE a = b = c
refused 3

SELECT 1 FROM (SELECT 1 FROM Users)
refused 3

SELECT 1 FROM Users UNION SELECT 1 FROM Users
refused 3

SELECT 1 FROM Users UNION DISTINCT SELECT 1 FROM Users
refused 3

SELECT 1.5 FROM Users
refused 3

SELECT 1 / 2 FROM Users
refused 2

SELECT 9223372036854775808 FROM Users
refused 2

SELECT nope FROM Nope WHERE 'abc
refused 2

SELECT uid FROM Users LIMIT -1
refused 3

SELECT uid FROM Users ORDER BY uid + 1
refused 3

SELECT COUNT(DISTINCT uid) FROM Users
refused 3

SELECT 1--1 FROM Users
refused 3

SELECT 007, - 5, - -5, -(5), 2 - -3 FROM Users LIMIT 001
rows 1
7,-5,5,-5,5

SELECT NOT NOT NOT TRUE, NOT NULL IS NULL FROM Users LIMIT 1
rows 1
false,false

SELECT 1 + 2 * 3 - 4, (1 + 2) * 3, 2 - 3 - 4, -2 * -3 FROM Users LIMIT 1
rows 1
3,9,-5,6

SELECT TRUE OR FALSE AND FALSE, NOT FALSE AND FALSE, NOT (FALSE AND FALSE), NOT 1 = 2 FROM Users LIMIT 1
rows 1
true,false,true,true

SELECT "a'b", 'a"b', "a\"b", 'a\'b', 'a\\b', '\x41\u00e9', 'tab\tend' FROM Users LIMIT 1
rows 1
a'b,"a""b","a""b",a'b,a\\b,Aé,tab	end

# Output names.

SELECT x.uid FROM (SELECT (uid) FROM Users) x
rows 3
1
2
3

SELECT y FROM (SELECT uid AS y FROM Users UNION ALL SELECT aid AS z FROM Albums) x ORDER BY y
rows 6
1
2
3
10
10
11

SELECT z FROM (SELECT uid AS y FROM Users UNION ALL SELECT aid AS z FROM Albums) x
refused 11

SELECT uid Email, email FROM Users ORDER BY EMAIL
refused 12

SELECT email AS uid, uid AS email FROM Users ORDER BY uid DESC, email
rows 3
b,2
a,1
\N,3

SELECT * FROM (SELECT uid + 1, email FROM Users) x ORDER BY 1 DESC LIMIT 1
rows 1
4,\N

SELECT x.*, uid FROM (SELECT email FROM Users) x JOIN Users u ON x.email = u.email
rows 2
a,1
b,2

# Joins, unions, ORDER BY, LIMIT and OFFSET.

SELECT u.uid, a.uid, a.aid FROM Users u LEFT JOIN Albums a ON a.uid = u.uid
rows 4
1,1,10
1,1,11
2,\N,\N
3,3,10

SELECT u.uid, a.aid FROM Users u LEFT JOIN Albums a ON FALSE
rows 3
1,\N
2,\N
3,\N

SELECT u.uid, a.aid FROM Users u LEFT JOIN Albums a ON NULL
rows 3
1,\N
2,\N
3,\N

SELECT u.uid, a.aid FROM Users u JOIN Albums a ON NULL
rows 0

SELECT a.aid, u.uid FROM Albums a JOIN Users u ON u.uid >= a.uid
rows 7
10,1
10,2
10,3
11,1
11,2
11,3
10,3

SELECT a.aid, u.email, b.name FROM Albums a LEFT JOIN Users u ON u.uid = a.uid + 1 LEFT JOIN Albums b ON b.uid = u.uid
rows 3
10,b,\N
11,b,\N
10,\N,\N

SELECT u.uid, v.uid FROM Users u JOIN Users v ON u.email < v.email OR v.email IS NULL
rows 4
1,2
1,3
2,3
3,3

SELECT u.uid FROM Users u LEFT JOIN Albums a ON a.uid = u.uid AND a.aid = 10 WHERE a.aid IS NULL
rows 1
2

SELECT u.uid FROM Users u LEFT JOIN Albums a ON a.uid = u.uid WHERE a.aid = 10
rows 2
1
3

SELECT u.uid FROM Users u LEFT JOIN Albums a ON u.uid = 1 AND a.name IS NULL
rows 3
1
2
3

SELECT uid FROM Users UNION ALL SELECT aid FROM Albums
rows 6
1
2
3
10
11
10

SELECT uid FROM Users UNION ALL SELECT aid FROM Albums LIMIT 2 OFFSET 2
rows 2
3
10

SELECT uid, 1 FROM Users UNION ALL SELECT aid, 2 FROM Albums UNION ALL SELECT uid, 3 FROM Users WHERE uid > 2 ORDER BY uid DESC
rows 7
11,2
10,2
10,2
3,1
3,3
2,1
1,1

SELECT DISTINCT uid FROM Albums UNION ALL SELECT DISTINCT aid FROM Albums UNION ALL SELECT aid FROM Albums
rows 7
1
3
10
11
10
11
10

SELECT uid FROM Users LIMIT 0
rows 0

SELECT uid FROM Users LIMIT 0 OFFSET 1
rows 0

SELECT uid FROM Users LIMIT 2 OFFSET 0
rows 2
1
2

SELECT uid FROM Users LIMIT 2 OFFSET 2
rows 1
3

SELECT uid FROM Users LIMIT 2 OFFSET 3
rows 0

SELECT uid FROM Users LIMIT 2 OFFSET 9223372036854775807
rows 0

SELECT uid FROM Users LIMIT 9223372036854775807 OFFSET 1
rows 2
2
3

SELECT uid FROM Users LIMIT 9223372036854775807
rows 3
1
2
3

SELECT aid, uid FROM Albums ORDER BY 1
rows 3
10,1
10,3
11,1

SELECT aid, uid FROM Albums ORDER BY aid DESC
rows 3
11,1
10,1
10,3

SELECT aid, name FROM Albums ORDER BY name, aid DESC
rows 3
10,\N
10,x
11,y

SELECT name, aid FROM Albums ORDER BY 1 DESC, 2
rows 3
y,11
x,10
\N,10

# Faults, and what doesn't hide them.

SELECT DIV(1, uid - 3) FROM Users LIMIT 1
refused 62

SELECT DIV(1, uid - 3) FROM Users LIMIT 0
refused 62

SELECT DIV(6, uid) FROM Users WHERE uid < 3 LIMIT 1 OFFSET 1
rows 1
3

SELECT DIV(1, uid - 3) FROM Users WHERE uid < 3
rows 2
0
-1

SELECT DIV(1, uid - 1) FROM Users LIMIT 2 OFFSET 1
refused 62

SELECT uid FROM Users WHERE DIV(1, uid - 3) = 1
refused 62

SELECT uid FROM Users WHERE uid < 3 AND DIV(1, uid - 3) = -1
rows 1
2

SELECT uid FROM Users WHERE uid > 1 AND DIV(1, uid - 3) = -1
refused 62

SELECT uid FROM Users WHERE DIV(1, uid - 3) = -1 OR uid = 3
rows 2
2
3

SELECT uid FROM Users WHERE NULL AND DIV(1, 0) = 1
rows 0

SELECT uid FROM Users WHERE (NULL OR DIV(1, 0) = 1) IS NULL
rows 3
1
2
3

SELECT uid FROM Users WHERE NOT (FALSE AND DIV(1, 0) = 1)
rows 3
1
2
3

SELECT u.uid FROM Users u JOIN Albums a ON DIV(1, u.uid - 2) = 1 AND u.uid = a.uid
rows 1
3

SELECT u.uid FROM Users u JOIN Albums a ON DIV(1, u.uid - 2) = 1 AND a.aid = 10
refused 62

SELECT u.uid FROM Users u JOIN Albums a ON DIV(1, u.uid - 2) = 1 WHERE u.uid <> 2
refused 62

SELECT u.uid FROM Users u LEFT JOIN Albums a ON DIV(1, a.aid - 11) = -1 WHERE FALSE
refused 62

SELECT u.uid FROM Users u JOIN Albums a ON u.uid = a.uid JOIN Users v ON DIV(1, v.uid - 2) = 1 AND FALSE
rows 0

SELECT u.uid FROM (SELECT uid FROM Users WHERE FALSE) u JOIN Albums a ON DIV(1, 0) = 1
rows 0

SELECT u.uid FROM Users u JOIN (SELECT uid FROM Users WHERE FALSE) a ON DIV(1, 0) = 1
rows 0

SELECT u.uid FROM (SELECT uid FROM Users WHERE FALSE) u JOIN (SELECT DIV(1, 0) AS a FROM Users) a ON FALSE
refused 62

SELECT 1 FROM (SELECT DIV(1, 0) AS a FROM Users LIMIT 0) x
refused 62

SELECT 1 FROM (SELECT uid FROM Users) x WHERE FALSE UNION ALL SELECT DIV(1, 0) FROM Users LIMIT 0
refused 62

SELECT 1 FROM Users LIMIT 1
rows 1
1

SELECT 1 FROM Users UNION ALL SELECT DIV(uid, 0) FROM Users LIMIT 1
refused 62

SELECT DISTINCT DIV(uid, uid - 2) FROM Users
refused 62

SELECT SUM(DIV(1, uid - 2)) FROM Users
refused 62

SELECT COUNT(DIV(1, uid - 2)) FROM Users
refused 62

SELECT MIN(DIV(1, uid - 2)) FROM Users
refused 62

SELECT MAX(DIV(1, uid - 2)) FROM Users HAVING FALSE
refused 62

SELECT IF(TRUE, 1, SUM(DIV(1, 0))) FROM Users
refused 62

SELECT CASE WHEN COUNT(*) = 3 THEN 1 ELSE SUM(DIV(1, uid - 2)) END FROM Users
refused 62

SELECT CASE WHEN COUNT(*) = 3 THEN 1 ELSE DIV(1, COUNT(*) - 3) END FROM Users
rows 1
1

SELECT DIV(1, COUNT(*) - 3) FROM Users
refused 62

SELECT DIV(1, COUNT(*) - 3) FROM Users HAVING COUNT(*) <> 3
rows 0

SELECT COUNT(*) FROM Users GROUP BY uid HAVING DIV(1, uid - 2) = 1
refused 62

SELECT uid FROM Users GROUP BY uid HAVING uid <> 2 AND DIV(2, uid - 2) > 0
rows 1
3

SELECT DIV(1, uid - 2) FROM Users GROUP BY uid HAVING uid <> 2
rows 2
-1
1

SELECT COUNT(*) FROM Users WHERE uid = 2 OR DIV(1, uid - 2) = 1
rows 1
2

# Aggregates.

SELECT COUNT(*), COUNT(email), COUNT(NULL), SUM(uid), MIN(email), MAX(email), MIN(uid), MAX(uid) FROM Users
rows 1
3,2,0,6,a,b,1,3

SELECT COUNT(*), COUNT(email), SUM(uid), MIN(email), MAX(uid) FROM Users WHERE FALSE
rows 1
0,0,\N,\N,\N

SELECT COUNT(*) FROM Users WHERE FALSE GROUP BY uid
rows 0

SELECT COUNT(email), SUM(NULL), MIN(NULL), MAX(email) FROM Users WHERE email IS NULL
rows 1
0,\N,\N,\N

SELECT COUNT(uid + 1), SUM(uid * uid) - SUM(uid), SUM(-uid) FROM Users
rows 1
3,8,-6

SELECT MIN(email) || MAX(email), COUNT(*) + COUNT(*) FROM Users
rows 1
ab,6

SELECT MIN(uid = 1), MAX(uid = 1), MIN(b'a' || b'b') FROM Users
rows 1
false,true,\x6162

SELECT SUM(uid), SUM(uid) FROM Users HAVING SUM(uid) = 6
rows 1
6,6

SELECT 1 FROM Users HAVING TRUE
rows 1
1

SELECT 'one' FROM Users HAVING NULL
rows 0

SELECT 1 FROM Users WHERE FALSE HAVING TRUE
rows 1
1

SELECT 1 FROM Users HAVING COUNT(*) = 3 AND MIN(email) = 'a'
rows 1
1

SELECT 1, 'x' FROM Users WHERE uid > 1 HAVING 1 = 1
rows 1
1,x

SELECT uid FROM Albums GROUP BY uid
rows 2
1
3

SELECT aid, COUNT(*), COUNT(name), MAX(name) FROM Albums GROUP BY aid
rows 2
10,2,1,x
11,1,1,y

SELECT COUNT(*) FROM Albums GROUP BY aid ORDER BY 1
rows 2
1
2

SELECT aid, MIN(uid) AS first FROM Albums GROUP BY aid HAVING COUNT(*) > 1 ORDER BY first
rows 1
10,1

SELECT u.email, COUNT(a.aid) AS n FROM Users u LEFT JOIN Albums a ON a.uid = u.uid GROUP BY u.email ORDER BY n, email
rows 3
b,0
\N,1
a,2

SELECT x.aid, x.n + 1 FROM (SELECT aid, COUNT(*) n FROM Albums GROUP BY aid) AS x WHERE x.n > 1
rows 1
10,3

SELECT SUM(n), COUNT(*) FROM (SELECT COUNT(*) AS n FROM Albums GROUP BY uid) x
rows 1
3,2

SELECT DISTINCT COUNT(*) FROM Albums GROUP BY uid, aid
rows 1
1

SELECT aid FROM (SELECT aid, uid FROM Albums ORDER BY aid DESC, uid DESC) x
rows 3
11
10
10

SELECT aid, uid FROM (SELECT aid, uid FROM Albums ORDER BY uid DESC LIMIT 2) x ORDER BY aid
rows 2
10,3
10,1

SELECT y.k FROM (SELECT x.uid AS k FROM (SELECT uid FROM Users WHERE uid > 1) x WHERE x.uid < 3) y
rows 1
2

SELECT u.uid, x.m FROM Users u LEFT JOIN (SELECT uid, MAX(aid) m FROM Albums GROUP BY uid HAVING MAX(aid) > 10) x ON x.uid = u.uid
rows 3
1,11
2,\N
3,\N

# CASE, IF, IFNULL and COALESCE evaluate what is chosen alone.

SELECT CASE WHEN uid = 1 THEN 'one' WHEN uid = 2 THEN 'two' END FROM Users
rows 3
one
two
\N

SELECT CASE uid WHEN 1 THEN 'one' WHEN 2 THEN 'two' ELSE 'more' END FROM Users
rows 3
one
two
more

SELECT CASE email WHEN NULL THEN 1 WHEN 'a' THEN 2 ELSE 3 END FROM Users
rows 3
2
3
3

SELECT CASE WHEN NULL THEN 1 WHEN FALSE THEN 2 ELSE 3 END FROM Users LIMIT 1
rows 1
3

SELECT CASE WHEN email IS NULL THEN DIV(1, 0) ELSE 1 END FROM Users WHERE uid < 3
rows 2
1
1

SELECT CASE WHEN email IS NULL THEN DIV(1, 0) ELSE 1 END FROM Users
refused 62

SELECT CASE WHEN TRUE THEN 1 WHEN DIV(1, 0) = 1 THEN 2 END FROM Users
rows 3
1
1
1

SELECT CASE WHEN FALSE THEN 1 WHEN DIV(1, 0) = 1 THEN 2 END FROM Users
refused 62

SELECT CASE uid WHEN 1 THEN 1 WHEN DIV(1, 0) THEN 2 END FROM Users WHERE uid = 1
rows 1
1

SELECT CASE uid WHEN 1 THEN 1 WHEN DIV(1, 0) THEN 2 END FROM Users
refused 62

SELECT CASE DIV(1, 0) WHEN 1 THEN 1 ELSE 2 END FROM Users
refused 62

SELECT CASE WHEN FALSE AND DIV(1, 0) = 1 THEN 1 ELSE 2 END FROM Users LIMIT 1
rows 1
2

SELECT CASE WHEN NULL AND DIV(1, 0) = 1 THEN 1 ELSE 2 END FROM Users LIMIT 1
rows 1
2

SELECT IF(NULL, DIV(1, 0), 2), IF(FALSE, DIV(1, 0), 3), IF(TRUE, 4, DIV(1, 0)) FROM Users LIMIT 1
rows 1
2,3,4

SELECT IF(DIV(1, 0) = 1, 1, 1) FROM Users
refused 62

SELECT IF(uid = 2, NULL, email) FROM Users
rows 3
a
\N
\N

SELECT IF(TRUE, NULL, NULL), IF(NULL, 'a', NULL), IF(FALSE, NULL, b'a') FROM Users LIMIT 1
rows 1
\N,\N,\x61

SELECT IFNULL(email, 'none') FROM Users
rows 3
a
b
none

SELECT IFNULL(1, DIV(1, 0)), COALESCE(NULL, 2, DIV(1, 0)) FROM Users LIMIT 1
rows 1
1,2

SELECT IFNULL(NULL, DIV(1, 0)) FROM Users
refused 62

SELECT IFNULL(DIV(1, 0), 1) FROM Users
refused 62

SELECT COALESCE(NULL, DIV(1, 0), 1) FROM Users
refused 62

SELECT COALESCE(email), COALESCE(NULL), COALESCE(NULL, NULL, email, 'z') FROM Users
rows 3
a,\N,a
b,\N,b
\N,\N,z

SELECT CASE WHEN TRUE THEN NULL ELSE b'a' END, CASE WHEN FALSE THEN NULL END FROM Users LIMIT 1
rows 1
\N,\N

SELECT CASE TRUE WHEN uid = 2 THEN 'second' ELSE 'other' END FROM Users
rows 3
other
second
other

# Every pair of places of a fault, the second place after the first in the stated order: the first is answered.

SELECT 1 FROM Nope u JOIN Albums U ON TRUE
refused 10

SELECT 1 FROM Nope u JOIN Albums a ON @p
refused 10

SELECT 1 + 'a' FROM Nope u JOIN Albums a ON TRUE
refused 10

SELECT 1 FROM Nope u JOIN Albums a ON TRUE WHERE u.email LIKE '\\a'
refused 10

SELECT 1 FROM Nope u JOIN Albums a ON TRUE GROUP BY uid
refused 10

SELECT 1 FROM Nope u JOIN Albums a ON TRUE HAVING SUM(SUM(u.uid)) = 1
refused 10

SELECT 1 FROM Nope u JOIN Albums a ON TRUE UNION ALL SELECT nope FROM Users
refused 10

SELECT 1 FROM Nope u JOIN Albums a ON TRUE UNION ALL SELECT 'a' FROM Users
refused 10

SELECT 1 FROM Nope u JOIN Albums a ON TRUE ORDER BY 2
refused 10

SELECT 1 FROM Users u JOIN Albums U ON @p
refused 18

SELECT 1 + 'a' FROM Users u JOIN Albums U ON TRUE
refused 18

SELECT 1 FROM Users u JOIN Albums U ON TRUE WHERE u.email LIKE '\\a'
refused 18

SELECT 1 FROM Users u JOIN Albums U ON TRUE GROUP BY uid
refused 18

SELECT 1 FROM Users u JOIN Albums U ON TRUE HAVING SUM(SUM(u.uid)) = 1
refused 18

SELECT 1 FROM Users u JOIN Albums U ON TRUE UNION ALL SELECT nope FROM Users
refused 18

SELECT 1 FROM Users u JOIN Albums U ON TRUE UNION ALL SELECT 'a' FROM Users
refused 18

SELECT 1 FROM Users u JOIN Albums U ON TRUE ORDER BY 2
refused 18

SELECT 1 + 'a' FROM Users u JOIN Albums a ON @p
refused 17

SELECT 1 FROM Users u JOIN Albums a ON @p WHERE u.email LIKE '\\a'
refused 17

SELECT 1 FROM Users u JOIN Albums a ON @p GROUP BY uid
refused 17

SELECT 1 FROM Users u JOIN Albums a ON @p HAVING SUM(SUM(u.uid)) = 1
refused 17

SELECT 1 FROM Users u JOIN Albums a ON @p UNION ALL SELECT nope FROM Users
refused 17

SELECT 1 FROM Users u JOIN Albums a ON @p UNION ALL SELECT 'a' FROM Users
refused 17

SELECT 1 FROM Users u JOIN Albums a ON @p ORDER BY 2
refused 17

SELECT 1 + 'a' FROM Users u JOIN Albums a ON TRUE WHERE u.email LIKE '\\a'
refused 13

SELECT 1 + 'a' FROM Users u JOIN Albums a ON TRUE GROUP BY uid
refused 13

SELECT 1 + 'a' FROM Users u JOIN Albums a ON TRUE HAVING SUM(SUM(u.uid)) = 1
refused 13

SELECT 1 + 'a' FROM Users u JOIN Albums a ON TRUE UNION ALL SELECT nope FROM Users
refused 13

SELECT 1 + 'a' FROM Users u JOIN Albums a ON TRUE UNION ALL SELECT 'a' FROM Users
refused 13

SELECT 1 + 'a' FROM Users u JOIN Albums a ON TRUE ORDER BY 2
refused 13

SELECT 1 FROM Users u JOIN Albums a ON TRUE WHERE u.email LIKE '\\a' GROUP BY uid
refused 15

SELECT 1 FROM Users u JOIN Albums a ON TRUE WHERE u.email LIKE '\\a' HAVING SUM(SUM(u.uid)) = 1
refused 15

SELECT 1 FROM Users u JOIN Albums a ON TRUE WHERE u.email LIKE '\\a' UNION ALL SELECT nope FROM Users
refused 15

SELECT 1 FROM Users u JOIN Albums a ON TRUE WHERE u.email LIKE '\\a' UNION ALL SELECT 'a' FROM Users
refused 15

SELECT 1 FROM Users u JOIN Albums a ON TRUE WHERE u.email LIKE '\\a' ORDER BY 2
refused 15

SELECT 1 FROM Users u JOIN Albums a ON TRUE GROUP BY uid HAVING SUM(SUM(u.uid)) = 1
refused 12

SELECT 1 FROM Users u JOIN Albums a ON TRUE GROUP BY uid UNION ALL SELECT nope FROM Users
refused 12

SELECT 1 FROM Users u JOIN Albums a ON TRUE GROUP BY uid UNION ALL SELECT 'a' FROM Users
refused 12

SELECT 1 FROM Users u JOIN Albums a ON TRUE GROUP BY uid ORDER BY 2
refused 12

SELECT 1 FROM Users u JOIN Albums a ON TRUE HAVING SUM(SUM(u.uid)) = 1 UNION ALL SELECT nope FROM Users
refused 14

SELECT 1 FROM Users u JOIN Albums a ON TRUE HAVING SUM(SUM(u.uid)) = 1 UNION ALL SELECT 'a' FROM Users
refused 14

SELECT 1 FROM Users u JOIN Albums a ON TRUE HAVING SUM(SUM(u.uid)) = 1 ORDER BY 2
refused 14

SELECT 1 FROM Users u JOIN Albums a ON TRUE UNION ALL SELECT nope FROM Users UNION ALL SELECT 'a' FROM Users
refused 11

SELECT 1 FROM Users u JOIN Albums a ON TRUE UNION ALL SELECT nope FROM Users ORDER BY 2
refused 11

SELECT 1 FROM Users u JOIN Albums a ON TRUE UNION ALL SELECT 'a' FROM Users ORDER BY 2
refused 20

# Each of these places alone.

SELECT 1 FROM Nope u JOIN Albums a ON TRUE
refused 10

SELECT 1 FROM Users u JOIN Albums U ON TRUE
refused 18

SELECT 1 FROM Users u JOIN Albums a ON @p
refused 17

SELECT 1 + 'a' FROM Users u JOIN Albums a ON TRUE
refused 13

SELECT 1 FROM Users u JOIN Albums a ON TRUE WHERE u.email LIKE '\\a'
refused 15

SELECT 1 FROM Users u JOIN Albums a ON TRUE GROUP BY uid
refused 12

SELECT 1 FROM Users u JOIN Albums a ON TRUE HAVING SUM(SUM(u.uid)) = 1
refused 14

SELECT 1 FROM Users u JOIN Albums a ON TRUE UNION ALL SELECT nope FROM Users
refused 11

SELECT 1 FROM Users u JOIN Albums a ON TRUE UNION ALL SELECT 'a' FROM Users
refused 20

SELECT 1 FROM Users u JOIN Albums a ON TRUE ORDER BY 2
refused 16

# Names of functions and words in any case; a call with blanks and a comment in it.

select Length(email), lEnGtH('ab'), CoUnT(*) from Users group by EMAIL having Count(*) > 0 order by 1 desc, 2 limit 2
rows 2
1,2,1
1,2,1

SELECT LENGTH ( 'ab' ), -- and so on
refused 3

SELECT uid FROM Users u JOIN (SELECT uid AS k FROM Albums) a ON k = uid
rows 3
1
1
3

SELECT uid AS a, aid AS a FROM Albums UNION ALL SELECT 1, 2 FROM Users ORDER BY a
refused 12

SELECT uid AS a, aid AS b FROM Albums UNION ALL SELECT 1 AS b, 2 AS a FROM Users ORDER BY b, a LIMIT 2
rows 2
1,2
1,2

SELECT u.uid FROM Users u LEFT OUTER JOIN Albums a ON u.uid = a.uid AND a.name = 'y'
rows 3
1
2
3

SELECT u.uid FROM Users u INNER JOIN Albums a ON u.uid = a.uid AND a.name = 'y'
rows 1
1

SELECT u.uid, a.aid, b.aid FROM Users u LEFT JOIN Albums a ON a.uid = u.uid JOIN Albums b ON b.uid = a.uid
rows 5
1,10,10
1,10,11
1,11,10
1,11,11
3,10,10

SELECT u.uid, a.aid, b.aid FROM Users u LEFT JOIN Albums a ON a.uid = u.uid AND a.aid > 10 LEFT JOIN Albums b ON b.aid = a.aid OR a.aid IS NULL
rows 7
1,11,11
2,\N,10
2,\N,11
2,\N,10
3,\N,10
3,\N,11
3,\N,10

SELECT SUM(LENGTH(SUM(uid))) AS n FROM Users
refused 14

SELECT uid, COUNT(*) FROM Albums WHERE name IS NOT NULL GROUP BY uid HAVING COUNT(*) > 1 AND MAX(aid) = 11 ORDER BY uid LIMIT 5
rows 1
1,2

SELECT DISTINCT uid FROM Albums ORDER BY uid DESC LIMIT 1
rows 1
3

SELECT DISTINCT uid FROM Albums LIMIT 1 OFFSET 1
rows 1
3

SELECT DISTINCT 1 FROM Users LIMIT 5
rows 1
1

SELECT x.uid FROM (SELECT DISTINCT uid FROM Albums LIMIT 1) x JOIN Albums a ON a.uid = x.uid
rows 2
1
1

SELECT uid FROM Users WHERE uid IN (uid + 1, uid, NULL) AND uid NOT IN (2)
rows 2
1
3

SELECT uid FROM Users WHERE uid + 9223372036854775805 > 0 LIMIT 1
refused 62

SELECT uid FROM Users WHERE uid + 9223372036854775804 > 0
rows 3
1
2
3

SELECT uid FROM Users WHERE FALSE AND uid * 9223372036854775807 > 0
rows 0

SELECT uid * 9223372036854775807 FROM Users ORDER BY uid * 1
refused 3

SELECT uid * 9223372036854775807 AS p FROM Users ORDER BY p LIMIT 1
refused 62

SELECT COUNT(*) FROM Users WHERE uid > 0 HAVING TRUE UNION ALL SELECT 7 FROM Users HAVING FALSE
rows 1
3
