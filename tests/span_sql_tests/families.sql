# DISTINCT of columns of one table: the first rows of each part are found where they are read.

SELECT DISTINCT region FROM Accts
rows 4
north
south
\N
""

SELECT DISTINCT tier FROM Accts
rows 5
2
\N
1
3
-1

SELECT DISTINCT open FROM Accts
rows 3
true
\N
false

SELECT DISTINCT seal FROM Accts
rows 5
\x01
\N
\x
\xff
\x0100

SELECT DISTINCT region, tier FROM Accts
rows 8
north,2
south,\N
\N,2
north,1
,1
\N,\N
north,3
south,-1

SELECT DISTINCT tier, region FROM Accts
rows 8
2,north
\N,south
2,\N
1,north
1,
\N,\N
3,north
-1,south

SELECT DISTINCT open, seal FROM Accts
rows 6
true,\x01
\N,\N
false,\x
\N,\xff
false,\x0100
true,\N

SELECT DISTINCT seal, tier, open FROM Accts
rows 8
\x01,2,true
\N,\N,\N
\x,2,false
\x01,1,true
\xff,1,\N
\x,\N,false
\x0100,3,false
\N,-1,true

SELECT DISTINCT region, region FROM Accts
rows 4
north,north
south,south
\N,\N
,

SELECT DISTINCT k FROM Accts
rows 10
\N
-3
0
1
2
3
5
8
256
9223372036854775807

SELECT DISTINCT k, k FROM Accts
rows 10
\N,\N
-3,-3
0,0
1,1
2,2
3,3
5,5
8,8
256,256
9223372036854775807,9223372036854775807

SELECT DISTINCT k, region FROM Accts
rows 10
\N,north
-3,south
0,\N
1,north
2,north
3,
5,south
8,\N
256,north
9223372036854775807,south

SELECT DISTINCT tier AS a, tier AS b FROM Accts
rows 5
2,2
\N,\N
1,1
3,3
-1,-1

SELECT DISTINCT * FROM Accts
rows 10
\N,north,2,true,\x01
-3,south,\N,\N,\N
0,\N,2,false,\x
1,north,1,true,\x01
2,north,2,true,\x01
3,,1,\N,\xff
5,south,\N,\N,\N
8,\N,\N,false,\x
256,north,3,false,\x0100
9223372036854775807,south,-1,true,\N

SELECT DISTINCT x.* FROM Accts x
rows 10
\N,north,2,true,\x01
-3,south,\N,\N,\N
0,\N,2,false,\x
1,north,1,true,\x01
2,north,2,true,\x01
3,,1,\N,\xff
5,south,\N,\N,\N
8,\N,\N,false,\x
256,north,3,false,\x0100
9223372036854775807,south,-1,true,\N

SELECT DISTINCT kind FROM Calls
rows 8
\N
talk
abcdefgh2
abcdefgh
abcdefgh1
text
""
abcdefgh10

SELECT DISTINCT k FROM Calls
rows 8
\N
-3
0
1
2
5
256
9223372036854775807

SELECT DISTINCT c FROM Calls
rows 8
2
\N
1
514
0
3
4
-1

SELECT DISTINCT n, cents FROM Calls
rows 14
2,\N
1,7
3,5
5,4
5,6
\N,5
7,9223372036854775807
6,5
5,\N
1,-9223372036854775808
1,5
\N,6
4,0
4,-5

SELECT DISTINCT c, k FROM Calls
rows 14
2,\N
\N,\N
1,-3
514,0
0,0
\N,0
3,1
2,1
1,1
1,2
4,5
2,5
1,256
-1,9223372036854775807

SELECT DISTINCT n FROM Items
rows 7
5
1
2
6
\N
4
-5

SELECT DISTINCT m, n FROM Items
rows 12
5,5
1,1
\N,2
4,5
5,6
6,5
5,\N
\N,5
6,6
4,4
5,-5
7,5

SELECT DISTINCT k, c FROM Items
rows 10
\N,2
\N,\N
-3,1
0,514
0,\N
1,3
1,1
5,4
5,2
256,1

SELECT DISTINCT c FROM Notes
rows 7
\N
2
0
514
3
4
1

SELECT DISTINCT body, n FROM Notes
rows 9
first,4
\N,5
x,5
y,\N
y,6
z,5
z,7
\N,1
x,\N

SELECT DISTINCT s FROM Sales
rows 5
\N
a
""
ab
abcdefgh

SELECT DISTINCT s, n FROM Lines
rows 6
\N,1
a,5
,\N
,5
ab,6
abcdefgh,7

SELECT DISTINCT n FROM Visits
rows 5
6
5
\N
4
8

SELECT DISTINCT a, b FROM Threes
rows 6
\N,\N
3,1
0,\N
0,0
3337,3341
1,1

SELECT DISTINCT n FROM Wides
rows 4
1
5
6
\N

SELECT DISTINCT e, g FROM Wides
rows 5
\N,\N
\N,7
0,0
11,13
5,7

SELECT DISTINCT n FROM Empties
rows 0

SELECT DISTINCT k, n FROM Empties
rows 0

SELECT DISTINCT * FROM Empties
rows 0

# DISTINCT with ORDER BY and LIMIT: the rows are sorted after each is there once.

SELECT DISTINCT region FROM Accts ORDER BY region
rows 4
\N
""
north
south

SELECT DISTINCT region FROM Accts ORDER BY region DESC
rows 4
south
north
""
\N

SELECT DISTINCT tier FROM Accts ORDER BY 1 DESC LIMIT 3
rows 3
3
2
1

SELECT DISTINCT tier FROM Accts ORDER BY tier LIMIT 2 OFFSET 1
rows 2
-1
1

SELECT DISTINCT tier FROM Accts LIMIT 2
rows 2
2
\N

SELECT DISTINCT tier FROM Accts LIMIT 2 OFFSET 2
rows 2
1
3

SELECT DISTINCT tier FROM Accts LIMIT 0
rows 0

SELECT DISTINCT tier FROM Accts LIMIT 10 OFFSET 10
rows 0

SELECT DISTINCT open, region FROM Accts ORDER BY open DESC, region
rows 6
true,north
true,south
false,\N
false,north
\N,
\N,south

SELECT DISTINCT open, region FROM Accts ORDER BY region
rows 6
false,\N
\N,
true,north
false,north
\N,south
true,south

SELECT DISTINCT region, tier FROM Accts ORDER BY tier DESC
rows 8
north,3
north,2
\N,2
north,1
,1
south,-1
south,\N
\N,\N

SELECT DISTINCT kind FROM Calls ORDER BY kind DESC
rows 8
text
talk
abcdefgh2
abcdefgh10
abcdefgh1
abcdefgh
""
\N

SELECT DISTINCT kind FROM Calls ORDER BY kind LIMIT 65
rows 8
\N
""
abcdefgh
abcdefgh1
abcdefgh10
abcdefgh2
talk
text

SELECT DISTINCT c FROM Calls ORDER BY c DESC LIMIT 100 OFFSET 1
rows 7
4
3
2
1
0
-1
\N

# DISTINCT with a condition, which a leaf of one table judges whole.

SELECT DISTINCT region FROM Accts WHERE tier > 1
rows 2
north
\N

SELECT DISTINCT region FROM Accts WHERE 1 < tier
rows 2
north
\N

SELECT DISTINCT region FROM Accts WHERE tier IS NULL
rows 2
south
\N

SELECT DISTINCT tier FROM Accts WHERE region = 'north'
rows 3
2
1
3

SELECT DISTINCT tier FROM Accts WHERE k > 0
rows 5
1
2
\N
3
-1

SELECT DISTINCT tier, open FROM Accts WHERE k BETWEEN 0 AND 8
rows 6
2,false
1,true
2,true
1,\N
\N,\N
\N,false

SELECT DISTINCT tier FROM Accts WHERE tier + 1 > 2
rows 2
2
3

SELECT DISTINCT tier FROM Accts WHERE FALSE
rows 0

SELECT DISTINCT tier FROM Accts WHERE NULL
rows 0

SELECT DISTINCT tier FROM Accts WHERE DIV(1, tier - 1) = 0
refused 62

SELECT DISTINCT tier FROM Accts WHERE k = 0 AND DIV(2, tier) = 1
rows 1
2

SELECT DISTINCT n FROM Calls WHERE 5 = cents
rows 4
3
\N
6
1

SELECT DISTINCT n FROM Items WHERE 5 <= m
rows 4
5
6
\N
-5

SELECT DISTINCT n FROM Notes WHERE body = 'z' OR n = 5
rows 2
5
7

# DISTINCT of expressions, alone and beside columns.

SELECT DISTINCT region, tier + 1 FROM Accts
rows 8
north,3
south,\N
\N,3
north,2
,2
\N,\N
north,4
south,0

SELECT DISTINCT tier + 0 FROM Accts
rows 5
2
\N
1
3
-1

SELECT DISTINCT region, 1 FROM Accts
rows 4
north,1
south,1
\N,1
,1

SELECT DISTINCT 1 FROM Accts
rows 1
1

SELECT DISTINCT NULL FROM Accts
rows 1
\N

SELECT DISTINCT 1 FROM Empties
rows 0

SELECT DISTINCT tier IS NULL, open FROM Accts
rows 5
false,true
true,\N
false,false
false,\N
true,false

SELECT DISTINCT DIV(2, tier) FROM Accts
rows 5
1
\N
2
0
-2

SELECT DISTINCT DIV(2, tier + 1) FROM Accts
refused 62

SELECT DISTINCT IFNULL(tier, 2), region FROM Accts
rows 7
2,north
2,south
2,\N
1,north
1,
3,north
-1,south

SELECT DISTINCT region || '' FROM Accts
rows 4
north
south
\N
""

# DISTINCT in blocks of a union.

SELECT DISTINCT region FROM Accts UNION ALL SELECT DISTINCT region FROM Accts
rows 8
north
south
\N
""
north
south
\N
""

SELECT DISTINCT tier FROM Accts UNION ALL SELECT tier FROM Accts
rows 15
2
\N
1
3
-1
2
\N
2
1
2
1
\N
\N
3
-1

SELECT tier FROM Accts UNION ALL SELECT DISTINCT tier FROM Accts
rows 15
2
\N
2
1
2
1
\N
\N
3
-1
2
\N
1
3
-1

SELECT DISTINCT tier FROM Accts UNION ALL SELECT DISTINCT n FROM Calls ORDER BY 1
rows 13
\N
\N
-1
1
1
2
2
3
3
4
5
6
7

SELECT DISTINCT tier FROM Accts UNION ALL SELECT DISTINCT n FROM Calls UNION ALL SELECT DISTINCT n + 1 FROM Items ORDER BY tier DESC LIMIT 9
rows 9
7
7
6
6
5
5
4
3
3

SELECT DISTINCT k, n FROM Visits UNION ALL SELECT DISTINCT n, k FROM Visits
rows 14
\N,6
\N,5
1,\N
2,4
2,5
8,8
8,5
6,\N
5,\N
\N,1
4,2
5,2
8,8
5,8

SELECT DISTINCT tier FROM Accts UNION ALL SELECT COUNT(*) FROM Calls GROUP BY n
rows 13
2
\N
1
3
-1
1
3
1
3
2
1
1
2

SELECT DISTINCT tier FROM Accts UNION ALL SELECT DISTINCT DIV(1, k) FROM Roots
refused 62

# DISTINCT in and over derived tables.

SELECT COUNT(*) FROM (SELECT DISTINCT region FROM Accts) d
rows 1
4

SELECT COUNT(*), COUNT(d.t), SUM(d.t) FROM (SELECT DISTINCT tier AS t FROM Accts) d
rows 1
5,4,5

SELECT DISTINCT d.r FROM (SELECT DISTINCT region AS r, tier FROM Accts) d
rows 4
north
south
\N
""

SELECT DISTINCT d.r FROM (SELECT region AS r FROM Accts ORDER BY r DESC) d
rows 4
south
north
""
\N

SELECT d.t, a.k FROM (SELECT DISTINCT tier AS t FROM Accts) d JOIN Accts a ON a.tier = d.t
rows 7
2,\N
2,0
2,2
1,1
1,3
3,256
-1,9223372036854775807

SELECT d.t, a.k FROM Accts a LEFT JOIN (SELECT DISTINCT tier AS t FROM Accts WHERE tier > 1) d ON a.tier = d.t
rows 10
2,\N
\N,-3
2,0
\N,1
2,2
\N,3
\N,5
\N,8
3,256
\N,9223372036854775807

SELECT DISTINCT a.region, d.n FROM Accts a JOIN (SELECT DISTINCT k, n FROM Calls) d ON d.k = a.k
rows 11
south,3
\N,5
\N,\N
north,7
north,6
north,5
north,1
south,1
south,\N
north,4
south,4

SELECT d.t FROM (SELECT DISTINCT tier AS t FROM Accts LIMIT 2) d ORDER BY 1 DESC
rows 2
2
\N

# DISTINCT of rows that a leaf joins, and of groups.

SELECT DISTINCT a.region FROM Accts a JOIN Calls c ON c.k = a.k
rows 3
south
\N
north

SELECT DISTINCT c.kind, a.region FROM Accts a JOIN Calls c ON c.k = a.k
rows 10
talk,south
abcdefgh2,\N
abcdefgh,\N
abcdefgh1,\N
text,north
talk,north
,north
abcdefgh10,south
\N,north
text,south

SELECT DISTINCT c.n FROM Accts a LEFT JOIN Calls c ON c.k = a.k
rows 7
\N
3
5
7
6
1
4

SELECT DISTINCT a.region, c.kind, i.n FROM Accts a LEFT JOIN Calls c ON c.k = a.k LEFT JOIN Items i ON i.k = a.k AND i.c = c.c
rows 16
north,\N,\N
south,talk,5
\N,abcdefgh2,6
\N,abcdefgh2,5
\N,abcdefgh,\N
\N,abcdefgh1,\N
north,text,5
north,text,6
north,text,\N
north,talk,4
north,,\N
,\N,\N
south,abcdefgh10,-5
\N,\N,\N
north,\N,5
south,text,\N

SELECT DISTINCT a.tier FROM Accts a JOIN Calls c ON c.k = a.k WHERE 5 <= c.cents
rows 3
\N
2
1

SELECT DISTINCT a.tier, s.city FROM Accts a JOIN Shops s ON s.k = a.k
rows 5
1,\N
2,rome
1,bern
\N,rome
\N,oslo

SELECT DISTINCT a.tier FROM Accts a JOIN Shops s ON s.n = a.tier
rows 2
2
1

SELECT DISTINCT COUNT(*) FROM Calls GROUP BY k
rows 3
2
1
3

SELECT DISTINCT region FROM Accts GROUP BY region, tier
rows 4
north
south
\N
""

SELECT DISTINCT COUNT(*), MAX(tier) FROM Accts GROUP BY region
rows 4
4,3
3,-1
2,2
1,1

SELECT DISTINCT region FROM Accts GROUP BY region, tier HAVING COUNT(*) = 1
rows 4
\N
north
""
south

SELECT DISTINCT COUNT(*) FROM Accts
rows 1
10

# ORDER BY of columns, sorted in the parts: rows with equal keys keep their order, which is that of the primary key.

SELECT k, region FROM Accts ORDER BY region
rows 10
0,\N
8,\N
3,
\N,north
1,north
2,north
256,north
-3,south
5,south
9223372036854775807,south

SELECT k, region FROM Accts ORDER BY region DESC
rows 10
-3,south
5,south
9223372036854775807,south
\N,north
1,north
2,north
256,north
3,
0,\N
8,\N

SELECT k, tier FROM Accts ORDER BY tier
rows 10
-3,\N
5,\N
8,\N
9223372036854775807,-1
1,1
3,1
\N,2
0,2
2,2
256,3

SELECT k, tier FROM Accts ORDER BY tier DESC
rows 10
256,3
\N,2
0,2
2,2
1,1
3,1
9223372036854775807,-1
-3,\N
5,\N
8,\N

SELECT k, open FROM Accts ORDER BY open
rows 10
-3,\N
3,\N
5,\N
0,false
8,false
256,false
\N,true
1,true
2,true
9223372036854775807,true

SELECT k, open FROM Accts ORDER BY open DESC
rows 10
\N,true
1,true
2,true
9223372036854775807,true
0,false
8,false
256,false
-3,\N
3,\N
5,\N

SELECT k, seal FROM Accts ORDER BY seal
rows 10
-3,\N
5,\N
9223372036854775807,\N
0,\x
8,\x
\N,\x01
1,\x01
2,\x01
256,\x0100
3,\xff

SELECT k, seal FROM Accts ORDER BY seal DESC
rows 10
3,\xff
256,\x0100
\N,\x01
1,\x01
2,\x01
0,\x
8,\x
-3,\N
5,\N
9223372036854775807,\N

SELECT k FROM Accts ORDER BY k
rows 10
\N
-3
0
1
2
3
5
8
256
9223372036854775807

SELECT k FROM Accts ORDER BY k DESC
rows 10
9223372036854775807
256
8
5
3
2
1
0
-3
\N

SELECT tier, k FROM Accts ORDER BY 1 DESC, 2
rows 10
3,256
2,\N
2,0
2,2
1,1
1,3
-1,9223372036854775807
\N,-3
\N,5
\N,8

SELECT region, tier, k FROM Accts ORDER BY region DESC, tier
rows 10
south,\N,-3
south,\N,5
south,-1,9223372036854775807
north,1,1
north,2,\N
north,2,2
north,3,256
,1,3
\N,\N,8
\N,2,0

SELECT tier, region, k FROM Accts ORDER BY region, 1 DESC
rows 10
2,\N,0
\N,\N,8
1,,3
3,north,256
2,north,\N
2,north,2
1,north,1
-1,south,9223372036854775807
\N,south,-3
\N,south,5

SELECT tier, tier AS t, k FROM Accts ORDER BY t
rows 10
\N,\N,-3
\N,\N,5
\N,\N,8
-1,-1,9223372036854775807
1,1,1
1,1,3
2,2,\N
2,2,0
2,2,2
3,3,256

SELECT * FROM Accts ORDER BY open, tier DESC
rows 10
3,,1,\N,\xff
-3,south,\N,\N,\N
5,south,\N,\N,\N
256,north,3,false,\x0100
0,\N,2,false,\x
8,\N,\N,false,\x
\N,north,2,true,\x01
2,north,2,true,\x01
1,north,1,true,\x01
9223372036854775807,south,-1,true,\N

SELECT open FROM Accts ORDER BY open DESC
rows 10
true
true
true
true
false
false
false
\N
\N
\N

SELECT * FROM Calls ORDER BY cents
rows 14
\N,2,\N,\N,2
1,1,\N,talk,5
2,1,-9223372036854775808,,1
9223372036854775807,-1,-5,text,4
256,1,0,\N,4
0,514,4,abcdefgh2,5
-3,1,5,talk,3
0,\N,5,abcdefgh1,\N
1,2,5,text,6
5,4,5,talk,1
0,0,6,abcdefgh,5
5,2,6,abcdefgh10,\N
\N,\N,7,talk,1
1,3,9223372036854775807,text,7

SELECT * FROM Calls ORDER BY cents DESC
rows 14
1,3,9223372036854775807,text,7
\N,\N,7,talk,1
0,0,6,abcdefgh,5
5,2,6,abcdefgh10,\N
-3,1,5,talk,3
0,\N,5,abcdefgh1,\N
1,2,5,text,6
5,4,5,talk,1
0,514,4,abcdefgh2,5
256,1,0,\N,4
9223372036854775807,-1,-5,text,4
2,1,-9223372036854775808,,1
\N,2,\N,\N,2
1,1,\N,talk,5

SELECT * FROM Calls ORDER BY kind
rows 14
\N,2,\N,\N,2
256,1,0,\N,4
2,1,-9223372036854775808,,1
0,0,6,abcdefgh,5
0,\N,5,abcdefgh1,\N
5,2,6,abcdefgh10,\N
0,514,4,abcdefgh2,5
\N,\N,7,talk,1
-3,1,5,talk,3
1,1,\N,talk,5
5,4,5,talk,1
1,3,9223372036854775807,text,7
1,2,5,text,6
9223372036854775807,-1,-5,text,4

SELECT * FROM Calls ORDER BY kind DESC
rows 14
1,3,9223372036854775807,text,7
1,2,5,text,6
9223372036854775807,-1,-5,text,4
\N,\N,7,talk,1
-3,1,5,talk,3
1,1,\N,talk,5
5,4,5,talk,1
0,514,4,abcdefgh2,5
5,2,6,abcdefgh10,\N
0,\N,5,abcdefgh1,\N
0,0,6,abcdefgh,5
2,1,-9223372036854775808,,1
\N,2,\N,\N,2
256,1,0,\N,4

SELECT kind, n, k, c FROM Calls ORDER BY kind, n DESC
rows 14
\N,4,256,1
\N,2,\N,2
,1,2,1
abcdefgh,5,0,0
abcdefgh1,\N,0,\N
abcdefgh10,\N,5,2
abcdefgh2,5,0,514
talk,5,1,1
talk,3,-3,1
talk,1,\N,\N
talk,1,5,4
text,7,1,3
text,6,1,2
text,4,9223372036854775807,-1

SELECT n, k, c FROM Calls ORDER BY n
rows 14
\N,0,\N
\N,5,2
1,\N,\N
1,2,1
1,5,4
2,\N,2
3,-3,1
4,256,1
4,9223372036854775807,-1
5,0,514
5,0,0
5,1,1
6,1,2
7,1,3

SELECT n, k, c FROM Calls ORDER BY n DESC
rows 14
7,1,3
6,1,2
5,0,514
5,0,0
5,1,1
4,256,1
4,9223372036854775807,-1
3,-3,1
2,\N,2
1,\N,\N
1,2,1
1,5,4
\N,0,\N
\N,5,2

SELECT c, k FROM Calls ORDER BY c
rows 14
\N,\N
\N,0
-1,9223372036854775807
0,0
1,-3
1,1
1,2
1,256
2,\N
2,1
2,5
3,1
4,5
514,0

SELECT c, k FROM Calls ORDER BY c DESC
rows 14
514,0
4,5
3,1
2,\N
2,1
2,5
1,-3
1,1
1,2
1,256
0,0
-1,9223372036854775807
\N,\N
\N,0

SELECT * FROM Items ORDER BY n, m
rows 13
0,\N,1,\N,5
5,2,0,-5,5
\N,\N,\N,1,1
\N,\N,4,2,\N
1,1,1,4,4
1,3,1,5,\N
-3,1,1,5,4
\N,2,3,5,5
5,4,4,5,5
0,514,2,5,6
256,1,\N,5,7
0,514,\N,6,5
1,3,2,6,6

SELECT * FROM Items ORDER BY m DESC, n DESC
rows 13
256,1,\N,5,7
1,3,2,6,6
0,514,2,5,6
0,514,\N,6,5
\N,2,3,5,5
5,4,4,5,5
5,2,0,-5,5
0,\N,1,\N,5
-3,1,1,5,4
1,1,1,4,4
\N,\N,\N,1,1
1,3,1,5,\N
\N,\N,4,2,\N

SELECT * FROM Notes ORDER BY body, n DESC
rows 11
\N,2,\N,5
5,4,\N,1
\N,\N,first,4
-3,\N,x,5
8,1,x,5
256,1,x,\N
0,514,y,6
0,0,y,\N
1,3,z,7
1,2,z,5
3,3,z,5

SELECT * FROM Notes ORDER BY c DESC
rows 11
0,514,y,6
5,4,\N,1
1,3,z,7
3,3,z,5
\N,2,\N,5
1,2,z,5
8,1,x,5
256,1,x,\N
0,0,y,\N
\N,\N,first,4
-3,\N,x,5

SELECT * FROM Lines ORDER BY s DESC, n
rows 7
3,abcdefgh,8,7
1,ab,\N,6
\N,a,5,5
5,a,5,5
1,,2,\N
1,,1,5
\N,\N,\N,1

SELECT * FROM Visits ORDER BY n DESC
rows 7
8,0,8
\N,3,6
\N,\N,5
2,7,5
8,\N,5
2,9,4
1,1,\N

SELECT * FROM Threes ORDER BY n
rows 6
1,3337,3341,3341,\N
\N,\N,\N,\N,1
\N,3,1,2,5
0,0,\N,13,5
4,1,1,1,5
0,0,0,0,6

SELECT * FROM Wides ORDER BY n DESC
rows 6
0,0,0,0,0,0,0,0,6
\N,\N,\N,\N,\N,\N,\N,7,5
0,\N,\N,\N,\N,\N,\N,\N,5
1,3,\N,14,\N,11,\N,13,5
\N,\N,\N,\N,\N,\N,\N,\N,1
2,1,2,3,4,5,6,7,\N

SELECT * FROM Empties ORDER BY n
rows 0

# ORDER BY with LIMIT: up to 64 rows, skipped ones included, are kept in order while the others pass by; from 65 on all are sorted.

SELECT n, k, c FROM Calls ORDER BY n DESC LIMIT 0
rows 0

SELECT n, k, c FROM Calls ORDER BY n DESC LIMIT 3
rows 3
7,1,3
6,1,2
5,0,514

SELECT n, k, c FROM Calls ORDER BY n DESC LIMIT 3 OFFSET 4
rows 3
5,1,1
4,256,1
4,9223372036854775807,-1

SELECT n, k, c FROM Calls ORDER BY n DESC LIMIT 64
rows 14
7,1,3
6,1,2
5,0,514
5,0,0
5,1,1
4,256,1
4,9223372036854775807,-1
3,-3,1
2,\N,2
1,\N,\N
1,2,1
1,5,4
\N,0,\N
\N,5,2

SELECT n, k, c FROM Calls ORDER BY n DESC LIMIT 65
rows 14
7,1,3
6,1,2
5,0,514
5,0,0
5,1,1
4,256,1
4,9223372036854775807,-1
3,-3,1
2,\N,2
1,\N,\N
1,2,1
1,5,4
\N,0,\N
\N,5,2

SELECT n, k, c FROM Calls ORDER BY n DESC LIMIT 60 OFFSET 4
rows 10
5,1,1
4,256,1
4,9223372036854775807,-1
3,-3,1
2,\N,2
1,\N,\N
1,2,1
1,5,4
\N,0,\N
\N,5,2

SELECT n, k, c FROM Calls ORDER BY n DESC LIMIT 60 OFFSET 5
rows 9
4,256,1
4,9223372036854775807,-1
3,-3,1
2,\N,2
1,\N,\N
1,2,1
1,5,4
\N,0,\N
\N,5,2

SELECT n, k, c FROM Calls ORDER BY n DESC LIMIT 1 OFFSET 64
rows 0

SELECT n, k, c FROM Calls ORDER BY n DESC LIMIT 9223372036854775807
rows 14
7,1,3
6,1,2
5,0,514
5,0,0
5,1,1
4,256,1
4,9223372036854775807,-1
3,-3,1
2,\N,2
1,\N,\N
1,2,1
1,5,4
\N,0,\N
\N,5,2

SELECT n, k, c FROM Calls ORDER BY n DESC LIMIT 9223372036854775807 OFFSET 2
rows 12
5,0,514
5,0,0
5,1,1
4,256,1
4,9223372036854775807,-1
3,-3,1
2,\N,2
1,\N,\N
1,2,1
1,5,4
\N,0,\N
\N,5,2

SELECT n, k, c FROM Calls ORDER BY n DESC LIMIT 9223372036854775807 OFFSET 9223372036854775807
rows 0

SELECT kind, k, c FROM Calls ORDER BY kind LIMIT 5
rows 5
\N,\N,2
\N,256,1
,2,1
abcdefgh,0,0
abcdefgh1,0,\N

SELECT kind, k, c FROM Calls ORDER BY kind LIMIT 70 OFFSET 3
rows 11
abcdefgh,0,0
abcdefgh1,0,\N
abcdefgh10,5,2
abcdefgh2,0,514
talk,\N,\N
talk,-3,1
talk,1,1
talk,5,4
text,1,3
text,1,2
text,9223372036854775807,-1

SELECT n FROM Items ORDER BY n LIMIT 4 OFFSET 3
rows 4
2
4
5
5

# ORDER BY with a condition, over joins, of expressions, in unions and in derived tables.

SELECT n, k, c FROM Calls WHERE 5 <= cents ORDER BY n
rows 8
\N,0,\N
\N,5,2
1,\N,\N
1,5,4
3,-3,1
5,0,0
6,1,2
7,1,3

SELECT n, k, c FROM Calls WHERE cents IS NULL OR cents < 5 ORDER BY n DESC
rows 6
5,0,514
5,1,1
4,256,1
4,9223372036854775807,-1
2,\N,2
1,2,1

SELECT cents, k FROM Calls WHERE kind = 'talk' ORDER BY cents DESC
rows 4
7,\N
5,-3
5,5
\N,1

SELECT tier, k FROM Accts WHERE k > 0 ORDER BY tier
rows 7
\N,5
\N,8
-1,9223372036854775807
1,1
1,3
2,2
3,256

SELECT a.tier, c.n, a.k, c.c FROM Accts a JOIN Calls c ON c.k = a.k ORDER BY tier
rows 12
\N,3,-3,1
\N,1,5,4
\N,\N,5,2
-1,4,9223372036854775807,-1
1,7,1,3
1,6,1,2
1,5,1,1
2,5,0,514
2,5,0,0
2,\N,0,\N
2,1,2,1
3,4,256,1

SELECT a.tier, c.n, a.k, c.c FROM Accts a JOIN Calls c ON c.k = a.k ORDER BY n DESC, tier
rows 12
1,7,1,3
1,6,1,2
1,5,1,1
2,5,0,514
2,5,0,0
-1,4,9223372036854775807,-1
3,4,256,1
\N,3,-3,1
\N,1,5,4
2,1,2,1
\N,\N,5,2
2,\N,0,\N

SELECT a.k, c.n FROM Accts a LEFT JOIN Calls c ON c.k = a.k ORDER BY 2
rows 15
\N,\N
0,\N
3,\N
5,\N
8,\N
2,1
5,1
-3,3
256,4
9223372036854775807,4
0,5
0,5
1,5
1,6
1,7

SELECT a.k, c.n FROM Accts a LEFT JOIN Calls c ON c.k = a.k ORDER BY 2 DESC LIMIT 66
rows 15
1,7
1,6
0,5
0,5
1,5
256,4
9223372036854775807,4
-3,3
2,1
5,1
\N,\N
0,\N
3,\N
5,\N
8,\N

SELECT a.k, s.n FROM Accts a JOIN Shops s ON s.k = a.k ORDER BY n DESC
rows 5
5,5
1,2
3,2
8,2
2,\N

SELECT tier + 1 AS x, k FROM Accts ORDER BY x
rows 10
\N,-3
\N,5
\N,8
0,9223372036854775807
2,1
2,3
3,\N
3,0
3,2
4,256

SELECT tier, k + 0 FROM Accts WHERE k < 9 ORDER BY tier DESC
rows 7
2,0
2,2
1,1
1,3
\N,-3
\N,5
\N,8

SELECT tier, k FROM Accts UNION ALL SELECT n, k FROM Shops ORDER BY tier
rows 16
\N,-3
\N,5
\N,8
\N,2
-1,9223372036854775807
1,1
1,3
1,\N
2,\N
2,0
2,2
2,1
2,3
2,8
3,256
5,5

SELECT tier, k FROM Accts UNION ALL SELECT n, k FROM Shops ORDER BY 1 DESC LIMIT 65
rows 16
5,5
3,256
2,\N
2,0
2,2
2,1
2,3
2,8
1,1
1,3
1,\N
-1,9223372036854775807
\N,-3
\N,5
\N,8
\N,2

SELECT d.t FROM (SELECT tier AS t, k FROM Accts ORDER BY t DESC) d
rows 10
3
2
2
2
1
1
-1
\N
\N
\N

SELECT d.t, d.k FROM (SELECT tier AS t, k FROM Accts ORDER BY t DESC) d ORDER BY k
rows 10
2,\N
\N,-3
2,0
1,1
2,2
1,3
\N,5
\N,8
3,256
-1,9223372036854775807

SELECT d.k FROM (SELECT n, k FROM Calls ORDER BY n LIMIT 6) d
rows 6
0
5
\N
2
5
\N

SELECT COUNT(*) FROM (SELECT n, k FROM Calls ORDER BY n LIMIT 100 OFFSET 3) d
rows 1
11

SELECT region, COUNT(*) AS c FROM Accts GROUP BY region ORDER BY c DESC, region
rows 4
north,4
south,3
\N,2
,1

SELECT DIV(1, tier) AS x FROM Accts ORDER BY x
rows 10
\N
\N
\N
-1
0
0
0
0
1
1

SELECT DIV(2, n) AS x, k FROM Roots ORDER BY x LIMIT 1
rows 1
0,1

# Joins in a leaf, whose candidates are in key order or not: Notes ascend by c, Calls and Items descend.

SELECT a.k, c.c, c.n FROM Accts a JOIN Calls c ON c.k = a.k
rows 12
-3,1,3
0,514,5
0,0,5
0,\N,\N
1,3,7
1,2,6
1,1,5
2,1,1
5,4,1
5,2,\N
256,1,4
9223372036854775807,-1,4

SELECT a.k, n.c, n.n FROM Accts a JOIN Notes n ON n.k = a.k
rows 9
-3,\N,5
0,0,\N
0,514,6
1,2,5
1,3,7
3,3,5
5,4,1
8,1,5
256,1,\N

SELECT c.k, c.c, a.tier FROM Calls c JOIN Accts a ON a.k = c.k
rows 12
-3,1,\N
0,514,2
0,0,2
0,\N,2
1,3,1
1,2,1
1,1,1
2,1,2
5,4,\N
5,2,\N
256,1,3
9223372036854775807,-1,-1

SELECT c.k, c.c, n.n FROM Calls c JOIN Notes n ON n.k = c.k AND n.c = c.c
rows 6
0,514,6
0,0,\N
1,3,7
1,2,5
5,4,1
256,1,\N

SELECT n.k, n.c, c.n FROM Notes n JOIN Calls c ON c.k = n.k AND c.c = n.c
rows 6
0,0,5
0,514,5
1,2,6
1,3,7
5,4,1
256,1,4

SELECT n.k, n.c, i.i FROM Notes n JOIN Items i ON i.k = n.k AND i.c = n.c
rows 6
0,514,\N
0,514,2
1,3,1
1,3,2
5,4,4
256,1,\N

SELECT n.k, n.c, m.n FROM Notes n JOIN Notes m ON m.k = n.k AND m.c = n.c
rows 8
0,0,\N
0,514,6
1,2,5
1,3,7
3,3,5
5,4,1
8,1,5
256,1,\N

SELECT n.k, n.c, m.c FROM Notes n JOIN Notes m ON m.k = n.k AND m.n = n.n
rows 7
-3,\N,\N
0,514,514
1,2,2
1,3,3
3,3,3
5,4,4
8,1,1

SELECT n.k, n.c, m.c FROM Notes n JOIN Notes m ON m.k = n.k AND m.c = n.n
rows 0

SELECT c.k, c.c, i.i FROM Calls c JOIN Items i ON i.k = c.k AND i.c = c.c
rows 9
-3,1,1
0,514,\N
0,514,2
1,3,1
1,3,2
1,1,1
5,4,4
5,2,0
256,1,\N

SELECT c.k, c.c, i.i FROM Calls c JOIN Items i ON i.k = c.k AND i.i = c.c
rows 5
-3,1,1
1,2,2
1,1,1
1,1,1
5,4,4

SELECT i.k, i.c, i.i, c.n FROM Items i JOIN Calls c ON c.k = i.k AND c.c = i.c AND c.n = i.n
rows 1
0,514,2,5

SELECT r.k, o.a, t.b, t.c FROM Roots r JOIN Ones o ON o.k = r.k JOIN Threes t ON t.k = r.k AND t.a = o.a
rows 4
0,0,\N,13
0,0,0,0
1,3337,3341,3341
4,1,1,1

SELECT r.k, t.b FROM Roots r JOIN Threes t ON t.k = r.k
rows 4
0,\N
0,0
1,3341
4,1

SELECT r.k, w.g FROM Roots r JOIN Wides w ON w.k = r.k
rows 4
0,\N
0,0
1,13
2,7

SELECT t.k, t.a, f.c FROM Twos t JOIN Fours f ON f.k = t.k AND f.a = t.a AND f.b = t.b
rows 3
0,0,0
0,0,11
1,11,11

SELECT s.k, s.s, l.l FROM Sales s JOIN Lines l ON l.k = s.k AND l.s = s.s
rows 5
1,,2
1,,1
1,ab,\N
3,abcdefgh,8
5,a,5

SELECT h.k, v.v, s.s FROM Shops h JOIN Visits v ON v.k = h.k JOIN Sales s ON s.k = h.k
rows 3
1,1,
1,1,a
1,1,ab

SELECT v.k, v.v, s.s FROM Visits v JOIN Sales s ON s.k = v.k AND s.n = v.n
rows 0

SELECT a.k, c.c, c.n FROM Accts a LEFT JOIN Calls c ON c.k = a.k
rows 15
\N,\N,\N
-3,1,3
0,514,5
0,0,5
0,\N,\N
1,3,7
1,2,6
1,1,5
2,1,1
3,\N,\N
5,4,1
5,2,\N
8,\N,\N
256,1,4
9223372036854775807,-1,4

SELECT a.k, n.c, n.n FROM Accts a LEFT JOIN Notes n ON n.k = a.k
rows 12
\N,\N,\N
-3,\N,5
0,0,\N
0,514,6
1,2,5
1,3,7
2,\N,\N
3,3,5
5,4,1
8,1,5
256,1,\N
9223372036854775807,\N,\N

SELECT c.k, c.c, a.tier FROM Calls c LEFT JOIN Accts a ON a.k = c.k
rows 14
\N,2,\N
\N,\N,\N
-3,1,\N
0,514,2
0,0,2
0,\N,2
1,3,1
1,2,1
1,1,1
2,1,2
5,4,\N
5,2,\N
256,1,3
9223372036854775807,-1,-1

SELECT c.k, c.c, n.n FROM Calls c LEFT JOIN Notes n ON n.k = c.k AND n.c = c.c
rows 14
\N,2,\N
\N,\N,\N
-3,1,\N
0,514,6
0,0,\N
0,\N,\N
1,3,7
1,2,5
1,1,\N
2,1,\N
5,4,1
5,2,\N
256,1,\N
9223372036854775807,-1,\N

SELECT n.k, n.c, c.n FROM Notes n LEFT JOIN Calls c ON c.k = n.k AND c.c = n.c
rows 11
\N,\N,\N
\N,2,\N
-3,\N,\N
0,0,5
0,514,5
1,2,6
1,3,7
3,3,\N
5,4,1
8,1,\N
256,1,4

SELECT n.k, n.c, i.i FROM Notes n LEFT JOIN Items i ON i.k = n.k AND i.c = n.c
rows 13
\N,\N,\N
\N,2,\N
-3,\N,\N
0,0,\N
0,514,\N
0,514,2
1,2,\N
1,3,1
1,3,2
3,3,\N
5,4,4
8,1,\N
256,1,\N

SELECT n.k, n.c, m.n FROM Notes n LEFT JOIN Notes m ON m.k = n.k AND m.c = n.c
rows 11
\N,\N,\N
\N,2,\N
-3,\N,\N
0,0,\N
0,514,6
1,2,5
1,3,7
3,3,5
5,4,1
8,1,5
256,1,\N

SELECT n.k, n.c, m.c FROM Notes n LEFT JOIN Notes m ON m.k = n.k AND m.n = n.n
rows 11
\N,\N,\N
\N,2,\N
-3,\N,\N
0,0,\N
0,514,514
1,2,2
1,3,3
3,3,3
5,4,4
8,1,1
256,1,\N

SELECT n.k, n.c, m.c FROM Notes n LEFT JOIN Notes m ON m.k = n.k AND m.c = n.n
rows 11
\N,\N,\N
\N,2,\N
-3,\N,\N
0,0,\N
0,514,\N
1,2,\N
1,3,\N
3,3,\N
5,4,\N
8,1,\N
256,1,\N

SELECT c.k, c.c, i.i FROM Calls c LEFT JOIN Items i ON i.k = c.k AND i.c = c.c
rows 16
\N,2,\N
\N,\N,\N
-3,1,1
0,514,\N
0,514,2
0,0,\N
0,\N,\N
1,3,1
1,3,2
1,2,\N
1,1,1
2,1,\N
5,4,4
5,2,0
256,1,\N
9223372036854775807,-1,\N

SELECT c.k, c.c, i.i FROM Calls c LEFT JOIN Items i ON i.k = c.k AND i.i = c.c
rows 15
\N,2,\N
\N,\N,\N
-3,1,1
0,514,\N
0,0,\N
0,\N,\N
1,3,\N
1,2,2
1,1,1
1,1,1
2,1,\N
5,4,4
5,2,\N
256,1,\N
9223372036854775807,-1,\N

SELECT i.k, i.c, i.i, c.n FROM Items i LEFT JOIN Calls c ON c.k = i.k AND c.c = i.c AND c.n = i.n
rows 13
\N,2,3,\N
\N,\N,\N,\N
\N,\N,4,\N
-3,1,1,\N
0,514,\N,\N
0,514,2,5
0,\N,1,\N
1,3,1,\N
1,3,2,\N
1,1,1,\N
5,4,4,\N
5,2,0,\N
256,1,\N,\N

SELECT r.k, o.a, t.b, t.c FROM Roots r LEFT JOIN Ones o ON o.k = r.k LEFT JOIN Threes t ON t.k = r.k AND t.a = o.a
rows 6
\N,\N,\N,\N
0,0,\N,13
0,0,0,0
1,3337,3341,3341
2,\N,\N,\N
4,1,1,1

SELECT r.k, t.b FROM Roots r LEFT JOIN Threes t ON t.k = r.k
rows 6
\N,\N
0,\N
0,0
1,3341
2,\N
4,1

SELECT r.k, w.g FROM Roots r LEFT JOIN Wides w ON w.k = r.k
rows 6
\N,\N
0,\N
0,0
1,13
2,7
4,\N

SELECT t.k, t.a, f.c FROM Twos t LEFT JOIN Fours f ON f.k = t.k AND f.a = t.a AND f.b = t.b
rows 5
\N,\N,\N
0,0,0
0,0,11
1,11,11
2,\N,\N

SELECT s.k, s.s, l.l FROM Sales s LEFT JOIN Lines l ON l.k = s.k AND l.s = s.s
rows 9
\N,\N,\N
\N,a,\N
1,,2
1,,1
1,a,\N
1,ab,\N
3,\N,\N
3,abcdefgh,8
5,a,5

SELECT h.k, v.v, s.s FROM Shops h LEFT JOIN Visits v ON v.k = h.k LEFT JOIN Sales s ON s.k = h.k
rows 11
\N,\N,\N
1,1,
1,1,a
1,1,ab
2,9,\N
2,7,\N
3,\N,\N
3,\N,abcdefgh
5,\N,a
8,0,\N
8,\N,\N

SELECT v.k, v.v, s.s FROM Visits v LEFT JOIN Sales s ON s.k = v.k AND s.n = v.n
rows 7
\N,3,\N
\N,\N,\N
1,1,\N
2,9,\N
2,7,\N
8,0,\N
8,\N,\N

# Three levels, with directories that have none of one of them.

SELECT a.k, c.c, i.i FROM Accts a JOIN Calls c ON c.k = a.k JOIN Items i ON i.k = a.k AND i.c = c.c
rows 9
-3,1,1
0,514,\N
0,514,2
1,3,1
1,3,2
1,1,1
5,4,4
5,2,0
256,1,\N

SELECT a.k, n.c, i.i FROM Accts a JOIN Notes n ON n.k = a.k JOIN Items i ON i.k = a.k AND i.c = n.c
rows 6
0,514,\N
0,514,2
1,3,1
1,3,2
5,4,4
256,1,\N

SELECT h.k, s.s, l.l FROM Shops h JOIN Sales s ON s.k = h.k JOIN Lines l ON l.k = h.k AND l.s = s.s
rows 5
1,,2
1,,1
1,ab,\N
3,abcdefgh,8
5,a,5

SELECT r.k, t.a, f.c FROM Roots r JOIN Twos t ON t.k = r.k JOIN Fours f ON f.k = r.k AND f.a = t.a AND f.b = t.b
rows 3
0,0,0
0,0,11
1,11,11

SELECT a.k, c.c, i.i FROM Accts a JOIN Calls c ON c.k = a.k LEFT JOIN Items i ON i.k = a.k AND i.c = c.c
rows 14
-3,1,1
0,514,\N
0,514,2
0,0,\N
0,\N,\N
1,3,1
1,3,2
1,2,\N
1,1,1
2,1,\N
5,4,4
5,2,0
256,1,\N
9223372036854775807,-1,\N

SELECT a.k, n.c, i.i FROM Accts a JOIN Notes n ON n.k = a.k LEFT JOIN Items i ON i.k = a.k AND i.c = n.c
rows 11
-3,\N,\N
0,0,\N
0,514,\N
0,514,2
1,2,\N
1,3,1
1,3,2
3,3,\N
5,4,4
8,1,\N
256,1,\N

SELECT h.k, s.s, l.l FROM Shops h JOIN Sales s ON s.k = h.k LEFT JOIN Lines l ON l.k = h.k AND l.s = s.s
rows 7
1,,2
1,,1
1,a,\N
1,ab,\N
3,\N,\N
3,abcdefgh,8
5,a,5

SELECT r.k, t.a, f.c FROM Roots r JOIN Twos t ON t.k = r.k LEFT JOIN Fours f ON f.k = r.k AND f.a = t.a AND f.b = t.b
rows 4
0,0,0
0,0,11
1,11,11
2,\N,\N

SELECT a.k, c.c, i.i FROM Accts a LEFT JOIN Calls c ON c.k = a.k JOIN Items i ON i.k = a.k AND i.c = c.c
rows 9
-3,1,1
0,514,\N
0,514,2
1,3,1
1,3,2
1,1,1
5,4,4
5,2,0
256,1,\N

SELECT a.k, n.c, i.i FROM Accts a LEFT JOIN Notes n ON n.k = a.k JOIN Items i ON i.k = a.k AND i.c = n.c
rows 6
0,514,\N
0,514,2
1,3,1
1,3,2
5,4,4
256,1,\N

SELECT h.k, s.s, l.l FROM Shops h LEFT JOIN Sales s ON s.k = h.k JOIN Lines l ON l.k = h.k AND l.s = s.s
rows 5
1,,2
1,,1
1,ab,\N
3,abcdefgh,8
5,a,5

SELECT r.k, t.a, f.c FROM Roots r LEFT JOIN Twos t ON t.k = r.k JOIN Fours f ON f.k = r.k AND f.a = t.a AND f.b = t.b
rows 3
0,0,0
0,0,11
1,11,11

SELECT a.k, c.c, i.i FROM Accts a LEFT JOIN Calls c ON c.k = a.k LEFT JOIN Items i ON i.k = a.k AND i.c = c.c
rows 17
\N,\N,\N
-3,1,1
0,514,\N
0,514,2
0,0,\N
0,\N,\N
1,3,1
1,3,2
1,2,\N
1,1,1
2,1,\N
3,\N,\N
5,4,4
5,2,0
8,\N,\N
256,1,\N
9223372036854775807,-1,\N

SELECT a.k, n.c, i.i FROM Accts a LEFT JOIN Notes n ON n.k = a.k LEFT JOIN Items i ON i.k = a.k AND i.c = n.c
rows 14
\N,\N,\N
-3,\N,\N
0,0,\N
0,514,\N
0,514,2
1,2,\N
1,3,1
1,3,2
2,\N,\N
3,3,\N
5,4,4
8,1,\N
256,1,\N
9223372036854775807,\N,\N

SELECT h.k, s.s, l.l FROM Shops h LEFT JOIN Sales s ON s.k = h.k LEFT JOIN Lines l ON l.k = h.k AND l.s = s.s
rows 10
\N,\N,\N
1,,2
1,,1
1,a,\N
1,ab,\N
2,\N,\N
3,\N,\N
3,abcdefgh,8
5,a,5
8,\N,\N

SELECT r.k, t.a, f.c FROM Roots r LEFT JOIN Twos t ON t.k = r.k LEFT JOIN Fours f ON f.k = r.k AND f.a = t.a AND f.b = t.b
rows 6
\N,\N,\N
0,0,0
0,0,11
1,11,11
2,\N,\N
4,\N,\N

SELECT a.k, c.c, n.c FROM Accts a JOIN Calls c ON c.k = a.k JOIN Notes n ON n.k = a.k WHERE 5 <= n.n
rows 10
-3,1,\N
0,514,514
0,0,514
0,\N,514
1,3,2
1,3,3
1,2,2
1,2,3
1,1,2
1,1,3

SELECT a.k, c.c FROM Accts a LEFT JOIN Calls c ON c.k = a.k AND 5 < c.cents
rows 10
\N,\N
-3,\N
0,0
1,3
2,\N
3,\N
5,2
8,\N
256,\N
9223372036854775807,\N

SELECT a.k, c.c FROM Accts a LEFT JOIN Calls c ON c.k = a.k WHERE c.c IS NULL
rows 4
\N,\N
0,\N
3,\N
8,\N

SELECT a.k, c.c FROM Accts a LEFT JOIN Calls c ON c.k = a.k WHERE 5 < c.cents
rows 3
0,0
1,3
5,2

SELECT a.k, c.c FROM Accts a LEFT JOIN Calls c ON c.k = a.k WHERE NOT 5 < c.cents
rows 8
-3,1
0,514
0,\N
1,2
2,1
5,4
256,1
9223372036854775807,-1

SELECT a.k, b.k FROM Accts a JOIN Accts b ON b.k = a.k
rows 9
-3,-3
0,0
1,1
2,2
3,3
5,5
8,8
256,256
9223372036854775807,9223372036854775807

SELECT a.k, b.k FROM Accts a JOIN Accts b ON b.k = a.k AND b.tier = a.tier
rows 6
0,0
1,1
2,2
3,3
256,256
9223372036854775807,9223372036854775807

SELECT a.k, n.c FROM Accts a JOIN Notes n ON n.k = a.k AND n.c = a.tier
rows 0

SELECT a.k, n.c FROM Accts a LEFT JOIN Notes n ON n.k = a.k AND n.c < a.tier
rows 10
\N,\N
-3,\N
0,0
1,\N
2,\N
3,\N
5,\N
8,\N
256,1
9223372036854775807,\N

SELECT c.k, i.i FROM Calls c JOIN Items i ON i.k = c.k AND i.c = c.c AND DIV(6, i.n) = 1
rows 8
-3,1
0,\N
0,2
1,1
1,2
1,1
5,4
256,\N

SELECT c.k, i.i FROM Calls c JOIN Items i ON i.k = c.k AND i.c = c.c AND DIV(5, i.i) = 5
refused 62

# Joins of two leaves, whose rows come in the order of what is equated, or not.

SELECT a.k, s.city FROM Accts a JOIN Shops s ON s.k = a.k
rows 5
1,\N
2,rome
3,bern
5,rome
8,oslo

SELECT s.k, a.region FROM Shops s JOIN Accts a ON a.k = s.k
rows 5
1,north
2,north
3,
5,south
8,\N

SELECT a.k, r.n FROM Accts a JOIN Roots r ON a.k = r.k
rows 3
0,2
1,3
2,3

SELECT c.k, c.c, v.v FROM Calls c JOIN Visits v ON v.k = c.k
rows 5
1,3,1
1,2,1
1,1,1
2,1,9
2,1,7

SELECT n.k, n.c, s.s FROM Notes n JOIN Sales s ON s.k = n.k
rows 9
1,2,
1,2,a
1,2,ab
1,3,
1,3,a
1,3,ab
3,3,\N
3,3,abcdefgh
5,4,a

SELECT a.k, s.k FROM Accts a JOIN Shops s ON s.n = a.tier
rows 11
\N,1
\N,3
\N,8
0,1
0,3
0,8
1,\N
2,1
2,3
2,8
3,\N

SELECT n.k, n.c, m.k FROM Notes n JOIN Notes m ON m.c = n.c
rows 15
\N,2,\N
\N,2,1
0,0,0
0,514,0
1,2,\N
1,2,1
1,3,1
1,3,3
3,3,1
3,3,3
5,4,5
8,1,8
8,1,256
256,1,8
256,1,256

SELECT c.k, c.c, m.k FROM Calls c JOIN Notes m ON m.c = c.c
rows 19
\N,2,\N
\N,2,1
-3,1,8
-3,1,256
0,514,0
0,0,0
1,3,1
1,3,3
1,2,\N
1,2,1
1,1,8
1,1,256
2,1,8
2,1,256
5,4,5
5,2,\N
5,2,1
256,1,8
256,1,256

SELECT a.k, o.a, t.c FROM Accts a JOIN Ones o ON o.k = a.k JOIN Threes t ON t.k = o.k AND t.a = o.a
rows 3
0,0,13
0,0,0
1,3337,3341

SELECT x.t, y.n FROM (SELECT tier AS t FROM Accts ORDER BY t) x JOIN (SELECT n FROM Shops ORDER BY n) y ON y.n = x.t
rows 11
1,1
1,1
2,2
2,2
2,2
2,2
2,2
2,2
2,2
2,2
2,2

SELECT x.t, y.n FROM (SELECT tier AS t FROM Accts ORDER BY t DESC) x JOIN (SELECT n FROM Shops ORDER BY n) y ON y.n = x.t
rows 11
2,2
2,2
2,2
2,2
2,2
2,2
2,2
2,2
2,2
1,1
1,1

SELECT x.t, y.n FROM (SELECT tier AS t FROM Accts ORDER BY t) x JOIN (SELECT n FROM Shops ORDER BY n DESC) y ON y.n = x.t
rows 11
1,1
1,1
2,2
2,2
2,2
2,2
2,2
2,2
2,2
2,2
2,2

SELECT x.n, x.k, y.k, y.n FROM (SELECT n, k FROM Calls ORDER BY n) x JOIN (SELECT n, k FROM Items ORDER BY n) y ON y.n = x.n
rows 26
1,\N,\N,1
1,2,\N,1
1,5,\N,1
2,\N,\N,2
4,256,1,4
4,9223372036854775807,1,4
5,0,\N,5
5,0,-3,5
5,0,0,5
5,0,1,5
5,0,5,5
5,0,256,5
5,0,\N,5
5,0,-3,5
5,0,0,5
5,0,1,5
5,0,5,5
5,0,256,5
5,1,\N,5
5,1,-3,5
5,1,0,5
5,1,1,5
5,1,5,5
5,1,256,5
6,1,0,6
6,1,1,6

SELECT x.n, x.k, y.n FROM (SELECT n, k FROM Calls ORDER BY n, k) x JOIN (SELECT n, k FROM Visits ORDER BY n, k) y ON y.n = x.n AND y.k = x.k
rows 0

SELECT x.n, y.n FROM (SELECT DISTINCT n FROM Calls ORDER BY n) x JOIN (SELECT DISTINCT n FROM Items ORDER BY n) y ON x.n = y.n
rows 5
1,1
2,2
4,4
5,5
6,6

SELECT x.s, y.b FROM (SELECT kind AS s FROM Calls ORDER BY s) x JOIN (SELECT s AS b FROM Lines ORDER BY b) y ON y.b = x.s
rows 3
,
,
abcdefgh,abcdefgh

SELECT a.k, e.n FROM Accts a JOIN Empties e ON e.k = a.k
rows 0

SELECT e.k, a.k FROM Empties e JOIN Accts a ON a.k = e.k
rows 0

SELECT x.k, a.tier FROM (SELECT k FROM Accts WHERE k = 1) x JOIN Accts a ON a.k = x.k
rows 1
1,1

SELECT a.k, s.n FROM Accts a JOIN Shops s ON s.k = a.k AND s.n < a.tier
rows 0

SELECT a.k, s.n FROM Accts a JOIN Shops s ON s.k = a.k AND 2 < s.n
rows 1
5,5

SELECT a.k, s.city FROM Accts a LEFT JOIN Shops s ON s.k = a.k
rows 10
\N,\N
-3,\N
0,\N
1,\N
2,rome
3,bern
5,rome
8,oslo
256,\N
9223372036854775807,\N

SELECT s.k, a.region FROM Shops s LEFT JOIN Accts a ON a.k = s.k
rows 6
\N,\N
1,north
2,north
3,
5,south
8,\N

SELECT a.k, r.n FROM Accts a LEFT JOIN Roots r ON a.k = r.k
rows 10
\N,\N
-3,\N
0,2
1,3
2,3
3,\N
5,\N
8,\N
256,\N
9223372036854775807,\N

SELECT c.k, c.c, v.v FROM Calls c LEFT JOIN Visits v ON v.k = c.k
rows 15
\N,2,\N
\N,\N,\N
-3,1,\N
0,514,\N
0,0,\N
0,\N,\N
1,3,1
1,2,1
1,1,1
2,1,9
2,1,7
5,4,\N
5,2,\N
256,1,\N
9223372036854775807,-1,\N

SELECT n.k, n.c, s.s FROM Notes n LEFT JOIN Sales s ON s.k = n.k
rows 16
\N,\N,\N
\N,2,\N
-3,\N,\N
0,0,\N
0,514,\N
1,2,
1,2,a
1,2,ab
1,3,
1,3,a
1,3,ab
3,3,\N
3,3,abcdefgh
5,4,a
8,1,\N
256,1,\N

SELECT a.k, s.k FROM Accts a LEFT JOIN Shops s ON s.n = a.tier
rows 16
\N,1
\N,3
\N,8
-3,\N
0,1
0,3
0,8
1,\N
2,1
2,3
2,8
3,\N
5,\N
8,\N
256,\N
9223372036854775807,\N

SELECT n.k, n.c, m.k FROM Notes n LEFT JOIN Notes m ON m.c = n.c
rows 17
\N,\N,\N
\N,2,\N
\N,2,1
-3,\N,\N
0,0,0
0,514,0
1,2,\N
1,2,1
1,3,1
1,3,3
3,3,1
3,3,3
5,4,5
8,1,8
8,1,256
256,1,8
256,1,256

SELECT c.k, c.c, m.k FROM Calls c LEFT JOIN Notes m ON m.c = c.c
rows 22
\N,2,\N
\N,2,1
\N,\N,\N
-3,1,8
-3,1,256
0,514,0
0,0,0
0,\N,\N
1,3,1
1,3,3
1,2,\N
1,2,1
1,1,8
1,1,256
2,1,8
2,1,256
5,4,5
5,2,\N
5,2,1
256,1,8
256,1,256
9223372036854775807,-1,\N

SELECT a.k, o.a, t.c FROM Accts a LEFT JOIN Ones o ON o.k = a.k LEFT JOIN Threes t ON t.k = o.k AND t.a = o.a
rows 11
\N,\N,\N
-3,\N,\N
0,0,13
0,0,0
1,3337,3341
2,\N,\N
3,\N,\N
5,\N,\N
8,\N,\N
256,\N,\N
9223372036854775807,\N,\N

SELECT x.t, y.n FROM (SELECT tier AS t FROM Accts ORDER BY t) x LEFT JOIN (SELECT n FROM Shops ORDER BY n) y ON y.n = x.t
rows 16
\N,\N
\N,\N
\N,\N
-1,\N
1,1
1,1
2,2
2,2
2,2
2,2
2,2
2,2
2,2
2,2
2,2
3,\N

SELECT x.t, y.n FROM (SELECT tier AS t FROM Accts ORDER BY t DESC) x LEFT JOIN (SELECT n FROM Shops ORDER BY n) y ON y.n = x.t
rows 16
3,\N
2,2
2,2
2,2
2,2
2,2
2,2
2,2
2,2
2,2
1,1
1,1
-1,\N
\N,\N
\N,\N
\N,\N

SELECT x.t, y.n FROM (SELECT tier AS t FROM Accts ORDER BY t) x LEFT JOIN (SELECT n FROM Shops ORDER BY n DESC) y ON y.n = x.t
rows 16
\N,\N
\N,\N
\N,\N
-1,\N
1,1
1,1
2,2
2,2
2,2
2,2
2,2
2,2
2,2
2,2
2,2
3,\N

SELECT x.n, x.k, y.k, y.n FROM (SELECT n, k FROM Calls ORDER BY n) x LEFT JOIN (SELECT n, k FROM Items ORDER BY n) y ON y.n = x.n
rows 30
\N,0,\N,\N
\N,5,\N,\N
1,\N,\N,1
1,2,\N,1
1,5,\N,1
2,\N,\N,2
3,-3,\N,\N
4,256,1,4
4,9223372036854775807,1,4
5,0,\N,5
5,0,-3,5
5,0,0,5
5,0,1,5
5,0,5,5
5,0,256,5
5,0,\N,5
5,0,-3,5
5,0,0,5
5,0,1,5
5,0,5,5
5,0,256,5
5,1,\N,5
5,1,-3,5
5,1,0,5
5,1,1,5
5,1,5,5
5,1,256,5
6,1,0,6
6,1,1,6
7,1,\N,\N

SELECT x.n, x.k, y.n FROM (SELECT n, k FROM Calls ORDER BY n, k) x LEFT JOIN (SELECT n, k FROM Visits ORDER BY n, k) y ON y.n = x.n AND y.k = x.k
rows 14
\N,0,\N
\N,5,\N
1,\N,\N
1,2,\N
1,5,\N
2,\N,\N
3,-3,\N
4,256,\N
4,9223372036854775807,\N
5,0,\N
5,0,\N
5,1,\N
6,1,\N
7,1,\N

SELECT x.n, y.n FROM (SELECT DISTINCT n FROM Calls ORDER BY n) x LEFT JOIN (SELECT DISTINCT n FROM Items ORDER BY n) y ON x.n = y.n
rows 8
\N,\N
1,1
2,2
3,\N
4,4
5,5
6,6
7,\N

SELECT x.s, y.b FROM (SELECT kind AS s FROM Calls ORDER BY s) x LEFT JOIN (SELECT s AS b FROM Lines ORDER BY b) y ON y.b = x.s
rows 15
\N,\N
\N,\N
,
,
abcdefgh,abcdefgh
abcdefgh1,\N
abcdefgh10,\N
abcdefgh2,\N
talk,\N
talk,\N
talk,\N
talk,\N
text,\N
text,\N
text,\N

SELECT a.k, e.n FROM Accts a LEFT JOIN Empties e ON e.k = a.k
rows 10
\N,\N
-3,\N
0,\N
1,\N
2,\N
3,\N
5,\N
8,\N
256,\N
9223372036854775807,\N

SELECT e.k, a.k FROM Empties e LEFT JOIN Accts a ON a.k = e.k
rows 0

SELECT x.k, a.tier FROM (SELECT k FROM Accts WHERE k = 1) x LEFT JOIN Accts a ON a.k = x.k
rows 1
1,1

SELECT a.k, s.n FROM Accts a LEFT JOIN Shops s ON s.k = a.k AND s.n < a.tier
rows 10
\N,\N
-3,\N
0,\N
1,\N
2,\N
3,\N
5,\N
8,\N
256,\N
9223372036854775807,\N

SELECT a.k, s.n FROM Accts a LEFT JOIN Shops s ON s.k = a.k AND 2 < s.n
rows 10
\N,\N
-3,\N
0,\N
1,\N
2,\N
3,\N
5,5
8,\N
256,\N
9223372036854775807,\N

# Every row of each table, and how many: keys of one family with numbers alone, with NULLs in them, with texts, and of one length.

SELECT * FROM Accts
rows 10
\N,north,2,true,\x01
-3,south,\N,\N,\N
0,\N,2,false,\x
1,north,1,true,\x01
2,north,2,true,\x01
3,,1,\N,\xff
5,south,\N,\N,\N
8,\N,\N,false,\x
256,north,3,false,\x0100
9223372036854775807,south,-1,true,\N

SELECT COUNT(*) FROM Accts
rows 1
10

SELECT * FROM Calls
rows 14
\N,2,\N,\N,2
\N,\N,7,talk,1
-3,1,5,talk,3
0,514,4,abcdefgh2,5
0,0,6,abcdefgh,5
0,\N,5,abcdefgh1,\N
1,3,9223372036854775807,text,7
1,2,5,text,6
1,1,\N,talk,5
2,1,-9223372036854775808,,1
5,4,5,talk,1
5,2,6,abcdefgh10,\N
256,1,0,\N,4
9223372036854775807,-1,-5,text,4

SELECT COUNT(*) FROM Calls
rows 1
14

SELECT * FROM Items
rows 13
\N,2,3,5,5
\N,\N,\N,1,1
\N,\N,4,2,\N
-3,1,1,5,4
0,514,\N,6,5
0,514,2,5,6
0,\N,1,\N,5
1,3,1,5,\N
1,3,2,6,6
1,1,1,4,4
5,4,4,5,5
5,2,0,-5,5
256,1,\N,5,7

SELECT COUNT(*) FROM Items
rows 1
13

SELECT * FROM Notes
rows 11
\N,\N,first,4
\N,2,\N,5
-3,\N,x,5
0,0,y,\N
0,514,y,6
1,2,z,5
1,3,z,7
3,3,z,5
5,4,\N,1
8,1,x,5
256,1,x,\N

SELECT COUNT(*) FROM Notes
rows 1
11

SELECT * FROM Shops
rows 6
\N,bern,1
1,\N,2
2,rome,\N
3,bern,2
5,rome,5
8,oslo,2

SELECT COUNT(*) FROM Shops
rows 1
6

SELECT * FROM Sales
rows 8
\N,\N,1
\N,a,2
1,,3
1,a,\N
1,ab,3
3,\N,3
3,abcdefgh,4
5,a,5

SELECT COUNT(*) FROM Sales
rows 1
8

SELECT * FROM Lines
rows 7
\N,\N,\N,1
\N,a,5,5
1,,2,\N
1,,1,5
1,ab,\N,6
3,abcdefgh,8,7
5,a,5,5

SELECT COUNT(*) FROM Lines
rows 1
7

SELECT * FROM Visits
rows 7
\N,3,6
\N,\N,5
1,1,\N
2,9,4
2,7,5
8,0,8
8,\N,5

SELECT COUNT(*) FROM Visits
rows 1
7

SELECT * FROM Roots
rows 5
\N,1
0,2
1,3
2,3
4,5

SELECT COUNT(*) FROM Roots
rows 1
5

SELECT * FROM Ones
rows 5
\N,\N,1
\N,3,2
0,0,5
1,3337,6
4,1,5

SELECT COUNT(*) FROM Ones
rows 1
5

SELECT * FROM Threes
rows 6
\N,\N,\N,\N,1
\N,3,1,2,5
0,0,\N,13,5
0,0,0,0,6
1,3337,3341,3341,\N
4,1,1,1,5

SELECT COUNT(*) FROM Threes
rows 1
6

SELECT * FROM Twos
rows 5
\N,\N,\N,1
0,0,0,5
0,0,13,6
1,11,13,5
2,\N,11,4

SELECT COUNT(*) FROM Twos
rows 1
5

SELECT * FROM Fours
rows 6
\N,\N,\N,\N,1
\N,\N,\N,7,5
0,0,0,0,6
0,0,13,11,5
1,11,13,11,4
2,\N,11,\N,5

SELECT COUNT(*) FROM Fours
rows 1
6

SELECT * FROM Wides
rows 6
\N,\N,\N,\N,\N,\N,\N,\N,1
\N,\N,\N,\N,\N,\N,\N,7,5
0,\N,\N,\N,\N,\N,\N,\N,5
0,0,0,0,0,0,0,0,6
1,3,\N,14,\N,11,\N,13,5
2,1,2,3,4,5,6,7,\N

SELECT COUNT(*) FROM Wides
rows 1
6

SELECT COUNT(*), SUM(tier) FROM Accts WHERE k IS NULL
rows 1
1,2

SELECT COUNT(*) FROM Accts WHERE 5 = tier
rows 1
0

SELECT COUNT(*), SUM(n) FROM Calls WHERE k IS NULL
rows 1
2,3

SELECT COUNT(*) FROM Calls WHERE 5 = n
rows 1
3

SELECT COUNT(*), SUM(n) FROM Items WHERE k IS NULL
rows 1
3,8

SELECT COUNT(*) FROM Items WHERE 5 = n
rows 1
6

SELECT COUNT(*), SUM(n) FROM Notes WHERE k IS NULL
rows 1
2,9

SELECT COUNT(*) FROM Notes WHERE 5 = n
rows 1
5

SELECT COUNT(*), SUM(n) FROM Sales WHERE k IS NULL
rows 1
2,3

SELECT COUNT(*) FROM Sales WHERE 5 = n
rows 1
1

SELECT COUNT(*), SUM(n) FROM Lines WHERE k IS NULL
rows 1
2,6

SELECT COUNT(*) FROM Lines WHERE 5 = n
rows 1
3

SELECT COUNT(*), SUM(n) FROM Visits WHERE k IS NULL
rows 1
2,11

SELECT COUNT(*) FROM Visits WHERE 5 = n
rows 1
3

SELECT COUNT(*), SUM(n) FROM Roots WHERE k IS NULL
rows 1
1,1

SELECT COUNT(*) FROM Roots WHERE 5 = n
rows 1
1

SELECT COUNT(*), SUM(n) FROM Ones WHERE k IS NULL
rows 1
2,3

SELECT COUNT(*) FROM Ones WHERE 5 = n
rows 1
2

SELECT COUNT(*), SUM(n) FROM Threes WHERE k IS NULL
rows 1
2,6

SELECT COUNT(*) FROM Threes WHERE 5 = n
rows 1
3

SELECT COUNT(*), SUM(n) FROM Twos WHERE k IS NULL
rows 1
1,1

SELECT COUNT(*) FROM Twos WHERE 5 = n
rows 1
2

SELECT COUNT(*), SUM(n) FROM Fours WHERE k IS NULL
rows 1
2,6

SELECT COUNT(*) FROM Fours WHERE 5 = n
rows 1
3

SELECT COUNT(*), SUM(n) FROM Wides WHERE k IS NULL
rows 1
2,6

SELECT COUNT(*) FROM Wides WHERE 5 = n
rows 1
3

SELECT * FROM Wides WHERE a IS NULL
rows 3
\N,\N,\N,\N,\N,\N,\N,\N,1
\N,\N,\N,\N,\N,\N,\N,7,5
0,\N,\N,\N,\N,\N,\N,\N,5

SELECT * FROM Threes WHERE b IS NULL
rows 2
\N,\N,\N,\N,1
0,0,\N,13,5

SELECT * FROM Fours WHERE 5 <= n AND a IS NULL
rows 2
\N,\N,\N,7,5
2,\N,11,\N,5

SELECT * FROM Items WHERE c IS NULL
rows 3
\N,\N,\N,1,1
\N,\N,4,2,\N
0,\N,1,\N,5

SELECT * FROM Calls WHERE c = 514
rows 1
0,514,4,abcdefgh2,5

# A number on the left of each comparison, at the columns of a packed row and at others.

SELECT k, c, cents FROM Calls WHERE 5 = cents
rows 4
-3,1,5
0,\N,5
1,2,5
5,4,5

SELECT k, c, cents FROM Calls WHERE cents = 5
rows 4
-3,1,5
0,\N,5
1,2,5
5,4,5

SELECT k, c FROM Calls WHERE 2 = c
rows 3
\N,2
1,2
5,2

SELECT k FROM Accts WHERE 2 = k
rows 1
2

SELECT k, c FROM Calls WHERE NOT 5 = cents
rows 8
\N,\N
0,514
0,0
1,3
2,1
5,2
256,1
9223372036854775807,-1

SELECT k, c, i FROM Items WHERE n = m
rows 5
\N,2,3
\N,\N,\N
1,3,2
1,1,1
5,4,4

SELECT k, c, i FROM Items WHERE 5 = n AND m = 5
rows 2
\N,2,3
5,4,4

SELECT a.k, c.c FROM Accts a JOIN Calls c ON c.k = a.k WHERE 5 = c.cents
rows 4
-3,1
0,\N
1,2
5,4

SELECT a.k, c.c FROM Accts a LEFT JOIN Calls c ON c.k = a.k AND 5 = c.cents
rows 10
\N,\N
-3,1
0,\N
1,2
2,\N
3,\N
5,4
8,\N
256,\N
9223372036854775807,\N

SELECT k, c, cents FROM Calls WHERE 5 <> cents
rows 8
\N,\N,7
0,514,4
0,0,6
1,3,9223372036854775807
2,1,-9223372036854775808
5,2,6
256,1,0
9223372036854775807,-1,-5

SELECT k, c, cents FROM Calls WHERE cents <> 5
rows 8
\N,\N,7
0,514,4
0,0,6
1,3,9223372036854775807
2,1,-9223372036854775808
5,2,6
256,1,0
9223372036854775807,-1,-5

SELECT k, c FROM Calls WHERE 2 <> c
rows 9
-3,1
0,514
0,0
1,3
1,1
2,1
5,4
256,1
9223372036854775807,-1

SELECT k FROM Accts WHERE 2 <> k
rows 8
-3
0
1
3
5
8
256
9223372036854775807

SELECT k, c FROM Calls WHERE NOT 5 <> cents
rows 4
-3,1
0,\N
1,2
5,4

SELECT k, c, i FROM Items WHERE n <> m
rows 5
-3,1,1
0,514,\N
0,514,2
5,2,0
256,1,\N

SELECT k, c, i FROM Items WHERE 5 <> n AND m <> 5
rows 3
\N,\N,\N
1,3,2
1,1,1

SELECT a.k, c.c FROM Accts a JOIN Calls c ON c.k = a.k WHERE 5 <> c.cents
rows 7
0,514
0,0
1,3
2,1
5,2
256,1
9223372036854775807,-1

SELECT a.k, c.c FROM Accts a LEFT JOIN Calls c ON c.k = a.k AND 5 <> c.cents
rows 11
\N,\N
-3,\N
0,514
0,0
1,3
2,1
3,\N
5,2
8,\N
256,1
9223372036854775807,-1

SELECT k, c, cents FROM Calls WHERE 5 != cents
rows 8
\N,\N,7
0,514,4
0,0,6
1,3,9223372036854775807
2,1,-9223372036854775808
5,2,6
256,1,0
9223372036854775807,-1,-5

SELECT k, c, cents FROM Calls WHERE cents != 5
rows 8
\N,\N,7
0,514,4
0,0,6
1,3,9223372036854775807
2,1,-9223372036854775808
5,2,6
256,1,0
9223372036854775807,-1,-5

SELECT k, c FROM Calls WHERE 2 != c
rows 9
-3,1
0,514
0,0
1,3
1,1
2,1
5,4
256,1
9223372036854775807,-1

SELECT k FROM Accts WHERE 2 != k
rows 8
-3
0
1
3
5
8
256
9223372036854775807

SELECT k, c FROM Calls WHERE NOT 5 != cents
rows 4
-3,1
0,\N
1,2
5,4

SELECT k, c, i FROM Items WHERE n != m
rows 5
-3,1,1
0,514,\N
0,514,2
5,2,0
256,1,\N

SELECT k, c, i FROM Items WHERE 5 != n AND m != 5
rows 3
\N,\N,\N
1,3,2
1,1,1

SELECT a.k, c.c FROM Accts a JOIN Calls c ON c.k = a.k WHERE 5 != c.cents
rows 7
0,514
0,0
1,3
2,1
5,2
256,1
9223372036854775807,-1

SELECT a.k, c.c FROM Accts a LEFT JOIN Calls c ON c.k = a.k AND 5 != c.cents
rows 11
\N,\N
-3,\N
0,514
0,0
1,3
2,1
3,\N
5,2
8,\N
256,1
9223372036854775807,-1

SELECT k, c, cents FROM Calls WHERE 5 < cents
rows 4
\N,\N,7
0,0,6
1,3,9223372036854775807
5,2,6

SELECT k, c, cents FROM Calls WHERE cents < 5
rows 4
0,514,4
2,1,-9223372036854775808
256,1,0
9223372036854775807,-1,-5

SELECT k, c FROM Calls WHERE 2 < c
rows 3
0,514
1,3
5,4

SELECT k FROM Accts WHERE 2 < k
rows 5
3
5
8
256
9223372036854775807

SELECT k, c FROM Calls WHERE NOT 5 < cents
rows 8
-3,1
0,514
0,\N
1,2
2,1
5,4
256,1
9223372036854775807,-1

SELECT k, c, i FROM Items WHERE n < m
rows 3
0,514,2
5,2,0
256,1,\N

SELECT k, c, i FROM Items WHERE 5 < n AND m < 5
rows 0

SELECT a.k, c.c FROM Accts a JOIN Calls c ON c.k = a.k WHERE 5 < c.cents
rows 3
0,0
1,3
5,2

SELECT k, c, cents FROM Calls WHERE 5 <= cents
rows 8
\N,\N,7
-3,1,5
0,0,6
0,\N,5
1,3,9223372036854775807
1,2,5
5,4,5
5,2,6

SELECT k, c, cents FROM Calls WHERE cents <= 5
rows 8
-3,1,5
0,514,4
0,\N,5
1,2,5
2,1,-9223372036854775808
5,4,5
256,1,0
9223372036854775807,-1,-5

SELECT k, c FROM Calls WHERE 2 <= c
rows 6
\N,2
0,514
1,3
1,2
5,4
5,2

SELECT k FROM Accts WHERE 2 <= k
rows 6
2
3
5
8
256
9223372036854775807

SELECT k, c FROM Calls WHERE NOT 5 <= cents
rows 4
0,514
2,1
256,1
9223372036854775807,-1

SELECT k, c, i FROM Items WHERE n <= m
rows 8
\N,2,3
\N,\N,\N
0,514,2
1,3,2
1,1,1
5,4,4
5,2,0
256,1,\N

SELECT k, c, i FROM Items WHERE 5 <= n AND m <= 5
rows 4
\N,2,3
-3,1,1
0,514,\N
5,4,4

SELECT a.k, c.c FROM Accts a JOIN Calls c ON c.k = a.k WHERE 5 <= c.cents
rows 7
-3,1
0,0
0,\N
1,3
1,2
5,4
5,2

SELECT a.k, c.c FROM Accts a LEFT JOIN Calls c ON c.k = a.k AND 5 <= c.cents
rows 13
\N,\N
-3,1
0,0
0,\N
1,3
1,2
2,\N
3,\N
5,4
5,2
8,\N
256,\N
9223372036854775807,\N

SELECT k, c, cents FROM Calls WHERE 5 > cents
rows 4
0,514,4
2,1,-9223372036854775808
256,1,0
9223372036854775807,-1,-5

SELECT k, c, cents FROM Calls WHERE cents > 5
rows 4
\N,\N,7
0,0,6
1,3,9223372036854775807
5,2,6

SELECT k, c FROM Calls WHERE 2 > c
rows 6
-3,1
0,0
1,1
2,1
256,1
9223372036854775807,-1

SELECT k FROM Accts WHERE 2 > k
rows 3
-3
0
1

SELECT k, c FROM Calls WHERE NOT 5 > cents
rows 8
\N,\N
-3,1
0,0
0,\N
1,3
1,2
5,4
5,2

SELECT k, c, i FROM Items WHERE n > m
rows 2
-3,1,1
0,514,\N

SELECT k, c, i FROM Items WHERE 5 > n AND m > 5
rows 0

SELECT a.k, c.c FROM Accts a JOIN Calls c ON c.k = a.k WHERE 5 > c.cents
rows 4
0,514
2,1
256,1
9223372036854775807,-1

SELECT a.k, c.c FROM Accts a LEFT JOIN Calls c ON c.k = a.k AND 5 > c.cents
rows 10
\N,\N
-3,\N
0,514
1,\N
2,1
3,\N
5,\N
8,\N
256,1
9223372036854775807,-1

SELECT k, c, cents FROM Calls WHERE 5 >= cents
rows 8
-3,1,5
0,514,4
0,\N,5
1,2,5
2,1,-9223372036854775808
5,4,5
256,1,0
9223372036854775807,-1,-5

SELECT k, c, cents FROM Calls WHERE cents >= 5
rows 8
\N,\N,7
-3,1,5
0,0,6
0,\N,5
1,3,9223372036854775807
1,2,5
5,4,5
5,2,6

SELECT k, c FROM Calls WHERE 2 >= c
rows 9
\N,2
-3,1
0,0
1,2
1,1
2,1
5,2
256,1
9223372036854775807,-1

SELECT k FROM Accts WHERE 2 >= k
rows 4
-3
0
1
2

SELECT k, c FROM Calls WHERE NOT 5 >= cents
rows 4
\N,\N
0,0
1,3
5,2

SELECT k, c, i FROM Items WHERE n >= m
rows 7
\N,2,3
\N,\N,\N
-3,1,1
0,514,\N
1,3,2
1,1,1
5,4,4

SELECT k, c, i FROM Items WHERE 5 >= n AND m >= 5
rows 5
\N,2,3
0,514,2
5,4,4
5,2,0
256,1,\N

SELECT a.k, c.c FROM Accts a JOIN Calls c ON c.k = a.k WHERE 5 >= c.cents
rows 8
-3,1
0,514
0,\N
1,2
2,1
5,4
256,1
9223372036854775807,-1

SELECT a.k, c.c FROM Accts a LEFT JOIN Calls c ON c.k = a.k AND 5 >= c.cents
rows 11
\N,\N
-3,1
0,514
0,\N
1,2
2,1
3,\N
5,4
8,\N
256,1
9223372036854775807,-1

SELECT k, c FROM Calls WHERE NULL < cents
rows 0

SELECT k, c FROM Calls WHERE 5 = NULL
rows 0

SELECT k, c FROM Calls WHERE 5 < 7
rows 14
\N,2
\N,\N
-3,1
0,514
0,0
0,\N
1,3
1,2
1,1
2,1
5,4
5,2
256,1
9223372036854775807,-1

SELECT k, c FROM Calls WHERE 7 < 5
rows 0

SELECT k, c FROM Calls WHERE -5 <= cents
rows 11
\N,\N
-3,1
0,514
0,0
0,\N
1,3
1,2
5,4
5,2
256,1
9223372036854775807,-1

SELECT k, c FROM Calls WHERE -5 = cents
rows 1
9223372036854775807,-1

SELECT k, c FROM Calls WHERE 9223372036854775807 <= cents
rows 1
1,3

SELECT k, c FROM Calls WHERE 9223372036854775807 > cents
rows 11
\N,\N
-3,1
0,514
0,0
0,\N
1,2
2,1
5,4
5,2
256,1
9223372036854775807,-1

SELECT k, c FROM Calls WHERE -9223372036854775807 > cents
rows 1
2,1

SELECT k, c FROM Calls WHERE 5 + 0 < cents
rows 4
\N,\N
0,0
1,3
5,2

SELECT k, c FROM Calls WHERE 5 < cents + 1
refused 62

SELECT k, c FROM Calls WHERE 5 < n + 0
rows 2
1,3
1,2

SELECT k, c FROM Calls WHERE 'talk' = kind
rows 4
\N,\N
-3,1
1,1
5,4

SELECT k, c FROM Calls WHERE 'talk' < kind
rows 3
1,3
1,2
9223372036854775807,-1

SELECT k, c FROM Calls WHERE 5 < cents AND 'text' = kind
rows 1
1,3

SELECT k, c FROM Calls WHERE 5 < cents OR 5 = n
rows 6
\N,\N
0,514
0,0
1,3
1,1
5,2

SELECT k, c FROM Calls WHERE 5 <= cents AND cents <= 6
rows 6
-3,1
0,0
0,\N
1,2
5,4
5,2

SELECT k, c FROM Calls WHERE 5 <= cents AND 6 >= cents
rows 6
-3,1
0,0
0,\N
1,2
5,4
5,2

SELECT k, c FROM Calls WHERE 5 <= cents AND 5 = n AND 4 >= cents
rows 0

SELECT k, c FROM Calls WHERE (5 < cents) = TRUE
rows 4
\N,\N
0,0
1,3
5,2

SELECT k, c FROM Calls WHERE (5 < cents) IS NULL
rows 2
\N,2
1,1

SELECT k, c FROM Calls WHERE 5 <= cents AND DIV(1, n - 5) = 0
refused 62

SELECT k, c FROM Calls WHERE 6 <= cents AND DIV(1, n - 5) = 0 AND k > 0
rows 1
1,3

# BETWEEN with a number, a column and NULL in each place.

SELECT k, c FROM Calls WHERE cents BETWEEN 5 AND 6
rows 6
-3,1
0,0
0,\N
1,2
5,4
5,2

SELECT k, c FROM Calls WHERE NOT cents BETWEEN 5 AND 6
rows 6
\N,\N
0,514
1,3
2,1
256,1
9223372036854775807,-1

SELECT k, c FROM Calls WHERE cents NOT BETWEEN 5 AND 6
rows 6
\N,\N
0,514
1,3
2,1
256,1
9223372036854775807,-1

SELECT k, c FROM Calls WHERE 5 BETWEEN cents AND 7
rows 8
-3,1
0,514
0,\N
1,2
2,1
5,4
256,1
9223372036854775807,-1

SELECT k, c FROM Calls WHERE 5 BETWEEN 3 AND cents
rows 8
\N,\N
-3,1
0,0
0,\N
1,3
1,2
5,4
5,2

SELECT k, c FROM Calls WHERE 5 BETWEEN n AND cents
rows 4
\N,\N
-3,1
0,0
5,4

SELECT k, c FROM Calls WHERE 5 BETWEEN cents AND n
rows 2
0,514
1,2

SELECT k, c FROM Calls WHERE 5 BETWEEN 4 AND 6
rows 14
\N,2
\N,\N
-3,1
0,514
0,0
0,\N
1,3
1,2
1,1
2,1
5,4
5,2
256,1
9223372036854775807,-1

SELECT k, c FROM Calls WHERE 5 BETWEEN 6 AND 4
rows 0

SELECT k, c FROM Calls WHERE cents BETWEEN 6 AND 5
rows 0

SELECT k, c FROM Calls WHERE cents BETWEEN NULL AND 5
rows 0

SELECT k, c FROM Calls WHERE cents BETWEEN 5 AND NULL
rows 0

SELECT k, c FROM Calls WHERE NOT cents BETWEEN NULL AND 4
rows 8
\N,\N
-3,1
0,0
0,\N
1,3
1,2
5,4
5,2

SELECT k, c FROM Calls WHERE NOT 5 BETWEEN 6 AND cents
rows 14
\N,2
\N,\N
-3,1
0,514
0,0
0,\N
1,3
1,2
1,1
2,1
5,4
5,2
256,1
9223372036854775807,-1

SELECT k, c FROM Calls WHERE NULL BETWEEN 5 AND cents
rows 0

SELECT k, c FROM Calls WHERE cents BETWEEN 5 AND cents
rows 8
\N,\N
-3,1
0,0
0,\N
1,3
1,2
5,4
5,2

SELECT k, c FROM Calls WHERE cents BETWEEN n AND 6
rows 3
-3,1
0,0
5,4

SELECT k, c FROM Calls WHERE cents BETWEEN 4 AND n
rows 2
0,514
1,2

SELECT k, c FROM Calls WHERE cents BETWEEN 5 AND 5 + 1
rows 6
-3,1
0,0
0,\N
1,2
5,4
5,2

SELECT k, c FROM Calls WHERE 5 BETWEEN 4 AND cents AND n BETWEEN 5 AND 6
rows 2
0,0
1,2

SELECT k, c FROM Calls WHERE c BETWEEN 1 AND 3
rows 8
\N,2
-3,1
1,3
1,2
1,1
2,1
5,2
256,1

SELECT k, c FROM Calls WHERE 2 BETWEEN c AND 3
rows 9
\N,2
-3,1
0,0
1,2
1,1
2,1
5,2
256,1
9223372036854775807,-1

SELECT k FROM Accts WHERE 2 BETWEEN 1 AND k
rows 6
2
3
5
8
256
9223372036854775807

SELECT k FROM Accts WHERE 2 BETWEEN k AND tier
rows 2
0
2

SELECT k, c FROM Calls WHERE 5 BETWEEN 6 AND DIV(1, 0)
rows 0

SELECT k, c FROM Calls WHERE 5 BETWEEN 4 AND DIV(1, 0)
refused 62

SELECT k, c FROM Calls WHERE cents BETWEEN 6 AND DIV(1, n - 5)
refused 62

SELECT a.k, c.c FROM Accts a JOIN Calls c ON c.k = a.k AND 5 BETWEEN c.cents AND 5
rows 8
-3,1
0,514
0,\N
1,2
2,1
5,4
256,1
9223372036854775807,-1

SELECT a.k, c.c FROM Accts a JOIN Calls c ON c.k = a.k AND 1 BETWEEN a.tier AND c.c
rows 3
1,3
1,2
1,1

param p INT64 5
SELECT k, c FROM Calls WHERE @p <= cents
rows 8
\N,\N
-3,1
0,0
0,\N
1,3
1,2
5,4
5,2

param p INT64 5
SELECT k, c FROM Calls WHERE @p BETWEEN cents AND 6
rows 8
-3,1
0,514
0,\N
1,2
2,1
5,4
256,1
9223372036854775807,-1

param p INT64 5
SELECT k, c FROM Calls WHERE cents BETWEEN @p AND 5
rows 4
-3,1
0,\N
1,2
5,4

param p INT64 \N
SELECT k, c FROM Calls WHERE @p <= cents
rows 0

param p INT64 \N
SELECT k, c FROM Calls WHERE @p BETWEEN cents AND 6
rows 0

param p INT64 \N
SELECT k, c FROM Calls WHERE cents BETWEEN @p AND 5
rows 0

param p INT64 -9223372036854775808
SELECT k, c FROM Calls WHERE @p <= cents
rows 12
\N,\N
-3,1
0,514
0,0
0,\N
1,3
1,2
2,1
5,4
5,2
256,1
9223372036854775807,-1

param p INT64 -9223372036854775808
SELECT k, c FROM Calls WHERE @p BETWEEN cents AND 6
rows 1
2,1

param p INT64 -9223372036854775808
SELECT k, c FROM Calls WHERE cents BETWEEN @p AND 5
rows 8
-3,1
0,514
0,\N
1,2
2,1
5,4
256,1
9223372036854775807,-1

# Groups of parts: as many groups as rows, half as many and fewer.

SELECT k, COUNT(*) FROM Accts GROUP BY k
rows 10
\N,1
-3,1
0,1
1,1
2,1
3,1
5,1
8,1
256,1
9223372036854775807,1

SELECT tier, COUNT(*), MIN(k), MAX(k) FROM Accts GROUP BY tier
rows 5
2,3,0,2
\N,3,-3,8
1,2,1,3
3,1,256,256
-1,1,9223372036854775807,9223372036854775807

SELECT region, COUNT(tier), SUM(tier) FROM Accts GROUP BY region
rows 4
north,4,8
south,1,-1
\N,1,2
,1,1

SELECT k, COUNT(*), SUM(n) FROM Calls GROUP BY k
rows 8
\N,2,3
-3,1,3
0,3,10
1,3,18
2,1,1
5,2,1
256,1,4
9223372036854775807,1,4

SELECT c, COUNT(*) FROM Calls GROUP BY c
rows 8
2,3
\N,2
1,4
514,1
0,1
3,1
4,1
-1,1

SELECT k, c, COUNT(*) FROM Calls GROUP BY k, c
rows 14
\N,2,1
\N,\N,1
-3,1,1
0,514,1
0,0,1
0,\N,1
1,3,1
1,2,1
1,1,1
2,1,1
5,4,1
5,2,1
256,1,1
9223372036854775807,-1,1

SELECT kind, COUNT(*), MIN(c) FROM Calls GROUP BY kind
rows 8
\N,2,1
talk,4,1
abcdefgh2,1,514
abcdefgh,1,0
abcdefgh1,1,\N
text,3,-1
,1,1
abcdefgh10,1,2

SELECT n, SUM(cents) FROM Calls GROUP BY n
rows 8
2,\N
1,-9223372036854775796
3,5
5,10
\N,11
7,9223372036854775807
6,5
4,-5

SELECT k, SUM(cents) FROM Calls GROUP BY k
refused 62

SELECT SUM(cents) FROM Calls
rows 1
37

SELECT COUNT(*), SUM(n) FROM Calls
rows 1
14,44

SELECT n, m, COUNT(*) FROM Items GROUP BY n, m
rows 12
5,5,2
1,1,1
2,\N,1
5,4,1
6,5,1
5,6,1
\N,5,1
5,\N,1
6,6,1
4,4,1
-5,5,1
5,7,1

SELECT COUNT(*) FROM Items GROUP BY k HAVING 1 < COUNT(*)
rows 4
3
3
3
2

SELECT k, MAX(n) FROM Notes GROUP BY k ORDER BY 2 DESC
rows 8
1,7
0,6
\N,5
-3,5
3,5
8,5
5,1
256,\N

SELECT k, SUM(n + 1) FROM Notes GROUP BY k
rows 8
\N,11
-3,6
0,7
1,14
3,6
5,2
8,6
256,\N

SELECT tier FROM Accts GROUP BY tier
rows 5
2
\N
1
3
-1

SELECT k, tier, COUNT(*) FROM Accts WHERE 1 <= tier GROUP BY k, tier
rows 6
\N,2,1
0,2,1
1,1,1
2,2,1
3,1,1
256,3,1

SELECT COUNT(*) FROM Empties
rows 1
0

SELECT n, COUNT(*) FROM Empties GROUP BY n
rows 0

SELECT SUM(DIV(1, tier)) FROM Accts
rows 1
1

SELECT k, SUM(DIV(6, n)) FROM Items GROUP BY k
rows 6
\N,10
-3,1
0,2
1,3
5,0
256,1

# Conditions at pairs of rows, of columns of either: tests for NULL, NOT, AND and OR, with NULL in key columns and in others, with an error
# after a condition that decides.

SELECT a.k, c.c FROM Accts a LEFT JOIN Calls c ON c.k = a.k WHERE c.k IS NULL
rows 3
\N,\N
3,\N
8,\N

SELECT a.k, c.c FROM Accts a LEFT JOIN Calls c ON c.k = a.k WHERE c.k IS NOT NULL
rows 12
-3,1
0,514
0,0
0,\N
1,3
1,2
1,1
2,1
5,4
5,2
256,1
9223372036854775807,-1

SELECT a.k, c.c FROM Accts a LEFT JOIN Calls c ON c.k = a.k WHERE c.kind IS NULL
rows 4
\N,\N
3,\N
8,\N
256,1

SELECT a.k, c.c FROM Accts a LEFT JOIN Calls c ON c.k = a.k WHERE NOT c.kind IS NULL
rows 11
-3,1
0,514
0,0
0,\N
1,3
1,2
1,1
2,1
5,4
5,2
9223372036854775807,-1

SELECT a.k, c.c FROM Accts a LEFT JOIN Calls c ON c.k = a.k WHERE a.k IS NULL
rows 1
\N,\N

SELECT a.k, c.c FROM Accts a LEFT JOIN Calls c ON c.k = a.k WHERE NOT a.k IS NOT NULL
rows 1
\N,\N

SELECT a.k, c.c FROM Accts a LEFT JOIN Calls c ON c.k = a.k WHERE a.region IS NULL AND c.c IS NULL
rows 2
0,\N
8,\N

SELECT a.k, c.c FROM Accts a LEFT JOIN Calls c ON c.k = a.k WHERE a.region IS NOT NULL AND c.k IS NULL
rows 2
\N,\N
3,\N

SELECT a.k, c.c FROM Accts a LEFT JOIN Calls c ON c.k = a.k WHERE c.c IS NULL AND a.tier > 1
rows 2
\N,\N
0,\N

SELECT a.k, c.c FROM Accts a LEFT JOIN Calls c ON c.k = a.k WHERE a.tier > 1 AND c.c IS NULL
rows 2
\N,\N
0,\N

SELECT a.k, c.c FROM Accts a LEFT JOIN Calls c ON c.k = a.k WHERE c.c IS NULL AND a.k IS NULL AND c.cents IS NULL
rows 1
\N,\N

SELECT a.k, c.c FROM Accts a LEFT JOIN Calls c ON c.k = a.k WHERE c.n = 5 AND c.kind IS NULL
rows 0

SELECT a.k, c.c FROM Accts a LEFT JOIN Calls c ON c.k = a.k WHERE c.kind IS NULL AND NOT c.n = 5
rows 1
256,1

SELECT a.k, c.c FROM Accts a LEFT JOIN Calls c ON c.k = a.k WHERE c.c IS NULL OR c.cents > 5
rows 7
\N,\N
0,0
0,\N
1,3
3,\N
5,2
8,\N

SELECT a.k, c.c FROM Accts a LEFT JOIN Calls c ON c.k = a.k WHERE c.cents > 5 OR c.c IS NULL
rows 7
\N,\N
0,0
0,\N
1,3
3,\N
5,2
8,\N

SELECT a.k, c.c FROM Accts a LEFT JOIN Calls c ON c.k = a.k WHERE c.kind IS NULL OR a.region IS NULL
rows 7
\N,\N
0,514
0,0
0,\N
3,\N
8,\N
256,1

SELECT a.k, c.c FROM Accts a LEFT JOIN Calls c ON c.k = a.k WHERE a.tier IS NULL OR NOT c.n = 5
rows 9
-3,1
1,3
1,2
2,1
5,4
5,2
8,\N
256,1
9223372036854775807,-1

SELECT a.k, c.c FROM Accts a LEFT JOIN Calls c ON c.k = a.k WHERE NOT a.tier > 1
rows 5
1,3
1,2
1,1
3,\N
9223372036854775807,-1

SELECT a.k, c.c FROM Accts a LEFT JOIN Calls c ON c.k = a.k WHERE NOT a.tier = 1 AND c.c IS NULL
rows 2
\N,\N
0,\N

SELECT a.k, c.c FROM Accts a LEFT JOIN Calls c ON c.k = a.k WHERE NOT (c.c IS NULL OR a.tier = 2)
rows 5
1,3
1,2
1,1
256,1
9223372036854775807,-1

SELECT a.k, c.c FROM Accts a LEFT JOIN Calls c ON c.k = a.k WHERE NOT NOT c.c IS NULL
rows 4
\N,\N
0,\N
3,\N
8,\N

SELECT a.k, c.c FROM Accts a LEFT JOIN Calls c ON c.k = a.k WHERE NOT (a.tier = 2 AND c.c IS NULL)
rows 12
-3,1
0,514
0,0
1,3
1,2
1,1
2,1
3,\N
5,4
5,2
256,1
9223372036854775807,-1

SELECT a.k, c.c FROM Accts a LEFT JOIN Calls c ON c.k = a.k WHERE c.kind = a.region OR c.kind IS NULL
rows 4
\N,\N
3,\N
8,\N
256,1

SELECT a.k, c.c FROM Accts a LEFT JOIN Calls c ON c.k = a.k WHERE NOT c.kind = 'talk' AND NOT a.region = 'south'
rows 3
1,3
1,2
2,1

SELECT a.k, c.c FROM Accts a LEFT JOIN Calls c ON c.k = a.k WHERE NULL IS NULL AND c.c IS NULL
rows 4
\N,\N
0,\N
3,\N
8,\N

SELECT a.k, c.c FROM Accts a LEFT JOIN Calls c ON c.k = a.k WHERE 5 IS NULL OR c.c IS NULL
rows 4
\N,\N
0,\N
3,\N
8,\N

SELECT a.k, c.c FROM Accts a LEFT JOIN Calls c ON c.k = a.k AND c.kind IS NULL
rows 10
\N,\N
-3,\N
0,\N
1,\N
2,\N
3,\N
5,\N
8,\N
256,1
9223372036854775807,\N

SELECT a.k, c.c FROM Accts a LEFT JOIN Calls c ON c.k = a.k AND NOT c.kind = 'talk'
rows 13
\N,\N
-3,\N
0,514
0,0
0,\N
1,3
1,2
2,1
3,\N
5,2
8,\N
256,\N
9223372036854775807,-1

SELECT a.k, c.c FROM Accts a LEFT JOIN Calls c ON c.k = a.k AND a.region IS NOT NULL
rows 13
\N,\N
-3,1
0,\N
1,3
1,2
1,1
2,1
3,\N
5,4
5,2
8,\N
256,1
9223372036854775807,-1

SELECT a.k, c.c FROM Accts a LEFT JOIN Calls c ON c.k = a.k OR c.k IS NULL
rows 32
\N,2
\N,\N
-3,2
-3,\N
-3,1
0,2
0,\N
0,514
0,0
0,\N
1,2
1,\N
1,3
1,2
1,1
2,2
2,\N
2,1
3,2
3,\N
5,2
5,\N
5,4
5,2
8,2
8,\N
256,2
256,\N
256,1
9223372036854775807,2
9223372036854775807,\N
9223372036854775807,-1

SELECT a.k, c.c FROM Accts a LEFT JOIN Calls c ON c.k IS NULL
rows 20
\N,2
\N,\N
-3,2
-3,\N
0,2
0,\N
1,2
1,\N
2,2
2,\N
3,2
3,\N
5,2
5,\N
8,2
8,\N
256,2
256,\N
9223372036854775807,2
9223372036854775807,\N

SELECT a.k, c.c FROM Accts a LEFT JOIN Calls c ON c.k = a.k AND (c.n IS NULL OR a.tier IS NULL)
rows 11
\N,\N
-3,1
0,\N
1,\N
2,\N
3,\N
5,4
5,2
8,\N
256,\N
9223372036854775807,\N

SELECT a.k, c.c FROM Accts a LEFT JOIN Calls c ON c.k = a.k AND c.c IS NULL WHERE c.k IS NULL AND a.tier = 2
rows 2
\N,\N
2,\N

SELECT a.k, b.k FROM Accts a LEFT JOIN Accts b ON b.k = a.k AND b.tier > 1 WHERE b.k IS NULL
rows 7
\N,\N
-3,\N
1,\N
3,\N
5,\N
8,\N
9223372036854775807,\N

SELECT a.k, c.c, i.i FROM Accts a LEFT JOIN Calls c ON c.k = a.k LEFT JOIN Items i ON i.k = a.k AND i.c = c.c WHERE i.i IS NULL AND c.c IS NOT NULL
rows 6
0,514,\N
0,0,\N
1,2,\N
2,1,\N
256,1,\N
9223372036854775807,-1,\N

SELECT a.k, c.c, i.i FROM Accts a LEFT JOIN Calls c ON c.k = a.k LEFT JOIN Items i ON i.k = a.k AND i.c = c.c WHERE c.c IS NULL
rows 4
\N,\N,\N
0,\N,\N
3,\N,\N
8,\N,\N

SELECT a.k, c.c, i.i FROM Accts a LEFT JOIN Calls c ON c.k = a.k LEFT JOIN Items i ON i.k = a.k AND i.c = c.c WHERE i.m IS NULL OR c.kind IS NULL
rows 10
\N,\N,\N
0,0,\N
0,\N,\N
1,3,1
1,2,\N
2,1,\N
3,\N,\N
8,\N,\N
256,1,\N
9223372036854775807,-1,\N

SELECT a.k, c.c FROM Accts a LEFT JOIN Calls c ON c.k = a.k WHERE a.tier = 3 AND DIV(10, c.n) > 0
rows 1
256,1

SELECT a.k, c.c FROM Accts a LEFT JOIN Calls c ON c.k = a.k WHERE a.tier = 99 AND DIV(1, 0) = 1
rows 0

SELECT a.k, c.c FROM Accts a LEFT JOIN Calls c ON c.k = a.k WHERE a.tier IS NOT NULL AND DIV(1, a.tier - 2) = 1
refused 62

SELECT a.k, c.c FROM Accts a LEFT JOIN Calls c ON c.k = a.k WHERE a.k IS NULL OR DIV(6, a.k) > 0
refused 62

SELECT a.k, c.c FROM Accts a LEFT JOIN Calls c ON c.k = a.k WHERE a.k = 0 OR DIV(6, a.k) > 0
rows 10
0,514
0,0
0,\N
1,3
1,2
1,1
2,1
3,\N
5,4
5,2

SELECT a.k, c.c FROM Accts a LEFT JOIN Calls c ON c.k = a.k WHERE c.c IS NOT NULL AND c.n IS NOT NULL AND DIV(6, c.n) = 1
rows 6
0,514
0,0
1,2
1,1
256,1
9223372036854775807,-1

SELECT a.k, c.c FROM Accts a LEFT JOIN Calls c ON c.k = a.k WHERE c.c IS NULL OR c.n IS NULL OR DIV(6, c.n) = 1
rows 11
\N,\N
0,514
0,0
0,\N
1,2
1,1
3,\N
5,2
8,\N
256,1
9223372036854775807,-1

SELECT kind, COUNT(*) FROM Calls GROUP BY kind HAVING kind IS NULL OR COUNT(*) > 3
rows 2
\N,2
talk,4

SELECT kind, MIN(n) FROM Calls GROUP BY kind HAVING NOT kind IS NULL AND MIN(n) > 1
rows 3
abcdefgh2,5
abcdefgh,5
text,4

# The least, the greatest and the sum of numbers at the ends of INT64, of others and of none.

SELECT MIN(cents), MAX(cents), SUM(n), COUNT(kind), COUNT(*) FROM Calls
rows 1
-9223372036854775808,9223372036854775807,44,12,14

SELECT k, MIN(cents), MAX(cents), MIN(kind), MAX(kind), COUNT(n) FROM Calls GROUP BY k
rows 8
\N,7,7,talk,talk,2
-3,5,5,talk,talk,1
0,4,6,abcdefgh,abcdefgh2,2
1,5,9223372036854775807,talk,text,3
2,-9223372036854775808,-9223372036854775808,,,1
5,5,6,abcdefgh10,talk,1
256,0,0,\N,\N,1
9223372036854775807,-5,-5,text,text,1

SELECT MIN(cents), MAX(cents), SUM(cents), COUNT(cents) FROM Calls WHERE cents IS NULL
rows 1
\N,\N,\N,0

SELECT a.tier, MIN(c.cents), MAX(c.n), SUM(c.n) FROM Accts a LEFT JOIN Calls c ON c.k = a.k GROUP BY a.tier
rows 5
2,-9223372036854775808,5,11
\N,5,3,4
1,5,7,18
3,0,4,4
-1,-5,4,4

SELECT SUM(cents), MIN(cents), MAX(cents) FROM Calls
rows 1
37,-9223372036854775808,9223372036854775807

SELECT MIN(open), MAX(open), MIN(seal), MAX(seal), MIN(region), MAX(region) FROM Accts
rows 1
false,true,\x,\xff,,south

SELECT MIN(n + m), MAX(n - m), SUM(n), MIN(m), MAX(n) FROM Items
rows 1
0,1,44,1,6

# Joins of two tables of one family, whose rows are in one leaf: rows without a match, conditions beside the keys, a table twice, a child first.

SELECT s.k, s.city, x.s, x.n FROM Shops s JOIN Sales x ON x.k = s.k
rows 6
1,\N,,3
1,\N,a,\N
1,\N,ab,3
3,bern,\N,3
3,bern,abcdefgh,4
5,rome,a,5

SELECT s.k, x.s, x.n FROM Shops s LEFT JOIN Sales x ON x.k = s.k
rows 9
\N,\N,\N
1,,3
1,a,\N
1,ab,3
2,\N,\N
3,\N,3
3,abcdefgh,4
5,a,5
8,\N,\N

SELECT s.k, x.s, x.n FROM Shops s LEFT JOIN Sales x ON x.k = s.k AND x.n > s.n
rows 8
\N,\N,\N
1,,3
1,ab,3
2,\N,\N
3,\N,3
3,abcdefgh,4
5,\N,\N
8,\N,\N

SELECT a.k, c.c FROM Accts a LEFT JOIN Calls c ON c.k = a.k AND c.n > 5
rows 11
\N,\N
-3,\N
0,\N
1,3
1,2
2,\N
3,\N
5,\N
8,\N
256,\N
9223372036854775807,\N

SELECT a.k, n.c, n.body FROM Accts a LEFT JOIN Notes n ON n.k = a.k AND n.body <> 'z'
rows 11
\N,\N,\N
-3,\N,x
0,0,y
0,514,y
1,\N,\N
2,\N,\N
3,\N,\N
5,\N,\N
8,1,x
256,1,x
9223372036854775807,\N,\N

SELECT s.k, x.n FROM Shops s JOIN Sales x ON x.k = s.k AND DIV(6, x.n - 3) > 0
refused 62

SELECT s.k, x.n FROM Shops s JOIN Sales x ON x.k = s.k AND x.n <> 3 AND DIV(6, x.n - 3) > 0
rows 2
3,4
5,5

SELECT s.k, x.n FROM Shops s JOIN Sales x ON DIV(6, x.n - 1) > 0 AND x.k = s.k
rows 5
1,3
1,3
3,3
3,4
5,5

SELECT s.k, x.s FROM Shops s LEFT JOIN Sales x ON x.k = s.k WHERE s.n = 2
rows 6
1,
1,a
1,ab
3,\N
3,abcdefgh
8,\N

SELECT s.k, x.s FROM Shops s LEFT JOIN Sales x ON x.k = s.k WHERE x.n > s.n OR x.k IS NULL
rows 7
\N,\N
1,
1,ab
2,\N
3,\N
3,abcdefgh
8,\N

# The filter is an error at a row without a match, and then at none.

SELECT s.k, x.s FROM Shops s LEFT JOIN Sales x ON x.k = s.k WHERE x.k IS NOT NULL OR DIV(1, s.n - 2) = 0
refused 62

SELECT s.k, x.s FROM Shops s LEFT JOIN Sales x ON x.k = s.k WHERE x.k IS NOT NULL OR DIV(6, s.n - 7) = -1
rows 8
\N,\N
1,
1,a
1,ab
3,\N
3,abcdefgh
5,a
8,\N

SELECT a.k, a.n, b.k, b.n FROM Roots a JOIN Roots b ON b.k = a.k AND b.n > 2
rows 3
1,3,1,3
2,3,2,3
4,5,4,5

SELECT a.k, a.c, b.c FROM Calls a LEFT JOIN Calls b ON b.k = a.k AND b.c < a.c
rows 15
\N,2,\N
\N,\N,\N
-3,1,\N
0,514,0
0,0,\N
0,\N,\N
1,3,2
1,3,1
1,2,1
1,1,\N
2,1,\N
5,4,2
5,2,\N
256,1,\N
9223372036854775807,-1,\N

SELECT x.k, x.s, s.city FROM Sales x JOIN Shops s ON s.k = x.k AND s.n < x.n
rows 4
1,,\N
1,ab,\N
3,\N,bern
3,abcdefgh,bern

# Joins of three tables of one family, each below the one before: keys in order, texts and NULL in them, keys that fall.

SELECT s.k, x.s, l.l, l.n FROM Shops s JOIN Sales x ON x.k = s.k JOIN Lines l ON l.k = x.k AND l.s = x.s
rows 5
1,,2,\N
1,,1,5
1,ab,\N,6
3,abcdefgh,8,7
5,a,5,5

SELECT r.n, t.a, t.b, f.c, f.n FROM Roots r JOIN Twos t ON t.k = r.k JOIN Fours f ON f.k = r.k AND f.a = t.a AND f.b = t.b
rows 3
2,0,0,0,6
2,0,13,11,5
3,11,13,11,4

SELECT r.k, o.a, t.b, t.c FROM Roots r JOIN Ones o ON o.k = r.k JOIN Threes t ON t.k = o.k AND t.a = o.a
rows 4
0,0,\N,13
0,0,0,0
1,3337,3341,3341
4,1,1,1

SELECT a.region, c.c, i.i, i.m FROM Accts a JOIN Calls c ON c.k = a.k JOIN Items i ON i.k = c.k AND i.c = c.c
rows 9
south,1,1,4
\N,514,\N,5
\N,514,2,6
north,3,1,\N
north,3,2,6
north,1,1,4
south,4,4,5
south,2,0,5
north,1,\N,7

SELECT COUNT(*) FROM Shops s JOIN Sales x ON x.k = s.k JOIN Lines l ON l.k = x.k AND l.s = x.s
rows 1
5

SELECT x.s, SUM(l.n) FROM Shops s JOIN Sales x ON x.k = s.k JOIN Lines l ON l.k = s.k AND l.s = x.s GROUP BY x.s
rows 4
,5
ab,6
abcdefgh,7
a,5

SELECT s.k AS shop, l.l, l.n AS m FROM Shops s JOIN Sales x ON x.k = s.k JOIN Lines l ON l.k = x.k AND l.s = x.s ORDER BY m DESC, shop LIMIT 4
rows 4
3,8,7
1,\N,6
1,1,5
5,5,5

# The last condition equates too few columns: rows of the third table match rows of the second that they are not below.

SELECT r.k, t.b, f.b, f.c FROM Roots r JOIN Twos t ON t.k = r.k JOIN Fours f ON f.k = t.k
rows 6
0,0,0,0
0,0,13,11
0,13,0,0
0,13,13,11
1,13,13,11
2,11,11,\N

SELECT r.k, t.b, f.b, f.c FROM Roots r JOIN Twos t ON t.k = r.k JOIN Fours f ON f.k = t.k AND f.a = t.a
rows 5
0,0,0,0
0,0,13,11
0,13,0,0
0,13,13,11
1,13,13,11

SELECT s.k, x.s, l.s, l.l FROM Shops s JOIN Sales x ON x.k = s.k JOIN Lines l ON l.k = s.k
rows 12
1,,,2
1,,,1
1,,ab,\N
1,a,,2
1,a,,1
1,a,ab,\N
1,ab,,2
1,ab,,1
1,ab,ab,\N
3,\N,abcdefgh,8
3,abcdefgh,abcdefgh,8
5,a,a,5

SELECT s.k, x.s, l.s, l.n FROM Shops s JOIN Sales x ON x.k = s.k JOIN Lines l ON l.k = s.k AND l.n = x.n + 3
rows 3
1,,ab,6
1,ab,ab,6
3,abcdefgh,abcdefgh,7

SELECT r.k, o.a, t.b, t.n FROM Roots r JOIN Ones o ON o.k = r.k JOIN Threes t ON t.k = o.k AND t.n = o.n
rows 2
0,0,\N,5
4,1,1,5

# Rows of the third table are beside those of the second, before them or after them.

SELECT s.k, v.v, x.s FROM Shops s JOIN Visits v ON v.k = s.k JOIN Sales x ON x.k = s.k
rows 3
1,1,
1,1,a
1,1,ab

SELECT s.k, x.s, v.v FROM Shops s JOIN Sales x ON x.k = s.k JOIN Visits v ON v.k = s.k
rows 3
1,,1
1,a,1
1,ab,1

SELECT r.k, o.a, f.b, f.c FROM Roots r JOIN Ones o ON o.k = r.k JOIN Fours f ON f.k = o.k AND f.a = o.a
rows 2
0,0,0,0
0,0,13,11

SELECT r.k, f.b, f.c, o.n FROM Roots r JOIN Fours f ON f.k = r.k JOIN Ones o ON o.k = f.k AND o.a = f.a
rows 2
0,0,0,5
0,13,11,5

SELECT a.k, c.c, n.body FROM Accts a JOIN Calls c ON c.k = a.k JOIN Notes n ON n.k = c.k AND n.c = c.c
rows 6
0,514,y
0,0,y
1,3,z
1,2,z
5,4,\N
256,1,x

# A table twice among three.

SELECT s.k, x.s, t.n FROM Shops s JOIN Sales x ON x.k = s.k JOIN Shops t ON t.k = s.k AND t.n < x.n
rows 4
1,,2
1,ab,2
3,\N,2
3,abcdefgh,2

SELECT s.k, x.s, y.s FROM Shops s JOIN Sales x ON x.k = s.k JOIN Sales y ON y.k = s.k AND y.n = x.n
rows 7
1,,
1,,ab
1,ab,
1,ab,ab
3,\N,\N
3,abcdefgh,abcdefgh
5,a,a

SELECT s.city, t.city, x.s FROM Shops s JOIN Shops t ON t.k = s.k JOIN Sales x ON x.k = t.k
rows 6
\N,\N,
\N,\N,a
\N,\N,ab
bern,bern,\N
bern,bern,abcdefgh
rome,rome,a

# Further conditions of three tables: one is an error at a pair that is reached, one at a pair of a row that the first ON leaves out.

SELECT s.k, x.s, l.l FROM Shops s JOIN Sales x ON x.k = s.k JOIN Lines l ON l.k = x.k AND l.s = x.s AND l.n > x.n + s.n
rows 2
1,ab,\N
3,abcdefgh,8

SELECT s.k, x.s, l.l FROM Shops s JOIN Sales x ON x.k = s.k AND x.n >= 3 JOIN Lines l ON l.k = x.k AND l.s = x.s AND DIV(10, l.n - 6) > 0
refused 62

SELECT s.k, x.s, l.l FROM Shops s JOIN Sales x ON x.k = s.k AND x.n > 3 JOIN Lines l ON l.k = x.k AND l.s = x.s AND DIV(10, l.n - 6) > 0
rows 1
3,abcdefgh,8

SELECT s.k, x.s, l.l FROM Shops s JOIN Sales x ON x.k = s.k AND x.n > 3 JOIN Lines l ON DIV(10, l.n - 6) > 0 AND l.k = x.k AND l.s = x.s
rows 1
3,abcdefgh,8

SELECT s.k, x.s, l.l FROM Shops s JOIN Sales x ON x.k = s.k AND DIV(10, x.n - 4) > 0 JOIN Lines l ON l.k = x.k AND l.s = x.s
refused 62

SELECT s.k, x.s, l.l FROM Shops s JOIN Sales x ON x.k = s.k JOIN Lines l ON l.k = x.k AND l.s = x.s WHERE DIV(10, l.n - 7) > 0
refused 62

SELECT s.k, x.s, l.l FROM Shops s JOIN Sales x ON x.k = s.k JOIN Lines l ON l.k = x.k AND l.s = x.s WHERE s.n = 5 AND DIV(10, l.n - 7) < 0
rows 1
5,a,5

# WHERE of each of three tables.

SELECT s.k, x.s, l.l FROM Shops s JOIN Sales x ON x.k = s.k JOIN Lines l ON l.k = x.k AND l.s = x.s WHERE s.n >= 2 AND s.city IS NOT NULL
rows 2
3,abcdefgh,8
5,a,5

SELECT s.k, x.s, l.l FROM Shops s JOIN Sales x ON x.k = s.k JOIN Lines l ON l.k = x.k AND l.s = x.s WHERE x.s > '' AND x.n <> 5
rows 2
1,ab,\N
3,abcdefgh,8

SELECT s.k, x.s, l.l FROM Shops s JOIN Sales x ON x.k = s.k JOIN Lines l ON l.k = x.k AND l.s = x.s WHERE l.n = 5 OR l.l IS NULL
rows 3
1,,1
1,ab,\N
5,a,5

SELECT s.k, x.s, l.l FROM Shops s JOIN Sales x ON x.k = s.k JOIN Lines l ON l.k = x.k AND l.s = x.s WHERE s.city = 'bern' AND x.n > 3 AND l.n > 5
rows 1
3,abcdefgh,8

# LEFT JOIN in the middle of three tables, at the end, and at both.

SELECT s.k, x.s, l.l FROM Shops s LEFT JOIN Sales x ON x.k = s.k JOIN Lines l ON l.k = s.k AND l.s = x.s
rows 5
1,,2
1,,1
1,ab,\N
3,abcdefgh,8
5,a,5

SELECT s.k, x.s, l.l FROM Shops s JOIN Sales x ON x.k = s.k LEFT JOIN Lines l ON l.k = s.k AND l.s = x.s
rows 7
1,,2
1,,1
1,a,\N
1,ab,\N
3,\N,\N
3,abcdefgh,8
5,a,5

SELECT s.k, x.s, l.l FROM Shops s LEFT JOIN Sales x ON x.k = s.k LEFT JOIN Lines l ON l.k = s.k AND l.s = x.s
rows 10
\N,\N,\N
1,,2
1,,1
1,a,\N
1,ab,\N
2,\N,\N
3,\N,\N
3,abcdefgh,8
5,a,5
8,\N,\N

SELECT s.k, x.s FROM Shops s LEFT JOIN Sales x ON x.k = s.k LEFT JOIN Lines l ON l.k = s.k AND l.s = x.s WHERE l.k IS NULL AND s.n = 2
rows 3
1,a
3,\N
8,\N

# The last condition equates columns alone, one twice, or says more: columns of one side, an OR, columns outside the keys.

SELECT s.k, x.s, l.l FROM Shops s JOIN Sales x ON x.k = s.k JOIN Lines l ON l.k = x.k AND l.k = s.k AND l.s = x.s
rows 5
1,,2
1,,1
1,ab,\N
3,abcdefgh,8
5,a,5

SELECT s.k, x.s, l.l FROM Shops s JOIN Sales x ON x.k = s.k JOIN Lines l ON l.k = s.k AND l.s = x.s AND x.n = s.n
rows 1
5,a,5

SELECT s.k, x.s, l.l FROM Shops s JOIN Sales x ON x.k = s.k JOIN Lines l ON l.k = s.k AND l.s = x.s AND l.n = l.l
rows 1
5,a,5

SELECT s.k, x.s, l.l FROM Shops s JOIN Sales x ON x.k = s.k JOIN Lines l ON l.k = s.k AND (l.s = x.s OR l.n = x.n + 2)
rows 6
1,,2
1,,1
1,ab,1
1,ab,\N
3,abcdefgh,8
5,a,5

SELECT s.k, x.s, l.l FROM Shops s JOIN Sales x ON x.k = s.k AND s.n > 2 JOIN Lines l ON l.k = s.k AND l.s = x.s AND l.n = x.n
rows 1
5,a,5

SELECT r.k, t.a, t.n, f.c FROM Roots r JOIN Twos t ON t.k = r.k AND t.n = 4 JOIN Fours f ON f.k = r.k AND f.b = t.b
rows 1
2,\N,4,\N

SELECT s.k, x.s FROM Shops s LEFT JOIN Sales x ON x.k = s.k AND x.n = s.n
rows 6
\N,\N
1,\N
2,\N
3,\N
5,a
8,\N

SELECT s.k, x.s FROM Shops s LEFT JOIN Sales x ON x.k = s.k AND s.n = 2 AND s.k = x.k
rows 9
\N,\N
1,
1,a
1,ab
2,\N
3,\N
3,abcdefgh
5,\N
8,\N
