# One group of all rows.
SELECT COUNT(*) FROM Sales
rows 1
27

SELECT COUNT(*), COUNT(g), COUNT(name), COUNT(tag), COUNT(ok), COUNT(n), COUNT(m) FROM Sales
rows 1
27,23,24,23,21,23,25

SELECT MIN(k), MAX(k), MIN(g), MAX(g), MIN(name), MAX(name), MIN(tag), MAX(tag), MIN(ok), MAX(ok) FROM Sales
rows 1
-9223372036854775808,9223372036854775807,-9223372036854775808,9223372036854775807,,é,\x,\xffff,false,true

SELECT SUM(g) FROM Sales WHERE k < 65537
rows 1
-9223372036854775752

SELECT SUM(n) FROM Sales
rows 1
64

SELECT SUM(m), MIN(m), MAX(m) FROM Sales
rows 1
17,-9223372036854775808,9223372036854775807

SELECT MAX(name), SUM(n), COUNT(*), MIN(tag) FROM Sales WHERE ok
rows 1
only one,-9223372036854775784,12,\x

SELECT COUNT(*), SUM(m) FROM Sales WHERE k > 255 AND m < 0
refused 62

SELECT COUNT(*), COUNT(n), SUM(n), MIN(name), MAX(ok) FROM Sales WHERE k = 6
rows 1
1,0,\N,\N,\N

SELECT COUNT(*), SUM(n), MIN(tag) FROM Sales WHERE k > 11 AND k < 200
rows 1
0,\N,\N

SELECT COUNT(*), SUM(n), MIN(tag) FROM Sales WHERE k > 200 AND k < 11
rows 1
0,\N,\N

SELECT COUNT(*), COUNT(s), SUM(g), MIN(s), MAX(k) FROM Nobody
rows 1
0,0,\N,\N,\N

SELECT COUNT(*), SUM(g) FROM Below
rows 1
0,\N

SELECT COUNT(*) FROM Lines WHERE word = 'red'
rows 1
7

SELECT COUNT(t), MIN(t), MAX(t), SUM(n) FROM Notes
rows 1
14,,é,42

SELECT 'one' FROM Sales HAVING COUNT(*) > 1
rows 1
one

SELECT COUNT(*) FROM Sales HAVING COUNT(*) > 100
rows 0

SELECT 7 FROM Nobody HAVING TRUE
rows 1
7

SELECT COUNT(*) + SUM(n), -COUNT(word) FROM Lines WHERE k < 300 AND n < 10
rows 1
55,-14

# Groups by one column of each type, in the order of their first rows.
SELECT g, COUNT(*) FROM Sales GROUP BY g
rows 11
3,5
1,5
2,4
\N,4
5,2
4,2
6,1
-9223372036854775808,1
7,1
9223372036854775807,1
0,1

SELECT g, COUNT(*), COUNT(n), SUM(n), MIN(n), MAX(n) FROM Sales WHERE k < 65537 GROUP BY g
rows 9
1,5,4,6,-9,5
2,4,3,14,0,7
\N,4,3,4,-1,6
5,2,2,1,0,1
3,4,4,12,2,4
4,2,2,6,3,3
6,1,0,\N,\N,\N
-9223372036854775808,1,1,8,8,8
7,1,1,10,10,10

SELECT name, COUNT(*), MIN(k), MAX(k), SUM(g) FROM Sales WHERE k < 65537 GROUP BY name
rows 12
ab,4,-9223372036854775808,200,6
\N,3,-300,11,10
,3,-2,255,4
a text that is longer than sixteen bytez,2,0,256,4
b,2,1,9,10
a text that is longer than sixteen bytes,2,2,7,3
a text that is longer,2,4,4096,1
é,2,5,65536,7
abc,1,10,10,\N
z,1,257,257,-9223372036854775808
a,1,300,300,4
only one,1,5000,5000,7

SELECT tag, COUNT(*), MAX(name), MIN(name) FROM Sales GROUP BY tag
rows 12
\x00,4,é,a text that is longer than sixteen bytes
\N,4,ab,
\x,3,a text that is longer than sixteen bytes,
\xff,4,a text that is longer than sixteen bytes,
\x61,3,é,a text that is longer than sixteen bytez
\x0001,2,b,b
\x6162,2,ab,a text that is longer
\xff00,1,abc,abc
\x7a,1,z,z
\x6f6e6c79,1,only one,only one
\xfe,1,last but one,last but one
\xffff,1,last,last

SELECT ok, COUNT(*), MIN(name), MAX(tag), MAX(m) FROM Sales GROUP BY ok
rows 3
true,12,,\xffff,9223372036854775807
false,9,,\xff,9223372036854775807
\N,6,a text that is longer than sixteen bytes,\xff,9223372036854775807

SELECT k, COUNT(*), SUM(m) FROM Sales GROUP BY k
rows 27
\N,1,1
-9223372036854775808,1,9223372036854775807
-300,1,9223372036854775807
-2,1,-9223372036854775808
-1,1,2
0,1,-3
1,1,9223372036854775807
2,1,-5
3,1,\N
4,1,-7
5,1,0
6,1,\N
7,1,8
8,1,-1
9,1,3
10,1,9
11,1,-9223372036854775808
200,1,1
255,1,-9223372036854775808
256,1,-9223372036854775808
257,1,4
300,1,-4
4096,1,9223372036854775807
5000,1,6
65536,1,2
9223372036854775806,1,0
9223372036854775807,1,5

SELECT g FROM Sales GROUP BY g
rows 11
3
1
2
\N
5
4
6
-9223372036854775808
7
9223372036854775807
0

SELECT name FROM Sales GROUP BY name
rows 14
a text that is longer than sixteen bytes
ab
\N
""
a text that is longer than sixteen bytez
b
a text that is longer
é
abc
z
a
only one
last but one
last

SELECT word, COUNT(*), MIN(l), MAX(l) FROM Lines GROUP BY word
rows 9
\N,4,1,9
red,7,1,9223372036854775807
a word of more than sixteen bytes,2,0,5
,2,1,5
blue,4,1,7
green,2,-4,1
yellow,2,1,2
é,1,1,1
last,1,1,1

SELECT l, COUNT(*), MIN(word) FROM Lines GROUP BY l
rows 12
3,2,blue
\N,2,red
9223372036854775807,1,red
0,1,a word of more than sixteen bytes
5,2,
2,4,blue
1,8,
9,1,\N
4,1,red
-4,1,green
7,1,blue
6,1,red

SELECT city, COUNT(*), SUM(n), MIN(g) FROM Towns GROUP BY city
rows 9
é,1,1,2
z,1,3,1
b,2,4,1
abcdefghi,1,5,\N
abcdefgh,1,2,3
ab,2,7,1
a,3,9,1
,1,9,4
\N,2,7,1

SELECT g, COUNT(*), MAX(city), MIN(city) FROM Towns GROUP BY g
rows 5
2,4,é,ab
1,5,z,a
\N,2,abcdefghi,a
3,2,abcdefgh,a
4,1,,

SELECT d, COUNT(city), SUM(n) FROM Towns GROUP BY d
rows 6
1,4,13
2,2,5
\N,2,13
7,2,7
256,1,0
0,1,9

SELECT g, COUNT(*), MIN(b), MAX(b), SUM(n) FROM Bags GROUP BY g
rows 3
true,5,\x,\xff00,15
false,3,\x61,\xff,10
\N,2,\x00,\xff,4

SELECT b, MAX(g), MIN(g), COUNT(c) FROM Bags GROUP BY b
rows 7
\xff00,true,true,1
\xff,false,false,1
\x6162,true,true,1
\x61,true,false,2
\x00,\N,\N,1
\x,true,true,1
\N,true,false,1

SELECT g, COUNT(*) FROM Nobody GROUP BY g
rows 0

# By several columns, by one that is not selected, in another order, one twice.
SELECT g, ok, COUNT(*), SUM(n) FROM Sales WHERE k < 65537 GROUP BY g, ok
rows 18
1,false,3,10
2,\N,2,7
\N,true,2,5
1,true,2,-4
2,false,1,7
5,true,1,0
\N,\N,1,\N
3,false,1,2
4,false,1,3
3,true,2,6
5,\N,1,1
6,false,1,\N
2,true,1,0
-9223372036854775808,\N,1,8
4,true,1,3
\N,false,1,-1
7,true,1,10
3,\N,1,4

SELECT ok, g, COUNT(*), MAX(name) FROM Sales GROUP BY g, ok
rows 20
true,3,3,ab
false,1,3,ab
\N,2,2,\N
true,\N,2,abc
true,1,2,ab
false,2,1,a text that is longer than sixteen bytez
true,5,1,b
\N,\N,1,a text that is longer than sixteen bytes
false,3,1,
false,4,1,é
\N,5,1,b
false,6,1,\N
true,2,1,a text that is longer than sixteen bytez
\N,-9223372036854775808,1,z
true,4,1,a
false,\N,1,a text that is longer
true,7,1,only one
\N,3,1,é
false,9223372036854775807,1,last but one
true,0,1,last

SELECT COUNT(*), g FROM Sales GROUP BY ok, g
rows 20
3,3
3,1
2,2
2,\N
2,1
1,2
1,5
1,\N
1,3
1,4
1,5
1,6
1,2
1,-9223372036854775808
1,4
1,\N
1,7
1,3
1,9223372036854775807
1,0

SELECT SUM(n), COUNT(*) FROM Lines WHERE k BETWEEN -300 AND 300 GROUP BY word
refused 62

SELECT name, tag, COUNT(*) FROM Sales GROUP BY name, tag
rows 26
a text that is longer than sixteen bytes,\x00,1
ab,\N,1
\N,\x,1
,\xff,1
ab,\x00,1
a text that is longer than sixteen bytez,\x61,1
b,\x0001,2
a text that is longer than sixteen bytes,\xff,1
,\N,1
a text that is longer,\x6162,1
é,\x00,1
\N,\N,1
a text that is longer than sixteen bytes,\x,1
ab,\x61,1
abc,\xff00,1
\N,\xff,1
ab,\x6162,1
,\x,1
a text that is longer than sixteen bytez,\x00,1
z,\x7a,1
a,\xff,1
a text that is longer,\N,1
only one,\x6f6e6c79,1
é,\x61,1
last but one,\xfe,1
last,\xffff,1

SELECT g, g, COUNT(g) FROM Lines GROUP BY g
rows 8
2,2,5
1,1,8
3,3,3
\N,\N,0
4,4,3
5,5,1
6,6,1
7,7,1

SELECT g, COUNT(*) FROM Lines GROUP BY g, g
rows 8
2,5
1,8
3,3
\N,3
4,3
5,1
6,1
7,1

SELECT word, g, n, COUNT(*) FROM Lines GROUP BY n, word, g
rows 24
\N,2,2,1
red,1,1,1
red,1,\N,1
a word of more than sixteen bytes,3,4,1
,\N,5,1
blue,2,3,2
red,1,0,1
\N,4,-1,1
red,1,6,1
green,4,2,1
blue,2,9223372036854775807,1
green,3,7,1
\N,\N,\N,1
yellow,5,1,1
,1,1,1
red,2,3,1
a word of more than sixteen bytes,1,4,1
é,1,2,1
blue,6,0,1
red,\N,8,1
\N,4,9,1
yellow,1,-9223372036854775808,1
red,3,2,1
last,7,1,1

SELECT city, d, COUNT(*), MAX(r) FROM Roads GROUP BY city, d
rows 9
z,2,2,4
b,\N,1,1
b,1,2,5
abcdefgh,7,1,1
ab,1,1,3
a,1,2,2
a,2,1,9
,0,1,1
\N,1,2,1

SELECT d, city, COUNT(*), MAX(g) FROM Roads GROUP BY d, city
rows 9
2,z,2,s
\N,b,1,\N
1,b,2,n
7,abcdefgh,1,s
1,ab,1,n
1,a,2,s
2,a,1,n
0,,1,w
1,\N,2,s

SELECT g, COUNT(*), COUNT(*), MIN(word), MIN(word) FROM Lines GROUP BY g
rows 8
2,5,5,blue,blue
1,8,8,,
3,3,3,a word of more than sixteen bytes,a word of more than sixteen bytes
\N,3,3,,
4,3,3,green,green
5,1,1,yellow,yellow
6,1,1,blue,blue
7,1,1,last,last

SELECT g, SUM(g), MIN(g), MAX(g), COUNT(g) FROM Sales GROUP BY g
rows 11
3,15,3,3,5
1,5,1,1,5
2,8,2,2,4
\N,\N,\N,\N,0
5,10,5,5,2
4,8,4,4,2
6,6,6,6,1
-9223372036854775808,-9223372036854775808,-9223372036854775808,-9223372036854775808,1
7,7,7,7,1
9223372036854775807,9223372036854775807,9223372036854775807,9223372036854775807,1
0,0,0,0,1

SELECT 'x', g, NULL, COUNT(*), COUNT(1), COUNT(NULL), SUM(2), MIN('m') FROM Lines GROUP BY g
rows 8
x,2,\N,5,5,0,10,m
x,1,\N,8,8,0,16,m
x,3,\N,3,3,0,6,m
x,\N,\N,3,3,0,6,m
x,4,\N,3,3,0,6,m
x,5,\N,1,1,0,2,m
x,6,\N,1,1,0,2,m
x,7,\N,1,1,0,2,m

# Conditions on columns that are read for them alone, and on those of the groups.
SELECT g, COUNT(*) FROM Sales WHERE n > 2 GROUP BY g
rows 8
3,3
2,2
1,3
4,2
\N,1
-9223372036854775808,1
7,1
9223372036854775807,1

SELECT g, COUNT(*), MIN(name) FROM Sales WHERE tag IS NOT NULL AND name <> 'ab' GROUP BY g
rows 10
3,3,a text that is longer than sixteen bytes
\N,3,
2,2,a text that is longer than sixteen bytez
5,2,b
1,2,
4,2,a
-9223372036854775808,1,z
7,1,only one
9223372036854775807,1,last but one
0,1,last

SELECT g, COUNT(*), SUM(n) FROM Sales WHERE g IS NULL OR g = 3 GROUP BY g
rows 2
3,5,16
\N,4,4

SELECT name, COUNT(*) FROM Sales WHERE name LIKE 'a%' GROUP BY name
rows 6
a text that is longer than sixteen bytes,3
ab,4
a text that is longer than sixteen bytez,2
a text that is longer,2
abc,1
a,1

SELECT ok, MAX(k) FROM Sales WHERE k <= 11 AND NOT ok GROUP BY ok
rows 1
false,11

SELECT g, COUNT(*), SUM(n) FROM Sales WHERE k BETWEEN -1 AND 8 GROUP BY g
rows 6
1,3,1
2,2,7
5,1,0
\N,1,\N
3,2,6
4,1,3

SELECT city, COUNT(*) FROM Towns WHERE city < 'b' GROUP BY city
rows 5
abcdefghi,1
abcdefgh,1
ab,2
a,3
,1

SELECT g, COUNT(*) FROM Towns WHERE city >= 'ab' AND n > 0 GROUP BY g
rows 4
2,3
1,1
\N,1
3,1

SELECT g, COUNT(*), MIN(b) FROM Bags WHERE b > b'' GROUP BY g
rows 3
true,3,\x61
false,2,\x61
\N,2,\x00

SELECT g, COUNT(*) FROM Sales WHERE k > 5 AND k < 5 GROUP BY g
rows 0

# Sums at the ends of INT64: those of parts leave it, and those of groups do not, but for one group.
SELECT g, SUM(m), COUNT(m) FROM Sales WHERE k <> 1 GROUP BY g
rows 11
1,-7,5
2,-4,3
\N,3,4
3,11,3
4,-4,2
5,3,1
6,-9223372036854775808,1
-9223372036854775808,4,1
7,6,1
9223372036854775807,0,1
0,5,1

SELECT g, SUM(m) FROM Sales GROUP BY g
refused 62

SELECT g, SUM(m) FROM Sales GROUP BY g HAVING g <> 5
refused 62

SELECT SUM(m) FROM Sales WHERE k < 2
refused 62

SELECT SUM(m) FROM Sales WHERE k < 256 AND g <> 5
rows 1
-2

SELECT ok, SUM(m) FROM Sales GROUP BY ok
refused 62

SELECT g, MIN(m), MAX(m), COUNT(m) FROM Sales GROUP BY g
rows 11
3,1,8,4
1,-9223372036854775808,9223372036854775807,5
2,-9223372036854775808,9223372036854775807,3
\N,-9223372036854775808,9223372036854775807,4
5,3,9223372036854775807,2
4,-4,0,2
6,-9223372036854775808,-9223372036854775808,1
-9223372036854775808,4,4,1
7,6,6,1
9223372036854775807,0,0,1
0,5,5,1

# HAVING, order and limit over groups, each row once.
SELECT g, COUNT(*) FROM Sales GROUP BY g HAVING COUNT(*) > 1
rows 6
3,5
1,5
2,4
\N,4
5,2
4,2

SELECT name FROM Sales GROUP BY name HAVING MIN(k) < 0 AND MAX(n) > 4
rows 3
ab
\N
""

SELECT g FROM Lines WHERE k BETWEEN -300 AND 300 AND n < 10 OR n IS NULL GROUP BY g HAVING SUM(n) IS NULL OR g = 2
rows 1
2

SELECT g, COUNT(*) FROM Sales GROUP BY g HAVING g
refused 13

SELECT word, COUNT(*) FROM Lines GROUP BY word HAVING word > 'b' OR word = ''
rows 7
red,7
,2
blue,4
green,2
yellow,2
é,1
last,1

SELECT g, COUNT(*) AS c FROM Sales GROUP BY g ORDER BY c DESC, g
rows 11
1,5
3,5
\N,4
2,4
4,2
5,2
-9223372036854775808,1
0,1
6,1
7,1
9223372036854775807,1

SELECT g, MAX(name) FROM Sales GROUP BY g ORDER BY 2, 1 DESC
rows 11
6,\N
2,a text that is longer than sixteen bytez
1,ab
\N,abc
5,b
0,last
9223372036854775807,last but one
7,only one
-9223372036854775808,z
4,é
3,é

SELECT name, COUNT(*) FROM Sales GROUP BY name ORDER BY 2 DESC, 1 LIMIT 3
rows 3
ab,4
\N,3
,3

SELECT word, n FROM Lines GROUP BY word, n ORDER BY word DESC, n LIMIT 4 OFFSET 2
rows 4
yellow,1
red,\N
red,0
red,1

SELECT k, COUNT(*), MAX(l) FROM Lines GROUP BY k LIMIT 4 OFFSET 2
rows 4
-300,1,5
-1,2,2
0,3,9
1,1,1

SELECT g, COUNT(*) FROM Sales GROUP BY g LIMIT 0
rows 0

SELECT DISTINCT COUNT(*) FROM Sales GROUP BY g
rows 4
5
4
2
1

SELECT DISTINCT g FROM Sales GROUP BY g, ok
rows 11
3
1
2
\N
5
4
6
-9223372036854775808
7
9223372036854775807
0

SELECT DISTINCT ok, COUNT(*) FROM Sales GROUP BY ok, tag
rows 7
true,3
false,3
\N,1
true,2
false,2
true,1
false,1

SELECT DISTINCT MAX(n), MIN(n) FROM Lines GROUP BY word ORDER BY 1 DESC, 2
rows 9
9223372036854775807,0
9,-1
8,0
7,2
5,1
4,4
2,2
1,-9223372036854775808
1,1

# Aggregates of expressions, also where they fault at one row or in one group.
SELECT g, SUM(n + k) FROM Sales WHERE k BETWEEN -300 AND 65536 GROUP BY g
rows 9
2,-30
\N,4108
1,272
5,11
3,65758
4,311
6,\N
-9223372036854775808,265
7,5010

SELECT g, COUNT(n * 2), MIN(name || 'x'), MAX(LENGTH(tag)) FROM Sales WHERE k < 65537 GROUP BY g
rows 9
1,4,a text that is longerx,2
2,3,a text that is longer than sixteen bytezx,1
\N,3,a text that is longer than sixteen bytesx,2
5,2,bx,2
3,4,a text that is longer than sixteen bytesx,2
4,2,ax,1
6,0,\N,1
-9223372036854775808,1,zx,1
7,1,only onex,4

SELECT g, SUM(IFNULL(n, 100)), MAX(IF(ok, name, 'none')) FROM Sales WHERE k < 65537 GROUP BY g
rows 9
1,106,none
2,114,none
\N,104,none
5,1,none
3,12,none
4,6,none
6,100,none
-9223372036854775808,8,none
7,10,only one

SELECT g, COUNT(n + 1) FROM Sales GROUP BY g
refused 62

SELECT COUNT(m + n) FROM Sales
refused 62

SELECT g, SUM(DIV(12, n)) FROM Sales WHERE k > 11 AND k < 65536 GROUP BY g
refused 62

SELECT g, SUM(DIV(12, n)) FROM Sales WHERE n > 0 AND k < 65537 GROUP BY g
rows 8
2,2
1,6
3,18
4,8
5,12
\N,2
-9223372036854775808,1
7,1

SELECT g, COUNT(*) FROM Sales WHERE DIV(1, k - 4) < 9 GROUP BY g
refused 62

SELECT g, COUNT(*) FROM Sales WHERE DIV(1, k - 4) < 9 AND k > 4 GROUP BY g
rows 11
4,2
2,2
3,3
1,2
5,1
\N,2
6,1
-9223372036854775808,1
7,1
9223372036854775807,1
0,1

SELECT g + COUNT(*) FROM Sales GROUP BY g
refused 62

SELECT g + COUNT(*) FROM Sales GROUP BY g HAVING g < 9
rows 9
8
6
6
7
6
7
-9223372036854775807
8
1

SELECT g, DIV(10, COUNT(*) - 5) FROM Sales GROUP BY g
refused 62

SELECT g FROM Sales GROUP BY g HAVING DIV(10, COUNT(*) - 3) > 0
rows 4
3
1
2
\N

SELECT g, CASE WHEN COUNT(*) > 3 THEN MIN(name) WHEN g IS NULL THEN 'null' ELSE MAX(name) || '!' END FROM Sales GROUP BY g
rows 11
3,
1,
2,a text that is longer than sixteen bytez
\N,
5,b!
4,é!
6,\N
-9223372036854775808,z!
7,only one!
9223372036854775807,last but one!
0,last!

SELECT g, CASE WHEN g = 5 THEN 0 ELSE SUM(m) END FROM Sales GROUP BY g
refused 62

SELECT SUM(n), COUNT(*) FROM Lines HAVING SUM(n) > 0
rows 1
62,25

# Several blocks.
SELECT g, COUNT(*) FROM Sales GROUP BY g UNION ALL SELECT g, COUNT(*) FROM Lines GROUP BY g
rows 19
3,5
1,5
2,4
\N,4
5,2
4,2
6,1
-9223372036854775808,1
7,1
9223372036854775807,1
0,1
2,5
1,8
3,3
\N,3
4,3
5,1
6,1
7,1

SELECT g, n FROM Lines UNION ALL SELECT g, COUNT(*) FROM Lines GROUP BY g
rows 33
2,2
1,1
1,\N
3,4
\N,5
2,3
1,0
4,-1
1,6
4,2
2,9223372036854775807
3,7
\N,\N
5,1
1,1
2,3
2,3
1,4
1,2
6,0
\N,8
4,9
1,-9223372036854775808
3,2
7,1
2,5
1,8
3,3
\N,3
4,3
5,1
6,1
7,1

SELECT g, COUNT(*) FROM Lines GROUP BY g UNION ALL SELECT l, n FROM Lines WHERE n > 4 ORDER BY 1, 2 DESC
rows 14
\N,3
1,9223372036854775807
1,9
1,8
1,7
2,8
2,5
3,3
4,6
4,3
5,5
5,1
6,1
7,1

SELECT COUNT(*) FROM Nobody UNION ALL SELECT COUNT(*) FROM Sales UNION ALL SELECT SUM(n) FROM Towns UNION ALL SELECT g FROM Below GROUP BY g
rows 3
0
27
47

SELECT g, COUNT(*) FROM Sales GROUP BY g UNION ALL SELECT g, SUM(m) FROM Sales GROUP BY g
refused 62

SELECT name, COUNT(*) FROM Sales GROUP BY name UNION ALL SELECT word, g FROM Lines GROUP BY word, g ORDER BY 2 DESC, 1 LIMIT 7 OFFSET 3
rows 7
\N,4
ab,4
green,4
\N,3
,3
a text that is longer than sixteen bytes,3
a word of more than sixteen bytes,3

# Derived tables: grouped rows of one, groups of groups, joined groups.
SELECT d.g, COUNT(*), MAX(d.name) FROM (SELECT g, name FROM Sales WHERE n > 0) d GROUP BY d.g
rows 9
3,5,é
2,2,a text that is longer than sixteen bytez
1,3,ab
4,2,é
5,1,b
\N,1,abc
-9223372036854775808,1,z
7,1,only one
9223372036854775807,1,last but one

SELECT c, COUNT(*), MIN(g) FROM (SELECT g, COUNT(*) AS c FROM Sales GROUP BY g) d GROUP BY c
rows 4
5,2,1
4,2,2
2,2,4
1,5,-9223372036854775808

SELECT COUNT(*), SUM(c), MAX(s) FROM (SELECT word AS s, COUNT(*) AS c FROM Lines GROUP BY word) d
rows 1
9,25,é

SELECT d.g, COUNT(*) FROM (SELECT g FROM Sales UNION ALL SELECT g FROM Lines) d GROUP BY d.g
rows 11
3,8
1,13
2,9
\N,7
5,3
4,5
6,2
-9223372036854775808,1
7,2
9223372036854775807,1
0,1

SELECT t.g, d.c FROM Towns t JOIN (SELECT g, COUNT(*) AS c FROM Sales GROUP BY g) d ON d.g = t.g
rows 12
2,4
1,5
2,4
1,5
3,5
2,4
1,5
3,5
1,5
4,2
2,4
1,5

SELECT s.g, COUNT(*), SUM(d.c) FROM Sales s LEFT JOIN (SELECT k, COUNT(*) AS c FROM Lines GROUP BY k) d ON d.k = s.k GROUP BY s.g
rows 11
3,5,6
1,5,5
2,4,4
\N,4,1
5,2,1
4,2,4
6,1,\N
-9223372036854775808,1,\N
7,1,\N
9223372036854775807,1,\N
0,1,2

SELECT g, COUNT(*) FROM (SELECT g, k FROM Sales ORDER BY k DESC LIMIT 9) d GROUP BY g
rows 9
0,1
9223372036854775807,1
3,1
7,1
\N,1
4,1
-9223372036854775808,1
2,1
1,1

# Joins of a family by the key of its root, in one leaf, and joins of other tables.
SELECT s.g, COUNT(*), SUM(l.g), MIN(l.word) FROM Sales s JOIN Lines l ON l.k = s.k GROUP BY s.g
rows 7
1,5,13,a word of more than sixteen bytes
2,4,9,
5,1,2,blue
3,6,9,a word of more than sixteen bytes
4,4,10,
\N,1,1,é
0,2,10,last

SELECT l.word, COUNT(*), MAX(s.name), MIN(s.k) FROM Sales s JOIN Lines l ON l.k = s.k GROUP BY l.word
rows 9
red,6,last,-9223372036854775808
a word of more than sixteen bytes,2,ab,-9223372036854775808
,2,é,-300
blue,4,b,-1
\N,3,a text that is longer than sixteen bytez,0
green,2,a text that is longer than sixteen bytez,0
yellow,2,é,5
é,1,abc,10
last,1,last,9223372036854775807

SELECT s.g, COUNT(*), COUNT(l.l), MAX(l.word) FROM Sales s LEFT JOIN Lines l ON l.k = s.k GROUP BY s.g
rows 11
3,8,5,yellow
1,7,5,red
2,6,4,red
\N,4,1,é
5,2,1,blue
4,4,4,yellow
6,1,0,\N
-9223372036854775808,1,0,\N
7,1,0,\N
9223372036854775807,1,0,\N
0,2,2,red

SELECT s.ok, l.g, COUNT(*) FROM Sales s LEFT JOIN Lines l ON l.k = s.k AND l.n > 1 WHERE s.n > 0 GROUP BY s.ok, l.g
rows 9
true,\N,4
\N,\N,4
true,2,3
false,1,1
false,4,1
false,3,1
false,\N,4
true,1,2
true,4,1

SELECT COUNT(*), COUNT(l.k), MIN(l.word), MAX(s.tag) FROM Sales s LEFT JOIN Lines l ON l.k = s.k
rows 1
37,23,,\xffff

SELECT l.word, t.t, COUNT(*) FROM Lines l JOIN Notes t ON t.k = l.k AND t.l = l.l GROUP BY l.word, t.t
rows 11
a word of more than sixteen bytes,x,1
a word of more than sixteen bytes,y,1
blue,a note of more than sixteen bytes,1
red,\N,1
red,x,2
green,x,1
,y,1
red,y,1
é,é,1
blue,x,1
last,z,1

SELECT s.g, COUNT(*), SUM(t.n) FROM Sales s JOIN Lines l ON l.k = s.k JOIN Notes t ON t.k = s.k AND t.l = l.l GROUP BY s.g
rows 6
1,5,21
2,2,6
4,1,2
3,2,6
\N,1,1
0,1,2

SELECT s.g, COUNT(l.l), COUNT(t.t), MAX(t.t) FROM Sales s LEFT JOIN Lines l ON l.k = s.k LEFT JOIN Notes t ON t.k = s.k AND t.l = l.l GROUP BY s.g
rows 11
3,6,2,y
1,6,4,y
2,4,2,x
\N,1,1,é
5,1,0,\N
4,4,1,y
6,0,0,\N
-9223372036854775808,0,0,\N
7,0,0,\N
9223372036854775807,0,0,\N
0,2,1,z

SELECT a.g, b.g, COUNT(*) FROM Lines a JOIN Lines b ON b.k = a.k AND b.l < a.l GROUP BY a.g, b.g
rows 9
1,3,1
2,1,3
4,1,1
4,4,1
1,4,1
5,1,1
2,2,1
\N,4,1
3,7,1

SELECT t.g, COUNT(*), MIN(r.g), SUM(r.n) FROM Towns t JOIN Roads r ON r.city = t.city AND r.d = t.d GROUP BY t.g
rows 4
1,5,a way of more than sixteen bytes,9
3,3,,11
2,1,n,7
4,1,w,1

SELECT r.g, COUNT(*), MAX(t.city) FROM Towns t LEFT JOIN Roads r ON t.city = r.city AND r.d = t.d GROUP BY r.g
rows 6
\N,7,é
n,4,z
s,3,z
a way of more than sixteen bytes,1,b
,1,a
w,1,

SELECT t.city, COUNT(*), SUM(r.n) FROM Towns t JOIN Roads r ON r.city = t.city GROUP BY t.city
rows 6
z,2,3
b,6,14
abcdefgh,1,0
ab,2,14
a,9,39
,1,1

SELECT t.g, COUNT(*), MIN(s.name) FROM Towns t JOIN Sales s ON s.g = t.g WHERE t.n > 1 GROUP BY t.g
rows 4
1,10,
2,12,a text that is longer than sixteen bytez
3,10,
4,2,a

SELECT s.g, COUNT(*), COUNT(y.k) FROM Sales s LEFT JOIN Nobody y ON y.k = s.k GROUP BY s.g
rows 11
3,5,0
1,5,0
2,4,0
\N,4,0
5,2,0
4,2,0
6,1,0
-9223372036854775808,1,0
7,1,0
9223372036854775807,1,0
0,1,0

SELECT y.g, COUNT(*) FROM Nobody y JOIN Below w ON w.k = y.k GROUP BY y.g
rows 0

SELECT COUNT(*), SUM(w.g) FROM Nobody y LEFT JOIN Below w ON w.k = y.k
rows 1
0,\N

SELECT s.g, SUM(s.m) FROM Sales s JOIN Lines l ON l.k = s.k GROUP BY s.g
refused 62

SELECT s.g, SUM(l.n) FROM Sales s JOIN Lines l ON l.k = s.k WHERE s.k < 65536 AND s.k <> 1 GROUP BY s.g
rows 5
1,7
2,12
3,17
4,19
\N,2

SELECT s.g, COUNT(DIV(6, l.n)) FROM Sales s JOIN Lines l ON l.k = s.k GROUP BY s.g
refused 62

param g INT64 3
param s STRING ab
SELECT name, COUNT(*) FROM Sales WHERE g = @g OR name = @s GROUP BY name
rows 4
a text that is longer than sixteen bytes,2
ab,4
,1
é,1

param k INT64 -1
SELECT g, COUNT(*), SUM(n) FROM Sales WHERE k >= @k AND k < 256 GROUP BY g
rows 7
1,4,6
2,2,7
5,2,1
\N,2,6
3,3,8
4,1,3
6,1,\N

param z INT64 \N
SELECT COUNT(*), SUM(n), MIN(name) FROM Sales WHERE k > @z
rows 1
0,\N,\N

param h INT64 2
SELECT g, COUNT(*) FROM Lines GROUP BY g HAVING COUNT(*) > @h
rows 5
2,5
1,8
3,3
\N,3
4,3
