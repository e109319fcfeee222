# One table: columns that the WHERE alone reads don't leave the leaf.
SELECT COUNT(*) FROM Owners WHERE v > 1
rows 1
5

SELECT COUNT(*) FROM Owners WHERE v > 1 AND name IS NOT NULL
rows 1
5

SELECT COUNT(*) FROM Owners WHERE name = 'a text that is longer than sixteen bytes'
rows 1
2

SELECT COUNT(*) FROM Owners WHERE name LIKE 'a text%bytes'
rows 1
2

SELECT COUNT(*) FROM Owners WHERE seal >= b'\x00' AND seal < b'\x61'
rows 1
3

SELECT COUNT(*) FROM Owners WHERE ok
rows 1
5

SELECT COUNT(*) FROM Owners WHERE NOT ok OR v IS NULL
rows 1
4

SELECT 1 FROM Owners WHERE a = 1
rows 2
1
1

SELECT 1 FROM Owners WHERE name || 'x' = 'abx'
rows 2
1
1

SELECT NULL, 'k' FROM Owners WHERE LENGTH(name) > 16
rows 3
\N,k
\N,k
\N,k

SELECT k FROM Owners WHERE name = 'a text that is longer than sixteen bytes' AND LENGTH(seal) = 1
rows 2
\N
1

SELECT name FROM Owners WHERE seal = b'\x00'
rows 2
a text that is longer than sixteen bytes
ab

SELECT name FROM Owners WHERE LENGTH(seal) > 16 OR v < 3
rows 4
\N
""
b
é

SELECT seal FROM Owners WHERE name LIKE '%sixteen%'
rows 3
\x00
\xff
\x6162

SELECT seal, name FROM Owners WHERE a IN (1, v)
rows 3
\x00,a text that is longer than sixteen bytes
\x61,b
\N,é

SELECT name, name FROM Owners WHERE name > 'a' AND a < 4
rows 6
a text that is longer than sixteen bytes,a text that is longer than sixteen bytes
ab,ab
b,b
a text that is longer than sixteen bytez,a text that is longer than sixteen bytez
ab,ab
é,é

SELECT a + a, a FROM Owners WHERE v IS NULL
rows 2
4,2
10,5

SELECT v FROM Owners WHERE CASE WHEN name IS NULL THEN a IS NULL WHEN ok THEN v > 1 ELSE seal IS NULL END
rows 4
3
\N
0
9223372036854775807

SELECT k FROM Owners WHERE IF(ok, a, v) = 1
rows 2
\N
256

SELECT k FROM Owners WHERE CASE name WHEN 'ab' THEN a WHEN '' THEN 4 ELSE v END = 2
rows 2
-9223372036854775808
2

SELECT k FROM Owners WHERE name IN ('ab', 'é', name || '') AND a IN (0, 1, 2)
rows 5
\N
-9223372036854775808
2
255
256

SELECT a FROM Owners WHERE COALESCE(v, a, 0) = 5
rows 2
3
5

SELECT DISTINCT a FROM Owners WHERE name IS NOT NULL
rows 6
1
2
4
3
0
5

SELECT DISTINCT name FROM Owners WHERE a < 4 AND v IS NOT NULL
rows 5
a text that is longer than sixteen bytes
b
a text that is longer than sixteen bytez
ab
é

SELECT DISTINCT ok, seal FROM Owners WHERE name <> 'last'
rows 8
true,\x00
false,\N
true,\x
true,\xff
false,\x61
\N,\x6162
false,\x00
true,\N

SELECT DISTINCT 1 FROM Owners WHERE a > 1
rows 1
1

SELECT a FROM Owners WHERE name IS NOT NULL ORDER BY a DESC
rows 9
5
4
4
3
2
2
1
1
0

SELECT name, k FROM Owners WHERE a >= 1 ORDER BY 1, 2 DESC
rows 8
,0
a text that is longer than sixteen bytes,1
a text that is longer than sixteen bytes,\N
a text that is longer than sixteen bytez,3
ab,-9223372036854775808
b,2
last,9223372036854775807
é,256

SELECT name FROM Owners WHERE v IS NOT NULL ORDER BY 1 LIMIT 3 OFFSET 1
rows 3
""
a text that is longer than sixteen bytes
a text that is longer than sixteen bytes

SELECT 7 FROM Owners WHERE v IS NOT NULL ORDER BY 1 LIMIT 3
rows 3
7
7
7

SELECT a, COUNT(*) FROM Owners WHERE name IS NOT NULL GROUP BY a
rows 6
1,2
2,2
4,2
3,1
0,1
5,1

SELECT COUNT(v), SUM(a) FROM Owners WHERE seal IS NOT NULL
rows 1
7,19

SELECT name, MIN(a), MAX(k) FROM Owners WHERE ok OR ok IS NULL GROUP BY name
rows 6
a text that is longer than sixteen bytes,1,1
\N,\N,-1
,4,0
a text that is longer than sixteen bytez,3,3
é,1,256
last,5,9223372036854775807

SELECT ok FROM Owners WHERE a > 0 GROUP BY ok HAVING COUNT(*) > 1
rows 2
true
false

SELECT COUNT(*) FROM Owners WHERE k > 0 HAVING MAX(v) > 5
rows 1
6

SELECT 'one' FROM Owners WHERE v > 0 GROUP BY name HAVING MIN(a) < 2
rows 3
one
one
one

SELECT MAX(name) FROM Owners WHERE name < 'b' AND seal <> b'\xff'
rows 1
ab

SELECT COUNT(*) FROM Owners WHERE k = 1 AND name LIKE 'a%'
rows 1
1

SELECT COUNT(*) FROM Owners WHERE k > 3 AND k < 255 AND name LIKE 'a%'
rows 1
0

SELECT k FROM Falls WHERE s LIKE 'a fall%' OR m = 4
rows 2
300
-9223372036854775808

SELECT n FROM Falls WHERE m > 1 AND s <> 'low'
rows 4
1
2
0
6

SELECT COUNT(*) FROM Falls WHERE s IS NULL OR k IS NULL
rows 1
2

SELECT n FROM Roads WHERE map = b'\x61' AND d = 1
rows 2
0
5

SELECT COUNT(*) FROM Roads WHERE city LIKE 'a%' AND r > 1
rows 1
3

SELECT map FROM Roads WHERE n > 2 AND city > 'a'
rows 2
\xff00
\xff

SELECT b FROM Seals WHERE n + m > 2
rows 4
\xff00
\xff
\x
\N

SELECT m FROM Seals WHERE b > b'\x61'
rows 3
2
1
\N

SELECT DISTINCT n FROM Toys WHERE word = 'red' AND toy < 'c'
rows 4
1
0
4
9223372036854775807

# Faults: a fault of a column that doesn't leave the leaf stays one.
SELECT 1 FROM Owners WHERE DIV(1, a) = 0
refused 62

SELECT COUNT(*) FROM Owners WHERE DIV(6, a) > 1
refused 62

SELECT COUNT(*) FROM Owners WHERE a > 0 AND DIV(6, a) > 1
rows 1
5

SELECT COUNT(*) FROM Owners WHERE v + 1 > 2
refused 62

SELECT COUNT(*) FROM Owners WHERE -v < 0
refused 62

SELECT COUNT(*) FROM Owners WHERE k <> 1 AND k <> 0 AND -v < 0
rows 1
4

SELECT name FROM Owners WHERE a = 0 OR DIV(1, a) = 1
rows 3
a text that is longer than sixteen bytes
ab
é

SELECT name FROM Owners WHERE k BETWEEN 1 AND 3 AND DIV(4, a) > 1
rows 1
b

SELECT DIV(1, a) FROM Owners WHERE name IS NULL
rows 1
\N

SELECT DIV(1, a) FROM Owners WHERE name = 'ab'
refused 62

SELECT DIV(1, a) FROM Owners WHERE name = 'ab' AND v IS NULL
rows 1
0

SELECT SUM(v) FROM Owners WHERE ok AND a = 4 AND name > 'a'
rows 1
9223372036854775807

SELECT SUM(v) FROM Owners WHERE k = 1 OR k = 3
refused 62

SELECT a FROM Owners WHERE IF(a = 0, TRUE, DIV(1, a) = 1)
rows 3
1
0
1

SELECT COUNT(*) FROM Owners WHERE a IN (1, DIV(4, a))
refused 62

SELECT COUNT(*) FROM Owners o JOIN Pets p ON p.k = o.k AND DIV(4, p.n) >= 0
refused 62

SELECT COUNT(*) FROM Owners o JOIN Pets p ON p.k = o.k AND p.n <> 0 AND DIV(4, p.n) >= 0
rows 1
8

SELECT COUNT(*) FROM Owners o JOIN Pets p ON p.k = o.k WHERE DIV(4, p.n) >= 0
refused 62

SELECT COUNT(*) FROM Owners o JOIN Pets p ON p.k = o.k WHERE DIV(4, p.m) >= 0 AND o.k > 1
refused 62

SELECT o.k FROM Owners o LEFT JOIN Pets p ON p.k = o.k AND DIV(4, o.a) > 0
refused 62

SELECT o.k FROM Owners o LEFT JOIN Pets p ON p.k = o.k AND (o.a IS NULL OR o.a <> 0) AND DIV(4, o.a) > 0 WHERE o.k < 300
rows 12
-9223372036854775808
-1
0
0
0
1
1
1
2
3
255
256

SELECT DIV(1, p.n) FROM Owners o JOIN Pets p ON p.k = o.k WHERE o.v >= 0 AND p.name LIKE 't%' AND p.n > 1
rows 2
0
0

SELECT DIV(1, p.n) FROM Owners o JOIN Pets p ON p.k = o.k WHERE o.v < 0 AND p.name = 'tom'
rows 1
0

SELECT o.k FROM Owners o JOIN Pets p ON p.k = o.k JOIN Toys t ON t.k = p.k AND t.p = p.p AND t.n + p.m > 0
rows 6
0
1
1
1
1
255

SELECT o.k FROM Owners o JOIN Pets p ON p.k = o.k JOIN Toys t ON t.k = p.k AND t.p = p.p WHERE t.n + 1 > p.n
refused 62

SELECT o.k FROM Owners o JOIN Pets p ON p.k = o.k JOIN Toys t ON t.k = p.k AND t.p = p.p WHERE t.n < 9 AND t.n + 1 > p.n
rows 5
0
1
1
1
255

SELECT COUNT(*) FROM Owners o JOIN Pets p ON p.k = o.k LEFT JOIN Words w ON w.n = DIV(4, p.n)
refused 62

SELECT COUNT(*) FROM Owners o JOIN Pets p ON p.k = o.k AND p.n <> 0 LEFT JOIN Words w ON w.n = DIV(4, p.n)
rows 1
8

SELECT COUNT(*) FROM Words w JOIN Uses u ON u.w = w.w JOIN Falls f ON f.n = w.n WHERE DIV(3, u.n) > 0
refused 62

SELECT COUNT(*) FROM (SELECT DIV(1, a) AS x, name FROM Owners WHERE v > 0) d
refused 62

SELECT COUNT(*) FROM (SELECT DIV(1, a) AS x, name FROM Owners WHERE v < 7) d WHERE name IS NOT NULL
rows 1
5

# Two tables, joined directory by directory.
SELECT COUNT(*) FROM Owners o JOIN Pets p ON p.k = o.k
rows 1
10

SELECT COUNT(*) FROM Owners o LEFT JOIN Pets p ON p.k = o.k
rows 1
14

SELECT 1 FROM Owners o LEFT JOIN Pets p ON p.k = o.k WHERE p.k IS NULL
rows 4
1
1
1
1

SELECT o.name FROM Owners o LEFT JOIN Pets p ON p.k = o.k WHERE p.n IS NULL
rows 5
a text that is longer than sixteen bytes
ab
\N
b
é

SELECT p.name FROM Owners o JOIN Pets p ON p.k = o.k WHERE o.name LIKE 'a text%'
rows 4
tim
tam
a pet with a name of more than sixteen bytes
\N

SELECT p.name FROM Owners o JOIN Pets p ON p.k = o.k AND p.chip <> b'\x01'
rows 7
""
\N
tim
a pet with a name of more than sixteen bytes
\N
ab
last pet

SELECT o.a, p.n FROM Owners o JOIN Pets p ON p.k = o.k AND p.m < o.a
rows 4
4,3
4,9223372036854775807
4,2
5,3

SELECT o.a, p.n FROM Owners o LEFT JOIN Pets p ON p.k = o.k AND p.m < o.a
rows 11
1,\N
2,\N
\N,\N
4,3
4,9223372036854775807
4,2
2,\N
3,\N
0,\N
1,\N
5,3

SELECT o.seal FROM Owners o LEFT JOIN Pets p ON p.k = o.k AND p.name IS NULL WHERE o.ok OR p.n = 6
rows 6
\x00
\x
\xff
\x6162
\N
\xff

SELECT p.chip FROM Owners o LEFT JOIN Pets p ON p.k = o.k AND p.n > 1 WHERE o.name = 'ab' OR LENGTH(p.name) > 2
rows 7
\N
\x01
\x02
\N
\x03
\N
\x

SELECT p.n, o.name, p.n FROM Owners o LEFT JOIN Pets p ON o.k = p.k WHERE o.seal IS NOT NULL
rows 12
\N,a text that is longer than sixteen bytes,\N
\N,\N,\N
5,,5
0,,0
3,,3
4,a text that is longer than sixteen bytes,4
9223372036854775807,a text that is longer than sixteen bytes,9223372036854775807
2,a text that is longer than sixteen bytes,2
\N,b,\N
6,a text that is longer than sixteen bytez,6
1,ab,1
3,last,3

SELECT o.name || p.name FROM Owners o JOIN Pets p ON p.k = o.k WHERE o.seal = p.chip OR o.v = p.n
rows 2
""
a text that is longer than sixteen bytestam

SELECT p.k FROM Owners o JOIN Pets p ON p.k = o.k WHERE o.k = 1
rows 3
1
1
1

SELECT o.k, p.p FROM Owners o LEFT JOIN Pets p ON p.k = o.k WHERE o.k = 2
rows 1
2,\N

SELECT o.k, p.p FROM Owners o LEFT JOIN Pets p ON p.k = o.k WHERE o.k = 4
rows 0

SELECT COUNT(*), MIN(p.n) FROM Owners o LEFT JOIN Pets p ON p.k = o.k WHERE o.k > 3 AND o.k < 255
rows 1
0,\N

SELECT COUNT(*) FROM Owners o LEFT JOIN Pets p ON p.k = o.k WHERE o.k < -1
rows 1
1

SELECT p.name FROM Owners o JOIN Pets p ON p.k = o.k WHERE o.k >= 9223372036854775807
rows 1
last pet

SELECT p.name, o.a FROM Pets p JOIN Owners o ON o.k = p.k WHERE o.v > p.n
rows 3
tim,4
a pet with a name of more than sixteen bytes,4
ab,0

SELECT p.p, q.p FROM Pets p JOIN Pets q ON q.k = p.k AND q.n < p.n
rows 6
9223372036854775807,0
9223372036854775807,-9223372036854775808
-9223372036854775808,0
3,1
2,3
2,1

SELECT p.name, q.name FROM Pets p LEFT JOIN Pets q ON q.k = p.k AND q.p > p.p WHERE p.m <> 0
rows 9
a pet with a name of more than sixteen bytes,\N
tom,\N
,\N
tom,
tom,\N
tim,\N
tam,tim
\N,\N
ab,\N

SELECT a.name, b.v FROM Owners a JOIN Owners b ON b.k = a.k WHERE a.v < 6 AND b.ok
rows 2
,-9223372036854775808
é,1

SELECT b.n, p.n FROM Owners o JOIN Bills b ON b.k = o.k JOIN Pets p ON p.k = o.k WHERE b.m > 0
rows 5
5,4
5,9223372036854775807
5,2
\N,6
6,\N

SELECT b.b FROM Bills b LEFT JOIN Pets p ON p.k = b.k AND p.n = b.n WHERE p.name IS NOT NULL
rows 1
1

SELECT o.a, b.n FROM Owners o LEFT JOIN Bills b ON b.k = o.k WHERE b.m IS NULL
rows 6
1,\N
2,\N
\N,2
4,\N
0,\N
5,\N

SELECT DISTINCT o.a FROM Owners o JOIN Pets p ON p.k = o.k WHERE p.m > 0
rows 3
4
3
0

SELECT DISTINCT p.name FROM Owners o JOIN Pets p ON p.k = o.k WHERE o.a IS NOT NULL OR p.m = 3
rows 8
""
\N
tom
tim
tam
a pet with a name of more than sixteen bytes
ab
last pet

SELECT o.name, COUNT(p.p) FROM Owners o LEFT JOIN Pets p ON p.k = o.k AND p.m > 0 GROUP BY o.name
rows 8
a text that is longer than sixteen bytes,2
ab,1
\N,0
,2
b,0
a text that is longer than sixteen bytez,1
é,0
last,0

SELECT o.a, SUM(p.m) FROM Owners o JOIN Pets p ON p.k = o.k WHERE p.n IS NOT NULL GROUP BY o.a HAVING COUNT(*) > 1
rows 1
4,11

SELECT p.m FROM Owners o JOIN Pets p ON p.k = o.k WHERE o.a >= 0 ORDER BY m
rows 10
\N
\N
0
0
1
1
1
4
5
7

SELECT p.m FROM Owners o JOIN Pets p ON p.k = o.k WHERE o.a >= 0 ORDER BY 1 DESC LIMIT 4
rows 4
7
5
4
1

SELECT p.name, o.name FROM Owners o JOIN Pets p ON p.k = o.k WHERE p.n > 0 ORDER BY 2, 1
rows 8
,
tom,
a pet with a name of more than sixteen bytes,a text that is longer than sixteen bytes
tam,a text that is longer than sixteen bytes
tim,a text that is longer than sixteen bytes
\N,a text that is longer than sixteen bytez
ab,ab
last pet,last

# Three tables of one family, other tables of it between them.
SELECT t.word FROM Owners o JOIN Pets p ON p.k = o.k JOIN Toys t ON t.k = p.k AND t.p = p.p
rows 9
blue
a word of more than sixteen bytes
red
red
\N
blue
red
a word of more than sixteen bytes
last word

SELECT COUNT(*) FROM Owners o JOIN Pets p ON p.k = o.k JOIN Toys t ON t.k = o.k AND t.p = p.p WHERE t.word = 'red'
rows 1
3

SELECT o.k, t.toy FROM Owners o LEFT JOIN Pets p ON p.k = o.k LEFT JOIN Toys t ON t.k = o.k AND t.p = p.p
rows 17
\N,\N
-9223372036854775808,\N
-1,\N
0,
0,\N
0,ball
0,\N
1,a
1,ab
1,b
1,\N
1,a
2,\N
3,\N
255,a toy of more than sixteen bytes
256,\N
9223372036854775807,z

SELECT o.name, t.n FROM Owners o LEFT JOIN Pets p ON p.k = o.k AND p.n > 2 LEFT JOIN Toys t ON t.k = o.k AND t.p = p.p AND t.word IS NOT NULL WHERE o.a > 0
rows 11
a text that is longer than sixteen bytes,\N
ab,\N
,3
,\N
a text that is longer than sixteen bytes,4
a text that is longer than sixteen bytes,4
a text that is longer than sixteen bytes,\N
b,\N
a text that is longer than sixteen bytez,\N
é,\N
last,0

SELECT t.toy, p.chip FROM Owners o JOIN Pets p ON p.k = o.k AND p.m >= 1 JOIN Toys t ON t.k = o.k AND t.n = p.m
rows 3
a,\x02
b,\x02
a toy of more than sixteen bytes,\x61

SELECT o.a, b.n, p.n FROM Owners o LEFT JOIN Bills b ON b.k = o.k LEFT JOIN Pets p ON p.k = o.k WHERE b.m IS NULL OR p.m > b.n
rows 8
1,\N,\N
2,\N,\N
\N,2,\N
4,\N,5
4,\N,0
4,\N,3
0,\N,1
5,\N,3

SELECT b.n, t.word FROM Bills b JOIN Toys t ON t.k = b.k JOIN Owners o ON o.k = b.k WHERE o.ok AND t.n < b.n
rows 2
5,red
5,blue

SELECT o.v, t.toy FROM Owners o JOIN Toys t ON t.k = o.k WHERE t.toy LIKE 'a%' AND o.name IS NOT NULL
rows 4
9223372036854775807,a
9223372036854775807,ab
9223372036854775807,a
7,a toy of more than sixteen bytes

SELECT t.toy FROM Toys t LEFT JOIN Owners o ON o.k = t.k AND o.ok LEFT JOIN Pets p ON p.k = t.k AND p.p = t.p AND p.n > t.n WHERE p.name IS NULL
rows 9
a toy of more than sixteen bytes
ball
\N
ball
a
ab
b
a
a toy of more than sixteen bytes

SELECT o.k, COUNT(*) FROM Owners o LEFT JOIN Pets p ON p.k = o.k LEFT JOIN Toys t ON t.k = p.k AND t.p = p.p WHERE t.word IS NULL GROUP BY o.k
rows 8
\N,1
-9223372036854775808,1
-1,1
0,1
1,2
2,1
3,1
256,1

SELECT r.n, h.h FROM Parts p JOIN Roads r ON r.city = p.city AND r.d = p.d JOIN Homes h ON h.city = p.city AND h.d = p.d AND h.r = r.r
rows 6
8,z
5,q
5,r
\N,q
3,\N
3,

SELECT p.n, h.n FROM Parts p LEFT JOIN Roads r ON r.city = p.city AND r.d = p.d LEFT JOIN Homes h ON h.city = p.city AND h.d = p.d AND h.r = r.r WHERE p.word IS NOT NULL
rows 12
9,\N
8,8
6,\N
0,\N
4,\N
5,5
5,0
5,\N
\N,\N
3,3
3,2
1,\N

# Root keys of two columns, of texts one of which begins with another, of bytes, and DESC ones.
SELECT COUNT(*) FROM Parts p LEFT JOIN Roads r ON r.city = p.city AND r.d = p.d WHERE r.n IS NULL
rows 1
7

SELECT p.word, r.map FROM Parts p JOIN Roads r ON r.city = p.city AND r.d = p.d WHERE p.n > r.n
rows 1
x,\x61

SELECT p.word, r.n FROM Parts p LEFT JOIN Roads r ON r.city = p.city AND r.d = p.d AND r.map = b'\x61'
rows 11
y,\N
x,\N
\N,\N
x,0
z,\N
a text that is longer than sixteen bytes,\N
x,5
y,\N
the empty city,\N
null of null,\N
\N,\N

SELECT p.n, r.n FROM Parts p JOIN Roads r ON r.city = p.city WHERE p.d > 0 AND r.r > 1
rows 4
8,8
7,7
5,5
\N,5

SELECT p.n, r.n FROM Parts p JOIN Roads r ON r.d = p.d AND r.city = p.city AND p.city = 'a'
rows 2
5,5
5,\N

SELECT r.r FROM Parts p JOIN Roads r ON r.city = p.city AND r.d = p.d WHERE p.city = 'a' AND p.d = 1
rows 2
2
1

SELECT r.r, p.n FROM Parts p LEFT JOIN Roads r ON r.city = p.city AND r.d = p.d WHERE p.city >= 'ab' AND p.city < 'abcdefghi'
rows 3
7,7
1,6
\N,0

SELECT r.r, p.n FROM Parts p LEFT JOIN Roads r ON r.city = p.city AND r.d = p.d WHERE p.city > 'b'
rows 0

SELECT r.map FROM Roads r JOIN Homes h ON h.city = r.city AND h.d = r.d AND h.r = r.r AND h.n >= r.n
rows 3
\xff00
\x61
\x

SELECT w.n, u.n FROM Words w LEFT JOIN Uses u ON u.w = w.w
rows 12
1,\N
2,0
2,1
3,3
3,\N
\N,2
5,5
6,6
7,7
8,8
0,0
9,\N

SELECT w.n, u.text FROM Words w LEFT JOIN Uses u ON u.w = w.w AND u.n > w.m
rows 10
1,\N
2,of nothing
3,\N
\N,\N
5,y
6,\N
7,z
8,\N
0,\N
9,\N

SELECT u.text FROM Words w JOIN Uses u ON u.w = w.w WHERE w.m >= 2
rows 6
a use of a word of more than sixteen bytes
x
x
y
z
\N

SELECT f.f, u.u FROM Words w JOIN Uses u ON u.w = w.w JOIN Forms f ON f.w = w.w WHERE u.n IS NOT NULL AND f.n IS NOT NULL
rows 7
,\N
,1
,1
b,1
\N,1
j,1
a form of more than sixteen bytes,-1

SELECT w.w, f.f FROM Words w LEFT JOIN Forms f ON f.w = w.w WHERE f.n > w.n OR f.n IS NULL
rows 8
\N,\N
,a
a,b
abcdefgh,\N
abcdefghijklmnop,\N
abcdefghijklmnopq,\N
b,a form of more than sixteen bytes
é,\N

SELECT w.w FROM Words w LEFT JOIN Forms f ON f.w = w.w AND f.n IS NOT NULL LEFT JOIN Uses u ON u.w = w.w AND u.text LIKE '%' WHERE f.f IS NULL AND u.u IS NULL
rows 3
\N
abcdefghijklmnopq
é

SELECT w.n, u.u FROM Words w LEFT JOIN Uses u ON u.w = w.w WHERE w.w = 'a'
rows 2
3,1
3,97

SELECT w.n, u.u FROM Words w LEFT JOIN Uses u ON u.w = w.w WHERE w.w = ''
rows 2
2,\N
2,1

SELECT w.n, u.u FROM Words w LEFT JOIN Uses u ON u.w = w.w WHERE w.w = 'abc'
rows 0

SELECT w.n, u.u FROM Words w LEFT JOIN Uses u ON u.w = w.w WHERE w.w BETWEEN 'ab' AND 'abcdefghijklmnop' AND u.n > 2
rows 3
5,1
6,1
7,0

SELECT f.f FROM Uses u JOIN Forms f ON f.w = u.w WHERE u.n < f.n
rows 5
""
""
b
\N
a form of more than sixteen bytes

SELECT d.n, r.n FROM Falls d JOIN Drops r ON r.k = d.k
rows 5
2,2
2,0
0,3
0,\N
4,9

SELECT d.s, r.m FROM Falls d LEFT JOIN Drops r ON r.k = d.k AND r.n > d.n
rows 7
high,\N
a fall of more than sixteen bytes,\N
mid,\N
,5
\N,\N
low,9
none,\N

SELECT d.s FROM Falls d LEFT JOIN Drops r ON r.k = d.k LEFT JOIN Mists i ON i.k = d.k WHERE r.n IS NULL AND i.n IS NULL
rows 3
""
\N
none

SELECT r.n, i.n FROM Falls d JOIN Drops r ON r.k = d.k JOIN Mists i ON i.k = d.k AND i.f > r.e WHERE d.m = 2
rows 2
2,1
0,1

SELECT i.f, r.e FROM Drops r JOIN Mists i ON i.k = r.k WHERE i.n > r.n OR r.m IS NULL
rows 2
3,2
1,2

SELECT d.n, i.f FROM Falls d LEFT JOIN Mists i ON i.k = d.k WHERE d.k = 300
rows 2
2,3
2,1

SELECT d.n, i.f FROM Falls d LEFT JOIN Mists i ON i.k = d.k WHERE d.k < 5 AND d.k > -1
rows 2
\N,\N
0,\N

SELECT d.s, i.n FROM Falls d LEFT JOIN Mists i ON i.k = d.k WHERE d.k <= -1 AND d.m IS NOT NULL
rows 1
low,\N

SELECT s.n, m.s FROM Seals s LEFT JOIN Marks m ON m.b = s.b AND m.n <> s.m
rows 7
1,a mark of more than sixteen bytes
2,\N
2,x
3,\N
\N,x
5,\N
6,\N

SELECT m.s FROM Seals s JOIN Marks m ON m.b = s.b WHERE s.m IS NOT NULL AND m.n > 0
rows 3
a mark of more than sixteen bytes
\N
x

SELECT COUNT(*), MIN(m.s) FROM Seals s LEFT JOIN Marks m ON m.b = s.b WHERE s.b >= b'\xff'
rows 1
3,a mark of more than sixteen bytes

SELECT s.m FROM Seals s LEFT JOIN Marks m ON m.b = s.b WHERE m.c IS NULL
rows 4
1
\N
0
6

# Later tables that are no part of the leaf: their ON and the WHERE are judged above it, and what these read leaves it.
SELECT 1 FROM Owners o JOIN Pets p ON p.n = o.a
rows 12
1
1
1
1
1
1
1
1
1
1
1
1

SELECT COUNT(*) FROM Owners o JOIN Pets p ON p.k = o.k JOIN Words w ON w.n = p.n
rows 1
7

SELECT w.w FROM Owners o JOIN Pets p ON p.k = o.k JOIN Words w ON w.n = p.n WHERE o.name IS NOT NULL
rows 7
abcdefgh
b
a
""
abcdefghi
\N
a

SELECT w.w FROM Owners o JOIN Pets p ON p.k = o.k AND p.m > 0 JOIN Words w ON w.n = p.n WHERE o.seal = p.chip OR w.m > o.a
rows 2
abcdefgh
abcdefghi

SELECT p.name, w.m FROM Owners o JOIN Pets p ON p.k = o.k LEFT JOIN Words w ON w.n = o.a AND w.w < p.name
rows 10
,\N
\N,\N
tom,\N
tim,\N
tam,\N
a pet with a name of more than sixteen bytes,\N
\N,\N
ab,\N
\N,\N
last pet,1

SELECT w.n FROM Owners o LEFT JOIN Pets p ON p.k = o.k AND p.m > 1 LEFT JOIN Words w ON w.w = o.name WHERE p.n IS NULL OR w.m > 1
rows 7
\N
\N
\N
0
\N
9
\N

SELECT u.text FROM Owners o JOIN Words w ON w.w = o.name JOIN Uses u ON u.w = w.w
rows 5
x
\N
of nothing
x
x

SELECT u.text FROM Words w JOIN Uses u ON u.w = w.w JOIN Owners o ON o.name = w.w WHERE o.ok IS NOT NULL AND u.n > w.m
rows 1
of nothing

SELECT o.a FROM Owners o JOIN Pets p ON p.k = o.k JOIN Owners x ON x.a = p.n WHERE x.name = o.name
rows 1
4

SELECT p.n FROM Owners o JOIN Pets p ON p.k = o.k JOIN Bills b ON b.n = p.n WHERE o.v > b.m
rows 2
4
6

SELECT p.n, b.n FROM Owners o JOIN Pets p ON p.k = o.k JOIN Bills b ON b.n = p.n AND b.k < o.k
rows 3
3,3
2,2
3,3

SELECT t.toy FROM Owners o JOIN Words w ON w.n = o.v JOIN Toys t ON t.k = o.k WHERE w.m > 1 AND t.word LIKE 'a%'
rows 1
a toy of more than sixteen bytes

SELECT o.k FROM Owners o JOIN Lone l ON l.x = o.a WHERE l.s < l.t AND o.name > l.s
rows 3
3
255
255

SELECT COUNT(*) FROM Owners o JOIN Lone l ON o.v BETWEEN l.lo AND l.hi WHERE o.ok
rows 1
11

SELECT COUNT(*) FROM Lone l LEFT JOIN Owners o ON o.a BETWEEN l.lo AND l.hi AND o.name IS NOT NULL
rows 1
35

SELECT 0 FROM Parts p JOIN Roads r ON r.d = p.d WHERE p.city = r.city AND p.n > r.n - 1
rows 5
0
0
0
0
0

# Derived tables and unions whose leaves keep different columns.
SELECT COUNT(*) FROM (SELECT name, a FROM Owners WHERE v > 0) d
rows 1
6

SELECT d.a FROM (SELECT name, a FROM Owners WHERE v > 0) d WHERE d.name LIKE 'a%'
rows 4
1
4
3
0

SELECT d.n FROM (SELECT o.name AS n, p.m AS m FROM Owners o JOIN Pets p ON p.k = o.k WHERE p.n > 0) d WHERE d.m > 0
rows 6
""
""
a text that is longer than sixteen bytes
a text that is longer than sixteen bytes
a text that is longer than sixteen bytez
ab

SELECT o.a, d.c FROM Owners o JOIN (SELECT k, COUNT(*) AS c FROM Pets WHERE m > 0 GROUP BY k) d ON d.k = o.k WHERE o.ok
rows 2
4,2
4,2

SELECT d.n FROM (SELECT n FROM Pets WHERE m = 1) d JOIN Owners o ON o.a = d.n WHERE o.name IS NOT NULL
rows 3
3
1
1

SELECT 1 FROM (SELECT 1 AS x FROM Owners WHERE a = 4) d
rows 2
1
1

SELECT 1 FROM (SELECT k, name FROM Owners WHERE a = 4) d JOIN (SELECT k FROM Pets WHERE m > 3) e ON e.k = d.k
rows 2
1
1

SELECT DISTINCT d.n FROM (SELECT a AS n FROM Owners WHERE ok UNION ALL SELECT n FROM Pets WHERE name = 'tom') d
rows 4
1
4
5
3

SELECT a FROM Owners WHERE name = 'ab' UNION ALL SELECT m FROM Pets WHERE n = 1 UNION ALL SELECT n FROM Words WHERE w < 'ab'
rows 6
2
0
2
1
2
3

SELECT name FROM Owners WHERE a = 4 UNION ALL SELECT name FROM Owners WHERE v = 7 UNION ALL SELECT word FROM Toys WHERE n = 1
rows 5
""
a text that is longer than sixteen bytes
ab
red
a word of more than sixteen bytes

SELECT COUNT(*) FROM Owners WHERE v > 0 UNION ALL SELECT COUNT(*) FROM Pets UNION ALL SELECT a FROM Owners WHERE name = 'é'
rows 3
6
12
1

SELECT 1, name FROM Owners WHERE k < 2 UNION ALL SELECT n, 'pet' FROM Pets WHERE m = 1 UNION ALL SELECT p.m, o.name FROM Owners o JOIN Pets p ON p.k = o.k WHERE p.n = 3 ORDER BY 2, 1
rows 9
1,\N
1,
1,
1,a text that is longer than sixteen bytes
1,ab
0,last
1,pet
3,pet
9223372036854775807,pet

SELECT DISTINCT a FROM Owners WHERE ok UNION ALL SELECT DISTINCT m FROM Pets WHERE name IS NOT NULL
rows 9
1
4
5
3
2
5
1
4
0

SELECT a, COUNT(*) FROM Owners WHERE v > 0 GROUP BY a UNION ALL SELECT m, SUM(n) FROM Pets WHERE p < 3 AND chip IS NOT NULL GROUP BY m
rows 9
1,2
4,1
2,1
3,1
0,1
\N,0
1,4
0,2
7,6

SELECT a FROM Owners WHERE name = 'ab' UNION ALL SELECT DIV(1, m) FROM Pets WHERE n = 3
refused 62

# BETWEEN of columns and literals, some of them NULL or no numbers.
SELECT id FROM Lone WHERE x BETWEEN lo AND hi
rows 6
9
7
3
2
1
\N

SELECT id FROM Lone WHERE NOT x BETWEEN lo AND hi
rows 4
8
0
-1
-2

SELECT id FROM Lone WHERE x NOT BETWEEN lo AND hi
rows 4
8
0
-1
-2

SELECT id FROM Lone WHERE (x BETWEEN lo AND hi) IS NULL
rows 3
6
5
4

SELECT id, x BETWEEN lo AND hi, 3 BETWEEN lo AND hi, x BETWEEN hi AND lo FROM Lone
rows 13
9,true,true,false
8,false,false,true
7,true,true,true
6,\N,\N,false
5,\N,\N,false
4,\N,true,\N
3,true,true,false
2,true,false,true
1,true,false,true
0,false,false,true
-1,false,false,\N
-2,false,false,\N
\N,true,false,true

SELECT id FROM Lone WHERE 3 BETWEEN lo AND hi
rows 4
9
7
4
3

SELECT id FROM Lone WHERE 3 BETWEEN hi AND lo
rows 3
8
7
0

SELECT id FROM Lone WHERE 3 BETWEEN 3 AND hi
rows 6
9
7
6
4
3
1

SELECT id FROM Lone WHERE lo BETWEEN 1 AND 5
rows 6
9
8
7
5
4
-1

SELECT id FROM Lone WHERE lo BETWEEN 5 AND 1
rows 0

SELECT id FROM Lone WHERE lo BETWEEN 5 AND 5
rows 2
8
-1

SELECT id FROM Lone WHERE lo BETWEEN NULL AND 5
rows 0

SELECT id FROM Lone WHERE NOT lo BETWEEN NULL AND 4
rows 4
8
1
0
-1

SELECT id FROM Lone WHERE NOT lo BETWEEN 2 AND NULL
rows 6
9
5
4
3
2
\N

SELECT id FROM Lone WHERE NULL BETWEEN lo AND hi OR id = 4
rows 1
4

SELECT id FROM Lone WHERE x BETWEEN -9223372036854775807 AND 9223372036854775807
rows 11
9
8
7
6
5
3
1
0
-1
-2
\N

SELECT id FROM Lone WHERE lo BETWEEN 9223372036854775807 AND 9223372036854775807
rows 2
1
0

SELECT id FROM Lone WHERE x BETWEEN x AND x
rows 12
9
8
7
6
5
3
2
1
0
-1
-2
\N

SELECT id FROM Lone WHERE lo BETWEEN lo AND hi AND x > 0
rows 3
9
7
1

SELECT id FROM Lone WHERE x BETWEEN lo AND hi AND s < t
rows 4
9
3
2
\N

SELECT id FROM Lone WHERE x BETWEEN lo AND hi OR x BETWEEN hi AND lo
rows 8
9
8
7
3
2
1
0
\N

SELECT id FROM Lone WHERE NOT (x BETWEEN lo AND 2 OR x BETWEEN hi AND lo)
rows 3
9
6
5

SELECT id FROM Lone WHERE ok AND x BETWEEN lo AND hi
rows 5
9
7
3
1
\N

SELECT id FROM Lone WHERE x BETWEEN lo AND hi AND ok
rows 5
9
7
3
1
\N

SELECT id FROM Lone WHERE x BETWEEN lo AND hi AND lo BETWEEN 1 AND 4 AND hi BETWEEN lo AND 9
rows 2
9
7

SELECT id FROM Lone WHERE s BETWEEN 'a' AND 'b'
rows 6
9
8
7
5
3
2

SELECT id FROM Lone WHERE s BETWEEN t AND 'b'
rows 3
8
7
4

SELECT id FROM Lone WHERE 'ab' BETWEEN s AND t
rows 2
9
7

SELECT id FROM Lone WHERE NOT s BETWEEN 'a' AND t
rows 4
8
4
1
\N

SELECT id FROM Lone WHERE t BETWEEN 'a text that is longer than sixteen bytes' AND 'abcdefghijklmnopr'
rows 3
7
3
2

SELECT id FROM Lone WHERE x BETWEEN lo AND hi AND s BETWEEN t AND 'z'
rows 1
7

SELECT id FROM Lone WHERE ok BETWEEN FALSE AND TRUE
rows 11
9
8
7
6
4
3
2
1
0
-2
\N

SELECT k FROM Owners WHERE seal BETWEEN b'\x00' AND b'\x61'
rows 4
\N
-1
2
255

SELECT COUNT(*) FROM Owners WHERE a BETWEEN 1 AND 3 AND v BETWEEN a AND 7
rows 1
4

SELECT COUNT(*) FROM Owners WHERE k BETWEEN 0 AND 3
rows 1
4

SELECT name FROM Owners WHERE k BETWEEN 4 AND 0
rows 0

SELECT name FROM Owners WHERE 2 BETWEEN a AND v
rows 3
a text that is longer than sixteen bytes
b
ab

SELECT x FROM Lone WHERE x BETWEEN lo + 1 AND hi
refused 62

SELECT x FROM Lone WHERE x BETWEEN lo AND DIV(4, x)
refused 62

SELECT x FROM Lone WHERE x > 0 AND x BETWEEN lo AND DIV(9, x)
rows 3
3
3
3

SELECT x FROM Lone WHERE x BETWEEN 5 AND 9 AND DIV(4, x) = 0
rows 0

SELECT x FROM Lone WHERE DIV(4, x) = 0 AND x BETWEEN 5 AND 9
rows 0

SELECT x FROM Lone WHERE x BETWEEN lo AND hi OR DIV(4, x) = 0
refused 62

SELECT x FROM Lone WHERE x BETWEEN lo AND hi AND x + 1 > 0
refused 62

SELECT x FROM Lone WHERE id < 9 AND x BETWEEN -3 AND 3 AND x + 1 > 0
rows 8
3
3
3
3
0
0
3
3

SELECT o.k, p.p FROM Owners o JOIN Pets p ON p.k = o.k AND p.n BETWEEN o.a AND o.v
rows 3
1,3
1,2
255,1

SELECT o.k, p.p FROM Owners o LEFT JOIN Pets p ON p.k = o.k AND o.a BETWEEN p.m AND p.n
rows 11
\N,\N
-9223372036854775808,\N
-1,\N
0,\N
1,3
1,2
2,\N
3,\N
255,\N
256,\N
9223372036854775807,\N

SELECT o.k, p.p FROM Owners o LEFT JOIN Pets p ON p.k = o.k AND NOT p.n BETWEEN o.a AND o.v
rows 12
\N,\N
-9223372036854775808,\N
-1,\N
0,9223372036854775807
0,0
0,-9223372036854775808
1,1
2,\N
3,1
255,\N
256,\N
9223372036854775807,8

SELECT o.k FROM Owners o JOIN Pets p ON p.k = o.k WHERE o.a BETWEEN p.n AND p.m OR p.m BETWEEN 0 AND o.a
rows 5
0
1
1
1
9223372036854775807

SELECT COUNT(*) FROM Owners o JOIN Pets p ON p.k = o.k WHERE 3 BETWEEN o.a AND p.n
rows 1
1

SELECT t.toy FROM Owners o JOIN Pets p ON p.k = o.k JOIN Toys t ON t.k = p.k AND t.p = p.p AND t.n BETWEEN p.m AND o.a
rows 3
a
b
z

SELECT t.toy FROM Owners o JOIN Pets p ON p.k = o.k JOIN Toys t ON t.k = p.k AND t.p = p.p WHERE t.n BETWEEN p.m AND 4 AND o.v BETWEEN t.n AND 9223372036854775807
rows 3
a
b
a toy of more than sixteen bytes

SELECT p.n FROM Owners o JOIN Pets p ON p.k = o.k AND p.p BETWEEN o.k AND 9 AND p.name BETWEEN 'a' AND 'u'
rows 3
4
9223372036854775807
2

SELECT w.w FROM Words w JOIN Uses u ON u.w = w.w AND u.w BETWEEN w.w AND 'abcdefghijklmnop' AND u.n BETWEEN w.n AND w.n
rows 4
a
abcdefgh
abcdefghi
abcdefghijklmnop

SELECT d.n FROM Falls d JOIN Drops r ON r.k = d.k AND d.k BETWEEN -9223372036854775807 AND 300 AND r.n BETWEEN r.m AND 3
rows 1
2

SELECT r.n FROM Falls d JOIN Drops r ON r.k = d.k WHERE r.m BETWEEN DIV(2, d.n) AND 9
refused 62

SELECT r.n FROM Falls d JOIN Drops r ON r.k = d.k AND d.n > 0 WHERE r.m BETWEEN DIV(2, d.n) AND 9
rows 2
2
9

SELECT COUNT(*) FROM Lone a JOIN Lone b ON a.x BETWEEN b.lo AND b.hi AND b.id BETWEEN 5 AND a.id
rows 1
4

SELECT id FROM Lone WHERE CASE WHEN x BETWEEN lo AND hi THEN ok ELSE s = '' END
rows 6
9
7
4
3
1
\N

SELECT id FROM Lone WHERE IF(x BETWEEN hi AND lo, s, t) = 'a'
rows 1
-2

SELECT ok, COUNT(*) FROM Lone WHERE x BETWEEN lo AND hi GROUP BY ok HAVING COUNT(*) BETWEEN 1 AND 3
rows 1
false,1

param lo INT64 -9223372036854775808
param hi INT64 0
SELECT id FROM Lone WHERE x BETWEEN @lo AND @hi
rows 4
3
2
0
\N

param lo INT64 -9223372036854775808
SELECT id, lo FROM Lone WHERE @lo BETWEEN lo AND hi
rows 2
3,-9223372036854775808
2,-9223372036854775808

param lo INT64 -9223372036854775808
param hi INT64 9223372036854775807
SELECT COUNT(*) FROM Owners WHERE v BETWEEN @lo AND @hi
rows 1
8

param lo INT64 \N
SELECT id FROM Lone WHERE NOT x BETWEEN @lo AND 2
rows 8
9
8
7
6
5
1
-1
-2

param k INT64 -9223372036854775808
SELECT d.s, r.n FROM Falls d LEFT JOIN Drops r ON r.k = d.k WHERE d.k = @k AND r.m > 1
rows 1
low,9

param k INT64 255
param s STRING a toy of more than sixteen bytes
SELECT o.v, t.n FROM Owners o JOIN Pets p ON p.k = o.k JOIN Toys t ON t.k = p.k AND t.p = p.p WHERE o.k = @k AND t.toy = @s
rows 1
7,1

param city STRING ab
SELECT p.word, r.n FROM Parts p LEFT JOIN Roads r ON r.city = p.city AND r.d = p.d WHERE p.city = @city AND p.n >= 0
rows 2
x,0
z,\N

param w STRING abcdefgh
param last STRING abcdefghijklmnop
SELECT u.n FROM Words w JOIN Uses u ON u.w = w.w WHERE w.w BETWEEN @w AND @last AND w.m > 1
rows 2
6
7

# arithmetic on columns in conditions: a NULL operand, a number outside INT64, a divisor of 0
SELECT k FROM Owners WHERE a + 1 > 4
rows 3
0
1
9223372036854775807

SELECT k FROM Owners WHERE NOT (a + 1 > 4)
rows 6
\N
-9223372036854775808
2
3
255
256

SELECT k FROM Owners WHERE 10 - a > 7
rows 5
\N
-9223372036854775808
2
255
256

SELECT k FROM Owners WHERE k > 0 AND k < 300 AND a * 2 - k > 3
rows 1
1

SELECT k FROM Owners WHERE k < 1 AND v + 1 > 0
rows 1
-1

SELECT k FROM Owners WHERE v + 1 > 0
refused 62

SELECT k FROM Owners WHERE v - 1 < 0
refused 62

SELECT k FROM Owners WHERE v * 2 < 0
refused 62

SELECT k FROM Owners WHERE -(a - 2) * 3 >= 0
rows 5
\N
-9223372036854775808
2
255
256

SELECT k FROM Owners WHERE MOD(v, 2) = 1
rows 5
\N
1
3
255
256

SELECT k FROM Owners WHERE MOD(v, -1) = 0
rows 8
\N
-1
0
1
2
3
255
256

SELECT k FROM Owners WHERE MOD(v, a) = 0
refused 62

SELECT k FROM Owners WHERE a <> 0 AND MOD(v, a) > 1
rows 2
1
3

SELECT k FROM Owners WHERE DIV(v, -1) < 0
refused 62

SELECT k FROM Owners WHERE DIV(v, 2) - a > 0
rows 2
1
255

SELECT k FROM Owners WHERE a BETWEEN 5 - a AND a * 2
rows 4
0
1
3
9223372036854775807

SELECT v - a, -a FROM Owners WHERE k > 0 AND k < 300
rows 5
9223372036854775803,-4
0,-2
2,-3
7,0
0,-1

SELECT v - a FROM Owners WHERE k < 1
refused 62

SELECT SUM(a * 2 - 1), MIN(-a), MAX(a - 3), COUNT(a + 1) FROM Owners
rows 1
35,-5,2,9

SELECT SUM(v + a) FROM Owners
refused 62

SELECT o.k, p.p FROM Owners o JOIN Pets p ON p.k = o.k AND p.n < 300 AND o.k < 256 AND p.n + o.a > 3
rows 6
0,9223372036854775807
0,0
0,-9223372036854775808
1,3
1,1
3,1

# IN of columns and literals
SELECT k FROM Owners WHERE a IN (k, v, 4)
rows 5
0
1
2
3
256

SELECT k FROM Owners WHERE a NOT IN (k, v, 4)
rows 1
255

SELECT k FROM Owners WHERE NOT a IN (1, 4)
rows 5
-9223372036854775808
2
3
255
9223372036854775807

SELECT k FROM Owners WHERE name IN ('ab', 'b', name) AND a IN (0, 2)
rows 3
-9223372036854775808
2
255

SELECT k FROM Owners WHERE seal IN (b'\x00', b'a')
rows 3
\N
2
255

SELECT k FROM Owners WHERE a IN (4, NULL) OR a NOT IN (5, NULL)
rows 2
0
1

SELECT k FROM Owners WHERE a IN (4, 1, DIV(4, a))
refused 62

SELECT k FROM Owners WHERE a <> 0 AND a IN (4, 1, DIV(4, a))
rows 6
\N
-9223372036854775808
0
1
2
256

# Texts outside the key that are longer than those that a value keeps by itself.
SELECT COUNT(*) FROM Owners WHERE name <> 'a text that is longer than sixteen bytes'
rows 1
7

SELECT COUNT(*) FROM Owners WHERE name > 'a text that is longer than sixteen bytes'
rows 1
6

SELECT COUNT(*) FROM Owners WHERE name >= 'a text that is longer than sixteen bytes' AND v > 1
rows 1
5

SELECT COUNT(*) FROM Owners WHERE name <= 'a text that is longer than sixteen bytes'
rows 1
3

SELECT k, name FROM Owners WHERE name <= 'a text that is longer than sixteen bytez' AND v > 1
rows 3
\N,a text that is longer than sixteen bytes
1,a text that is longer than sixteen bytes
3,a text that is longer than sixteen bytez

SELECT COUNT(*) FROM Owners WHERE 'a text that is longer than sixteen byte' < name
rows 1
8

SELECT COUNT(*) FROM Owners WHERE name BETWEEN 'a text that is longer than sixteen bytes' AND 'a text that is longer than sixteen bytes'
rows 1
2

SELECT COUNT(*) FROM Owners WHERE name LIKE '%longer than sixteen byte_'
rows 1
3

SELECT name FROM Owners WHERE name LIKE '%sixteen bytez' AND ok
rows 0

SELECT COUNT(*) FROM Owners WHERE name LIKE '' OR name LIKE '%bytes'
rows 1
3
