# Arithmetic at the ends of INT64: x.n is the least and y.n the greatest.

SELECT x.n + 0 FROM Kinds x JOIN Kinds y ON x.id = 2 AND y.id = 3
rows 1
-9223372036854775808

SELECT x.n + 1 FROM Kinds x JOIN Kinds y ON x.id = 2 AND y.id = 3
rows 1
-9223372036854775807

SELECT x.n + -1 FROM Kinds x JOIN Kinds y ON x.id = 2 AND y.id = 3
refused 62

SELECT y.n + 1 FROM Kinds x JOIN Kinds y ON x.id = 2 AND y.id = 3
refused 62

SELECT y.n + -1 FROM Kinds x JOIN Kinds y ON x.id = 2 AND y.id = 3
rows 1
9223372036854775806

SELECT x.n + y.n FROM Kinds x JOIN Kinds y ON x.id = 2 AND y.id = 3
rows 1
-1

SELECT y.n + x.n FROM Kinds x JOIN Kinds y ON x.id = 2 AND y.id = 3
rows 1
-1

SELECT x.n + x.n FROM Kinds x JOIN Kinds y ON x.id = 2 AND y.id = 3
refused 62

SELECT y.n + y.n FROM Kinds x JOIN Kinds y ON x.id = 2 AND y.id = 3
refused 62

SELECT y.n + 2 FROM Kinds x JOIN Kinds y ON x.id = 2 AND y.id = 3
refused 62

SELECT -4611686018427387904 + 2 FROM Kinds x JOIN Kinds y ON x.id = 2 AND y.id = 3
rows 1
-4611686018427387902

SELECT 4611686018427387904 + 2 FROM Kinds x JOIN Kinds y ON x.id = 2 AND y.id = 3
rows 1
4611686018427387906

SELECT 3037000500 + 3037000500 FROM Kinds x JOIN Kinds y ON x.id = 2 AND y.id = 3
rows 1
6074001000

SELECT 3037000499 + -3037000499 FROM Kinds x JOIN Kinds y ON x.id = 2 AND y.id = 3
rows 1
0

SELECT x.n - 0 FROM Kinds x JOIN Kinds y ON x.id = 2 AND y.id = 3
rows 1
-9223372036854775808

SELECT x.n - 1 FROM Kinds x JOIN Kinds y ON x.id = 2 AND y.id = 3
refused 62

SELECT x.n - -1 FROM Kinds x JOIN Kinds y ON x.id = 2 AND y.id = 3
rows 1
-9223372036854775807

SELECT y.n - 1 FROM Kinds x JOIN Kinds y ON x.id = 2 AND y.id = 3
rows 1
9223372036854775806

SELECT y.n - -1 FROM Kinds x JOIN Kinds y ON x.id = 2 AND y.id = 3
refused 62

SELECT x.n - y.n FROM Kinds x JOIN Kinds y ON x.id = 2 AND y.id = 3
refused 62

SELECT y.n - x.n FROM Kinds x JOIN Kinds y ON x.id = 2 AND y.id = 3
refused 62

SELECT x.n - x.n FROM Kinds x JOIN Kinds y ON x.id = 2 AND y.id = 3
rows 1
0

SELECT y.n - y.n FROM Kinds x JOIN Kinds y ON x.id = 2 AND y.id = 3
rows 1
0

SELECT y.n - 2 FROM Kinds x JOIN Kinds y ON x.id = 2 AND y.id = 3
rows 1
9223372036854775805

SELECT -4611686018427387904 - 2 FROM Kinds x JOIN Kinds y ON x.id = 2 AND y.id = 3
rows 1
-4611686018427387906

SELECT 4611686018427387904 - 2 FROM Kinds x JOIN Kinds y ON x.id = 2 AND y.id = 3
rows 1
4611686018427387902

SELECT 3037000500 - 3037000500 FROM Kinds x JOIN Kinds y ON x.id = 2 AND y.id = 3
rows 1
0

SELECT 3037000499 - -3037000499 FROM Kinds x JOIN Kinds y ON x.id = 2 AND y.id = 3
rows 1
6074000998

SELECT x.n * 0 FROM Kinds x JOIN Kinds y ON x.id = 2 AND y.id = 3
rows 1
0

SELECT x.n * 1 FROM Kinds x JOIN Kinds y ON x.id = 2 AND y.id = 3
rows 1
-9223372036854775808

SELECT x.n * -1 FROM Kinds x JOIN Kinds y ON x.id = 2 AND y.id = 3
refused 62

SELECT y.n * 1 FROM Kinds x JOIN Kinds y ON x.id = 2 AND y.id = 3
rows 1
9223372036854775807

SELECT y.n * -1 FROM Kinds x JOIN Kinds y ON x.id = 2 AND y.id = 3
rows 1
-9223372036854775807

SELECT x.n * y.n FROM Kinds x JOIN Kinds y ON x.id = 2 AND y.id = 3
refused 62

SELECT y.n * x.n FROM Kinds x JOIN Kinds y ON x.id = 2 AND y.id = 3
refused 62

SELECT x.n * x.n FROM Kinds x JOIN Kinds y ON x.id = 2 AND y.id = 3
refused 62

SELECT y.n * y.n FROM Kinds x JOIN Kinds y ON x.id = 2 AND y.id = 3
refused 62

SELECT y.n * 2 FROM Kinds x JOIN Kinds y ON x.id = 2 AND y.id = 3
refused 62

SELECT -4611686018427387904 * 2 FROM Kinds x JOIN Kinds y ON x.id = 2 AND y.id = 3
rows 1
-9223372036854775808

SELECT 4611686018427387904 * 2 FROM Kinds x JOIN Kinds y ON x.id = 2 AND y.id = 3
refused 62

SELECT 3037000500 * 3037000500 FROM Kinds x JOIN Kinds y ON x.id = 2 AND y.id = 3
refused 62

SELECT 3037000499 * -3037000499 FROM Kinds x JOIN Kinds y ON x.id = 2 AND y.id = 3
rows 1
-9223372030926249001

SELECT DIV(x.n, 0) FROM Kinds x JOIN Kinds y ON x.id = 2 AND y.id = 3
refused 62

SELECT DIV(x.n, 1) FROM Kinds x JOIN Kinds y ON x.id = 2 AND y.id = 3
rows 1
-9223372036854775808

SELECT DIV(x.n, -1) FROM Kinds x JOIN Kinds y ON x.id = 2 AND y.id = 3
refused 62

SELECT DIV(y.n, 1) FROM Kinds x JOIN Kinds y ON x.id = 2 AND y.id = 3
rows 1
9223372036854775807

SELECT DIV(y.n, -1) FROM Kinds x JOIN Kinds y ON x.id = 2 AND y.id = 3
rows 1
-9223372036854775807

SELECT DIV(x.n, y.n) FROM Kinds x JOIN Kinds y ON x.id = 2 AND y.id = 3
rows 1
-1

SELECT DIV(y.n, x.n) FROM Kinds x JOIN Kinds y ON x.id = 2 AND y.id = 3
rows 1
0

SELECT DIV(x.n, x.n) FROM Kinds x JOIN Kinds y ON x.id = 2 AND y.id = 3
rows 1
1

SELECT DIV(y.n, y.n) FROM Kinds x JOIN Kinds y ON x.id = 2 AND y.id = 3
rows 1
1

SELECT DIV(y.n, 2) FROM Kinds x JOIN Kinds y ON x.id = 2 AND y.id = 3
rows 1
4611686018427387903

SELECT DIV(-4611686018427387904, 2) FROM Kinds x JOIN Kinds y ON x.id = 2 AND y.id = 3
rows 1
-2305843009213693952

SELECT DIV(4611686018427387904, 2) FROM Kinds x JOIN Kinds y ON x.id = 2 AND y.id = 3
rows 1
2305843009213693952

SELECT DIV(3037000500, 3037000500) FROM Kinds x JOIN Kinds y ON x.id = 2 AND y.id = 3
rows 1
1

SELECT DIV(3037000499, -3037000499) FROM Kinds x JOIN Kinds y ON x.id = 2 AND y.id = 3
rows 1
-1

SELECT DIV(1, 0) FROM Kinds x JOIN Kinds y ON x.id = 2 AND y.id = 3
refused 62

SELECT DIV(0, 0) FROM Kinds x JOIN Kinds y ON x.id = 2 AND y.id = 3
refused 62

SELECT DIV(0, -5) FROM Kinds x JOIN Kinds y ON x.id = 2 AND y.id = 3
rows 1
0

SELECT DIV(7, 2) FROM Kinds x JOIN Kinds y ON x.id = 2 AND y.id = 3
rows 1
3

SELECT DIV(-7, 2) FROM Kinds x JOIN Kinds y ON x.id = 2 AND y.id = 3
rows 1
-3

SELECT DIV(7, -2) FROM Kinds x JOIN Kinds y ON x.id = 2 AND y.id = 3
rows 1
-3

SELECT DIV(-7, -2) FROM Kinds x JOIN Kinds y ON x.id = 2 AND y.id = 3
rows 1
3

SELECT DIV(6, -3) FROM Kinds x JOIN Kinds y ON x.id = 2 AND y.id = 3
rows 1
-2

SELECT DIV(-6, 3) FROM Kinds x JOIN Kinds y ON x.id = 2 AND y.id = 3
rows 1
-2

SELECT DIV(1, x.n) FROM Kinds x JOIN Kinds y ON x.id = 2 AND y.id = 3
rows 1
0

SELECT DIV(-1, x.n) FROM Kinds x JOIN Kinds y ON x.id = 2 AND y.id = 3
rows 1
0

SELECT DIV(1, y.n) FROM Kinds x JOIN Kinds y ON x.id = 2 AND y.id = 3
rows 1
0

SELECT MOD(x.n, 0) FROM Kinds x JOIN Kinds y ON x.id = 2 AND y.id = 3
refused 62

SELECT MOD(x.n, 1) FROM Kinds x JOIN Kinds y ON x.id = 2 AND y.id = 3
rows 1
0

SELECT MOD(x.n, -1) FROM Kinds x JOIN Kinds y ON x.id = 2 AND y.id = 3
rows 1
0

SELECT MOD(y.n, 1) FROM Kinds x JOIN Kinds y ON x.id = 2 AND y.id = 3
rows 1
0

SELECT MOD(y.n, -1) FROM Kinds x JOIN Kinds y ON x.id = 2 AND y.id = 3
rows 1
0

SELECT MOD(x.n, y.n) FROM Kinds x JOIN Kinds y ON x.id = 2 AND y.id = 3
rows 1
-1

SELECT MOD(y.n, x.n) FROM Kinds x JOIN Kinds y ON x.id = 2 AND y.id = 3
rows 1
9223372036854775807

SELECT MOD(x.n, x.n) FROM Kinds x JOIN Kinds y ON x.id = 2 AND y.id = 3
rows 1
0

SELECT MOD(y.n, y.n) FROM Kinds x JOIN Kinds y ON x.id = 2 AND y.id = 3
rows 1
0

SELECT MOD(y.n, 2) FROM Kinds x JOIN Kinds y ON x.id = 2 AND y.id = 3
rows 1
1

SELECT MOD(-4611686018427387904, 2) FROM Kinds x JOIN Kinds y ON x.id = 2 AND y.id = 3
rows 1
0

SELECT MOD(4611686018427387904, 2) FROM Kinds x JOIN Kinds y ON x.id = 2 AND y.id = 3
rows 1
0

SELECT MOD(3037000500, 3037000500) FROM Kinds x JOIN Kinds y ON x.id = 2 AND y.id = 3
rows 1
0

SELECT MOD(3037000499, -3037000499) FROM Kinds x JOIN Kinds y ON x.id = 2 AND y.id = 3
rows 1
0

SELECT MOD(1, 0) FROM Kinds x JOIN Kinds y ON x.id = 2 AND y.id = 3
refused 62

SELECT MOD(0, 0) FROM Kinds x JOIN Kinds y ON x.id = 2 AND y.id = 3
refused 62

SELECT MOD(0, -5) FROM Kinds x JOIN Kinds y ON x.id = 2 AND y.id = 3
rows 1
0

SELECT MOD(7, 2) FROM Kinds x JOIN Kinds y ON x.id = 2 AND y.id = 3
rows 1
1

SELECT MOD(-7, 2) FROM Kinds x JOIN Kinds y ON x.id = 2 AND y.id = 3
rows 1
-1

SELECT MOD(7, -2) FROM Kinds x JOIN Kinds y ON x.id = 2 AND y.id = 3
rows 1
1

SELECT MOD(-7, -2) FROM Kinds x JOIN Kinds y ON x.id = 2 AND y.id = 3
rows 1
-1

SELECT MOD(6, -3) FROM Kinds x JOIN Kinds y ON x.id = 2 AND y.id = 3
rows 1
0

SELECT MOD(-6, 3) FROM Kinds x JOIN Kinds y ON x.id = 2 AND y.id = 3
rows 1
0

SELECT MOD(1, x.n) FROM Kinds x JOIN Kinds y ON x.id = 2 AND y.id = 3
rows 1
1

SELECT MOD(-1, x.n) FROM Kinds x JOIN Kinds y ON x.id = 2 AND y.id = 3
rows 1
-1

SELECT MOD(1, y.n) FROM Kinds x JOIN Kinds y ON x.id = 2 AND y.id = 3
rows 1
1

SELECT -x.n FROM Kinds x JOIN Kinds y ON x.id = 2 AND y.id = 3
refused 62

SELECT -y.n FROM Kinds x JOIN Kinds y ON x.id = 2 AND y.id = 3
rows 1
-9223372036854775807

SELECT -(-y.n) FROM Kinds x JOIN Kinds y ON x.id = 2 AND y.id = 3
rows 1
9223372036854775807

SELECT -(x.n + 1) FROM Kinds x JOIN Kinds y ON x.id = 2 AND y.id = 3
rows 1
9223372036854775807

SELECT -(-x.n) FROM Kinds x JOIN Kinds y ON x.id = 2 AND y.id = 3
refused 62

# Every operator on NULL, beside a value and beside a fault.

SELECT NULL + 1 FROM Kinds WHERE id = 1
rows 1
\N

SELECT 1 + NULL FROM Kinds WHERE id = 1
rows 1
\N

SELECT NULL + NULL FROM Kinds WHERE id = 1
rows 1
\N

SELECT n - 1 FROM Kinds WHERE id = 1
rows 1
\N

SELECT 1 - n FROM Kinds WHERE id = 1
rows 1
\N

SELECT n * 2 FROM Kinds WHERE id = 1
rows 1
\N

SELECT n * NULL FROM Kinds WHERE id = 1
rows 1
\N

SELECT -n FROM Kinds WHERE id = 1
rows 1
\N

SELECT DIV(n, 0) FROM Kinds WHERE id = 1
rows 1
\N

SELECT DIV(0, n) FROM Kinds WHERE id = 1
rows 1
\N

SELECT DIV(NULL, 0) FROM Kinds WHERE id = 1
rows 1
\N

SELECT MOD(n, 0) FROM Kinds WHERE id = 1
rows 1
\N

SELECT MOD(NULL, 0) FROM Kinds WHERE id = 1
rows 1
\N

SELECT MOD(1, n) FROM Kinds WHERE id = 1
rows 1
\N

SELECT n = 1 FROM Kinds WHERE id = 1
rows 1
\N

SELECT n = n FROM Kinds WHERE id = 1
rows 1
\N

SELECT n <> n FROM Kinds WHERE id = 1
rows 1
\N

SELECT NULL = NULL FROM Kinds WHERE id = 1
rows 1
\N

SELECT s < 'a' FROM Kinds WHERE id = 1
rows 1
\N

SELECT b >= b FROM Kinds WHERE id = 1
rows 1
\N

SELECT t <> TRUE FROM Kinds WHERE id = 1
rows 1
\N

SELECT t = t FROM Kinds WHERE id = 1
rows 1
\N

SELECT s LIKE '%' FROM Kinds WHERE id = 1
rows 1
\N

SELECT s NOT LIKE '' FROM Kinds WHERE id = 1
rows 1
\N

SELECT NULL LIKE 'a' FROM Kinds WHERE id = 1
rows 1
\N

SELECT s || 'a' FROM Kinds WHERE id = 1
rows 1
\N

SELECT 'a' || s FROM Kinds WHERE id = 1
rows 1
\N

SELECT NULL || NULL FROM Kinds WHERE id = 1
rows 1
\N

SELECT b || b'a' FROM Kinds WHERE id = 1
rows 1
\N

SELECT STARTS_WITH(s, '') FROM Kinds WHERE id = 1
rows 1
\N

SELECT STARTS_WITH('', s) FROM Kinds WHERE id = 1
rows 1
\N

SELECT STARTS_WITH(b, b'') FROM Kinds WHERE id = 1
rows 1
\N

SELECT STARTS_WITH(NULL, NULL) FROM Kinds WHERE id = 1
rows 1
\N

SELECT LENGTH(s) FROM Kinds WHERE id = 1
rows 1
\N

SELECT LENGTH(b) FROM Kinds WHERE id = 1
rows 1
\N

SELECT LENGTH(NULL) FROM Kinds WHERE id = 1
rows 1
\N

SELECT NOT t FROM Kinds WHERE id = 1
rows 1
\N

SELECT NOT NULL FROM Kinds WHERE id = 1
rows 1
\N

SELECT n BETWEEN 1 AND 2 FROM Kinds WHERE id = 1
rows 1
\N

SELECT 1 BETWEEN n AND 2 FROM Kinds WHERE id = 1
rows 1
\N

SELECT 1 BETWEEN 2 AND n FROM Kinds WHERE id = 1
rows 1
false

SELECT n IN (1) FROM Kinds WHERE id = 1
rows 1
\N

SELECT n IN (n) FROM Kinds WHERE id = 1
rows 1
\N

SELECT 1 IN (n) FROM Kinds WHERE id = 1
rows 1
\N

SELECT 1 IN (n, 1) FROM Kinds WHERE id = 1
rows 1
true

SELECT n NOT IN (1, 2) FROM Kinds WHERE id = 1
rows 1
\N

SELECT n + 1 IS NULL FROM Kinds WHERE id = 1
rows 1
true

SELECT n IS NOT NULL FROM Kinds WHERE id = 1
rows 1
false

SELECT NULL + DIV(1, 0) FROM Kinds WHERE id = 1
refused 62

SELECT DIV(1, 0) + NULL FROM Kinds WHERE id = 1
refused 62

SELECT n - DIV(1, 0) FROM Kinds WHERE id = 1
refused 62

SELECT n * DIV(1, 0) FROM Kinds WHERE id = 1
refused 62

SELECT -DIV(1, 0) FROM Kinds WHERE id = 1
refused 62

SELECT DIV(n, DIV(1, 0)) FROM Kinds WHERE id = 1
refused 62

SELECT MOD(DIV(1, 0), n) FROM Kinds WHERE id = 1
refused 62

SELECT NULL = DIV(1, 0) FROM Kinds WHERE id = 1
refused 62

SELECT DIV(1, 0) <> n FROM Kinds WHERE id = 1
refused 62

SELECT DIV(1, 0) = DIV(1, 0) FROM Kinds WHERE id = 1
refused 62

SELECT DIV(1, 0) IS NULL FROM Kinds WHERE id = 1
refused 62

SELECT DIV(1, 0) IS NOT NULL FROM Kinds WHERE id = 1
refused 62

SELECT n IN (DIV(1, 0)) FROM Kinds WHERE id = 1
refused 62

SELECT 1 IN (1, DIV(1, 0)) FROM Kinds WHERE id = 1
refused 62

SELECT DIV(1, 0) IN (1) FROM Kinds WHERE id = 1
refused 62

SELECT DIV(1, 0) NOT IN (NULL) FROM Kinds WHERE id = 1
refused 62

SELECT NOT (DIV(1, 0) = 1) FROM Kinds WHERE id = 1
refused 62

SELECT DIV(1, 0) BETWEEN 1 AND 2 FROM Kinds WHERE id = 1
refused 62

SELECT 1 BETWEEN 0 AND DIV(1, 0) FROM Kinds WHERE id = 1
refused 62

SELECT 1 BETWEEN DIV(1, 0) AND 2 FROM Kinds WHERE id = 1
refused 62

SELECT LENGTH(IF(DIV(1, 0) = 1, 'a', s)) FROM Kinds WHERE id = 1
refused 62

SELECT STARTS_WITH(s, IF(DIV(1, 0) = 1, 'a', 'b')) FROM Kinds WHERE id = 1
refused 62

SELECT IF(DIV(1, 0) = 1, s, s) || s FROM Kinds WHERE id = 1
refused 62

SELECT IF(DIV(1, 0) = 1, s, s) LIKE '%' FROM Kinds WHERE id = 1
refused 62

SELECT 1 BETWEEN 5 AND DIV(1, 0) FROM Kinds WHERE id = 1
rows 1
false

SELECT 1 BETWEEN DIV(1, 0) AND 0 FROM Kinds WHERE id = 1
rows 1
false

SELECT 1 NOT BETWEEN 5 AND DIV(1, 0) FROM Kinds WHERE id = 1
rows 1
true

SELECT 1 BETWEEN NULL AND DIV(1, 0) FROM Kinds WHERE id = 1
rows 1
\N

SELECT 1 BETWEEN DIV(1, 0) AND NULL FROM Kinds WHERE id = 1
rows 1
\N

SELECT 1 NOT BETWEEN NULL AND DIV(1, 0) FROM Kinds WHERE id = 1
rows 1
\N

SELECT 1 BETWEEN NULL AND 0 FROM Kinds WHERE id = 1
rows 1
false

SELECT 1 BETWEEN 5 AND NULL FROM Kinds WHERE id = 1
rows 1
false

SELECT NULL BETWEEN 1 AND 2 FROM Kinds WHERE id = 1
rows 1
\N

# AND and OR beside a fault, in both orders and in chains.

SELECT TRUE AND DIV(1, 0) = 1 FROM Kinds WHERE id = 1
refused 62

SELECT FALSE AND DIV(1, 0) = 1 FROM Kinds WHERE id = 1
rows 1
false

SELECT NULL AND DIV(1, 0) = 1 FROM Kinds WHERE id = 1
rows 1
\N

SELECT DIV(1, 0) = 1 AND TRUE FROM Kinds WHERE id = 1
refused 62

SELECT DIV(1, 0) = 1 AND FALSE FROM Kinds WHERE id = 1
rows 1
false

SELECT DIV(1, 0) = 1 AND NULL FROM Kinds WHERE id = 1
rows 1
\N

SELECT DIV(1, 0) = 1 AND DIV(1, 0) = 1 FROM Kinds WHERE id = 1
refused 62

SELECT (TRUE AND DIV(1, 0) = 1) OR TRUE FROM Kinds WHERE id = 1
rows 1
true

SELECT TRUE AND TRUE AND DIV(1, 0) = 1 AND FALSE FROM Kinds WHERE id = 1
rows 1
false

SELECT (FALSE AND DIV(1, 0) = 1) OR TRUE FROM Kinds WHERE id = 1
rows 1
true

SELECT TRUE AND FALSE AND DIV(1, 0) = 1 AND FALSE FROM Kinds WHERE id = 1
rows 1
false

SELECT (NULL AND DIV(1, 0) = 1) OR TRUE FROM Kinds WHERE id = 1
rows 1
true

SELECT TRUE AND NULL AND DIV(1, 0) = 1 AND FALSE FROM Kinds WHERE id = 1
rows 1
false

SELECT TRUE AND TRUE, TRUE AND FALSE, TRUE AND NULL, FALSE AND TRUE, FALSE AND FALSE, FALSE AND NULL, NULL AND TRUE, NULL AND FALSE, NULL AND NULL FROM Kinds WHERE id = 1
rows 1
true,false,\N,false,false,false,\N,false,\N

SELECT TRUE OR DIV(1, 0) = 1 FROM Kinds WHERE id = 1
rows 1
true

SELECT FALSE OR DIV(1, 0) = 1 FROM Kinds WHERE id = 1
refused 62

SELECT NULL OR DIV(1, 0) = 1 FROM Kinds WHERE id = 1
rows 1
\N

SELECT DIV(1, 0) = 1 OR TRUE FROM Kinds WHERE id = 1
rows 1
true

SELECT DIV(1, 0) = 1 OR FALSE FROM Kinds WHERE id = 1
refused 62

SELECT DIV(1, 0) = 1 OR NULL FROM Kinds WHERE id = 1
rows 1
\N

SELECT DIV(1, 0) = 1 OR DIV(1, 0) = 1 FROM Kinds WHERE id = 1
refused 62

SELECT (TRUE OR DIV(1, 0) = 1) AND FALSE FROM Kinds WHERE id = 1
rows 1
false

SELECT TRUE OR TRUE OR DIV(1, 0) = 1 OR FALSE FROM Kinds WHERE id = 1
rows 1
true

SELECT (FALSE OR DIV(1, 0) = 1) AND FALSE FROM Kinds WHERE id = 1
rows 1
false

SELECT TRUE OR FALSE OR DIV(1, 0) = 1 OR FALSE FROM Kinds WHERE id = 1
rows 1
true

SELECT (NULL OR DIV(1, 0) = 1) AND FALSE FROM Kinds WHERE id = 1
rows 1
false

SELECT TRUE OR NULL OR DIV(1, 0) = 1 OR FALSE FROM Kinds WHERE id = 1
rows 1
true

SELECT TRUE OR TRUE, TRUE OR FALSE, TRUE OR NULL, FALSE OR TRUE, FALSE OR FALSE, FALSE OR NULL, NULL OR TRUE, NULL OR FALSE, NULL OR NULL FROM Kinds WHERE id = 1
rows 1
true,true,true,true,false,\N,true,\N,\N

# Comparisons of every pair of values.

SELECT id FROM Kinds
rows 8
8
7
6
5
4
3
2
1

SELECT * FROM Kinds
rows 8
8,\N,abc,\x616263,false
7,0,"a,""b""",\N,true
6,7,ABC,\xff,\N
5,-7,abc,\x616263,false
4,0,a%b_c\\d,\x00,true
3,9223372036854775807,é漢😀,\x00ff80,true
2,-9223372036854775808,,\x,false
1,\N,\N,\N,\N

SELECT * FROM Marks
rows 9
true,\N,é,5
true,\x,,4
true,\x61,b,1
true,\x61,a,2
true,\x61,\N,3
false,\x61,b,6
false,\x6100,b,\N
\N,\N,\N,8
\N,\xff,z,7

SELECT x.id, y.id, x.n = y.n, x.n <> y.n, x.n < y.n, x.n <= y.n, x.n > y.n, x.n >= y.n, x.n != y.n FROM Kinds x JOIN Kinds y ON x.id <= y.id
rows 36
8,8,\N,\N,\N,\N,\N,\N,\N
7,8,\N,\N,\N,\N,\N,\N,\N
7,7,true,false,false,true,false,true,false
6,8,\N,\N,\N,\N,\N,\N,\N
6,7,false,true,false,false,true,true,true
6,6,true,false,false,true,false,true,false
5,8,\N,\N,\N,\N,\N,\N,\N
5,7,false,true,true,true,false,false,true
5,6,false,true,true,true,false,false,true
5,5,true,false,false,true,false,true,false
4,8,\N,\N,\N,\N,\N,\N,\N
4,7,true,false,false,true,false,true,false
4,6,false,true,true,true,false,false,true
4,5,false,true,false,false,true,true,true
4,4,true,false,false,true,false,true,false
3,8,\N,\N,\N,\N,\N,\N,\N
3,7,false,true,false,false,true,true,true
3,6,false,true,false,false,true,true,true
3,5,false,true,false,false,true,true,true
3,4,false,true,false,false,true,true,true
3,3,true,false,false,true,false,true,false
2,8,\N,\N,\N,\N,\N,\N,\N
2,7,false,true,true,true,false,false,true
2,6,false,true,true,true,false,false,true
2,5,false,true,true,true,false,false,true
2,4,false,true,true,true,false,false,true
2,3,false,true,true,true,false,false,true
2,2,true,false,false,true,false,true,false
1,8,\N,\N,\N,\N,\N,\N,\N
1,7,\N,\N,\N,\N,\N,\N,\N
1,6,\N,\N,\N,\N,\N,\N,\N
1,5,\N,\N,\N,\N,\N,\N,\N
1,4,\N,\N,\N,\N,\N,\N,\N
1,3,\N,\N,\N,\N,\N,\N,\N
1,2,\N,\N,\N,\N,\N,\N,\N
1,1,\N,\N,\N,\N,\N,\N,\N

SELECT x.id, y.id, x.s = y.s, x.s <> y.s, x.s < y.s, x.s <= y.s, x.s > y.s, x.s >= y.s FROM Kinds x JOIN Kinds y ON x.id <= y.id
rows 36
8,8,true,false,false,true,false,true
7,8,false,true,true,true,false,false
7,7,true,false,false,true,false,true
6,8,false,true,true,true,false,false
6,7,false,true,true,true,false,false
6,6,true,false,false,true,false,true
5,8,true,false,false,true,false,true
5,7,false,true,false,false,true,true
5,6,false,true,false,false,true,true
5,5,true,false,false,true,false,true
4,8,false,true,true,true,false,false
4,7,false,true,true,true,false,false
4,6,false,true,false,false,true,true
4,5,false,true,true,true,false,false
4,4,true,false,false,true,false,true
3,8,false,true,false,false,true,true
3,7,false,true,false,false,true,true
3,6,false,true,false,false,true,true
3,5,false,true,false,false,true,true
3,4,false,true,false,false,true,true
3,3,true,false,false,true,false,true
2,8,false,true,true,true,false,false
2,7,false,true,true,true,false,false
2,6,false,true,true,true,false,false
2,5,false,true,true,true,false,false
2,4,false,true,true,true,false,false
2,3,false,true,true,true,false,false
2,2,true,false,false,true,false,true
1,8,\N,\N,\N,\N,\N,\N
1,7,\N,\N,\N,\N,\N,\N
1,6,\N,\N,\N,\N,\N,\N
1,5,\N,\N,\N,\N,\N,\N
1,4,\N,\N,\N,\N,\N,\N
1,3,\N,\N,\N,\N,\N,\N
1,2,\N,\N,\N,\N,\N,\N
1,1,\N,\N,\N,\N,\N,\N

SELECT x.id, y.id, x.b = y.b, x.b <> y.b, x.b < y.b, x.b <= y.b, x.b > y.b, x.b >= y.b FROM Kinds x JOIN Kinds y ON x.id <= y.id
rows 36
8,8,true,false,false,true,false,true
7,8,\N,\N,\N,\N,\N,\N
7,7,\N,\N,\N,\N,\N,\N
6,8,false,true,false,false,true,true
6,7,\N,\N,\N,\N,\N,\N
6,6,true,false,false,true,false,true
5,8,true,false,false,true,false,true
5,7,\N,\N,\N,\N,\N,\N
5,6,false,true,true,true,false,false
5,5,true,false,false,true,false,true
4,8,false,true,true,true,false,false
4,7,\N,\N,\N,\N,\N,\N
4,6,false,true,true,true,false,false
4,5,false,true,true,true,false,false
4,4,true,false,false,true,false,true
3,8,false,true,true,true,false,false
3,7,\N,\N,\N,\N,\N,\N
3,6,false,true,true,true,false,false
3,5,false,true,true,true,false,false
3,4,false,true,false,false,true,true
3,3,true,false,false,true,false,true
2,8,false,true,true,true,false,false
2,7,\N,\N,\N,\N,\N,\N
2,6,false,true,true,true,false,false
2,5,false,true,true,true,false,false
2,4,false,true,true,true,false,false
2,3,false,true,true,true,false,false
2,2,true,false,false,true,false,true
1,8,\N,\N,\N,\N,\N,\N
1,7,\N,\N,\N,\N,\N,\N
1,6,\N,\N,\N,\N,\N,\N
1,5,\N,\N,\N,\N,\N,\N
1,4,\N,\N,\N,\N,\N,\N
1,3,\N,\N,\N,\N,\N,\N
1,2,\N,\N,\N,\N,\N,\N
1,1,\N,\N,\N,\N,\N,\N

SELECT x.id, y.id, x.t = y.t, x.t <> y.t, x.t < y.t, x.t <= y.t, x.t > y.t, x.t >= y.t FROM Kinds x JOIN Kinds y ON x.id <= y.id AND x.id IN (1, 2, 3) AND y.id < 5
rows 9
3,4,true,false,false,true,false,true
3,3,true,false,false,true,false,true
2,4,false,true,true,true,false,false
2,3,false,true,true,true,false,false
2,2,true,false,false,true,false,true
1,4,\N,\N,\N,\N,\N,\N
1,3,\N,\N,\N,\N,\N,\N
1,2,\N,\N,\N,\N,\N,\N
1,1,\N,\N,\N,\N,\N,\N

SELECT x.id, y.id, STARTS_WITH(x.s, y.s), x.s || y.s FROM Kinds x JOIN Kinds y ON x.id <= y.id AND x.s || y.s IS NOT NULL
rows 28
8,8,true,abcabc
7,8,false,"a,""b""abc"
7,7,true,"a,""b""a,""b"""
6,8,false,ABCabc
6,7,false,"ABCa,""b"""
6,6,true,ABCABC
5,8,true,abcabc
5,7,false,"abca,""b"""
5,6,false,abcABC
5,5,true,abcabc
4,8,false,a%b_c\\dabc
4,7,false,"a%b_c\\da,""b"""
4,6,false,a%b_c\\dABC
4,5,false,a%b_c\\dabc
4,4,true,a%b_c\\da%b_c\\d
3,8,false,é漢😀abc
3,7,false,"é漢😀a,""b"""
3,6,false,é漢😀ABC
3,5,false,é漢😀abc
3,4,false,é漢😀a%b_c\\d
3,3,true,é漢😀é漢😀
2,8,false,abc
2,7,false,"a,""b"""
2,6,false,ABC
2,5,false,abc
2,4,false,a%b_c\\d
2,3,false,é漢😀
2,2,true,

SELECT x.id, y.id, STARTS_WITH(x.b, y.b), x.b || y.b FROM Kinds x JOIN Kinds y ON x.id >= y.id AND x.b || y.b IS NOT NULL
rows 21
8,8,true,\x616263616263
8,6,false,\x616263ff
8,5,true,\x616263616263
8,4,false,\x61626300
8,3,false,\x61626300ff80
8,2,true,\x616263
6,6,true,\xffff
6,5,false,\xff616263
6,4,false,\xff00
6,3,false,\xff00ff80
6,2,true,\xff
5,5,true,\x616263616263
5,4,false,\x61626300
5,3,false,\x61626300ff80
5,2,true,\x616263
4,4,true,\x0000
4,3,false,\x0000ff80
4,2,true,\x00
3,3,true,\x00ff8000ff80
3,2,true,\x00ff80
2,2,true,\x

SELECT x.id, y.id, x.n BETWEEN y.n AND 7, x.n NOT BETWEEN -7 AND y.n FROM Kinds x JOIN Kinds y ON x.id > 4 AND y.id < 6
rows 20
8,5,\N,\N
8,4,\N,\N
8,3,\N,\N
8,2,\N,\N
8,1,\N,\N
7,5,true,true
7,4,true,false
7,3,false,false
7,2,true,true
7,1,\N,\N
6,5,true,true
6,4,true,true
6,3,false,false
6,2,true,true
6,1,\N,\N
5,5,true,false
5,4,false,false
5,3,false,false
5,2,true,true
5,1,\N,\N

SELECT x.t AND y.t, x.t OR y.t, NOT x.t FROM Kinds x JOIN Kinds y ON x.id < 4 AND y.id < 4
rows 9
true,true,false
false,true,false
\N,true,false
false,true,true
false,false,true
false,\N,true
\N,true,\N
false,\N,\N
\N,\N,\N

# The empty text and texts of more than one byte a character.

SELECT id, LENGTH(s), LENGTH(b) FROM Kinds
rows 8
8,3,3
7,5,\N
6,3,1
5,3,3
4,7,1
3,3,3
2,0,0
1,\N,\N

SELECT LENGTH('é漢😀'), LENGTH(b'\xc3\xa9'), LENGTH(''), LENGTH(b''), LENGTH('e\u0301') FROM Kinds LIMIT 1
rows 1
3,2,0,0,2

SELECT '' = '', '' < 'a', '' || '', 'é' > 'z', '漢' < '😀', '\uffee' < '😀', 'a' < 'A', 'é' = 'e\u0301' FROM Kinds LIMIT 1
rows 1
true,true,,true,true,true,false,false

SELECT b'' = b'', b'' < b'\x00', b'\xff' > b'a', b'a\x00' > b'a', B"\x41" = b'A' FROM Kinds LIMIT 1
rows 1
true,true,true,true,true

SELECT 'é' || '漢', b'\x00' || b'\xff', '' || 'a' || '', b'' || b'' FROM Kinds LIMIT 1
rows 1
é漢,\x00ff,a,\x

SELECT STARTS_WITH('漢字', '漢'), STARTS_WITH('漢字', '字'), STARTS_WITH('', ''), STARTS_WITH('', 'a'), STARTS_WITH('ab', ''), STARTS_WITH('ab', 'abc') FROM Kinds LIMIT 1
rows 1
true,false,true,false,true,false

SELECT STARTS_WITH(b'\xe6\xbc\xa2', b'\xe6\xbc'), STARTS_WITH(b'', b''), STARTS_WITH(b'a', b'') FROM Kinds LIMIT 1
rows 1
true,true,true

SELECT '' FROM Kinds LIMIT 2
rows 2
""
""

SELECT s FROM Kinds WHERE id IN (2, 7, 1, 4)
rows 4
"a,""b"""
a%b_c\\d
""
\N

SELECT id, s FROM Kinds WHERE LENGTH(s) = 0
rows 1
2,

SELECT LENGTH('a\x00b'), 'a\x00b' = 'a', 'a\x00b' > 'a', STARTS_WITH('a\x00b', 'a\x00') FROM Kinds LIMIT 1
rows 1
3,false,true,true

SELECT 'a\x00b' LIKE 'a_b', 'a\x00b' LIKE 'a%' FROM Kinds LIMIT 1
rows 1
true,true

# LIKE.

SELECT id FROM Kinds WHERE s LIKE '%'
rows 7
8
7
6
5
4
3
2

SELECT id FROM Kinds WHERE s LIKE ''
rows 1
2

SELECT id FROM Kinds WHERE s LIKE '___'
rows 4
8
6
5
3

SELECT id FROM Kinds WHERE s LIKE 'abc'
rows 2
8
5

SELECT id FROM Kinds WHERE s LIKE 'A%'
rows 1
6

SELECT id FROM Kinds WHERE s NOT LIKE 'a%'
rows 3
6
3
2

SELECT id FROM Kinds WHERE s LIKE '%\\%%'
rows 1
4

SELECT id FROM Kinds WHERE s LIKE 'a\\%b\\_c\\\\d'
rows 1
4

SELECT id FROM Kinds WHERE s LIKE '_\\__'
rows 0

SELECT id FROM Kinds WHERE s LIKE 'a%b%'
rows 4
8
7
5
4

SELECT id FROM Kinds WHERE s LIKE '%"'
rows 1
7

SELECT id FROM Kinds WHERE s LIKE 'é_😀'
rows 1
3

SELECT id FROM Kinds WHERE s LIKE '%漢%'
rows 1
3

SELECT 'a\nb' LIKE 'a_b', '\n' LIKE '%', 'aab' LIKE '%ab', 'abab' LIKE '%ab', 'aXbXc' LIKE 'a%b%c', 'ab' LIKE 'a', '' LIKE '_', '%' LIKE '\\%', 'a' LIKE '\\%' FROM Kinds LIMIT 1
rows 1
true,true,true,true,true,false,false,true,false

SELECT '' LIKE '', '' LIKE '%', '' LIKE '%%', 'abc' LIKE '%b%', 'abc' LIKE '_%_%_', 'ab' LIKE '_%_%_', 'mississippi' LIKE '%iss%ip%', 'aaa' LIKE '%a%a%a%a%' FROM Kinds LIMIT 1
rows 1
true,true,true,true,true,false,true,false

param p STRING a%
SELECT id FROM Kinds WHERE s LIKE @p
refused 3

param p STRING abc
SELECT id FROM Kinds WHERE @p LIKE 'a%' AND s = @p
rows 2
8
5

# IN with NULL.

SELECT id FROM Kinds WHERE n IN (0, 7, NULL)
rows 3
7
6
4

SELECT id FROM Kinds WHERE n NOT IN (0, 7)
rows 3
5
3
2

SELECT id FROM Kinds WHERE n NOT IN (0, 7, NULL)
rows 0

SELECT id, n IN (0, NULL), n NOT IN (0, NULL), NULL IN (n, 0) FROM Kinds
rows 8
8,\N,\N,\N
7,true,false,\N
6,\N,\N,\N
5,\N,\N,\N
4,true,false,\N
3,\N,\N,\N
2,\N,\N,\N
1,\N,\N,\N

SELECT NULL IN (NULL), 1 IN (1, NULL), 1 IN (2, NULL), 1 NOT IN (1, NULL), 1 NOT IN (2, NULL), 1 IN (2, 3), NULL NOT IN (1) FROM Kinds LIMIT 1
rows 1
\N,true,\N,false,\N,false,\N

SELECT id FROM Kinds WHERE t IN (FALSE)
rows 3
8
5
2

SELECT id FROM Kinds WHERE b IN (b'abc', b'\xff', b'')
rows 4
8
6
5
2

SELECT id FROM Kinds WHERE (n IN (id - 8, id)) IS NULL
rows 2
8
1

SELECT id FROM Kinds WHERE TRUE IN (n = 7, t)
rows 4
7
6
4
3

# DISTINCT, groups and order with NULL, and every type.

SELECT DISTINCT n FROM Kinds
rows 6
\N
0
7
-7
9223372036854775807
-9223372036854775808

SELECT DISTINCT t FROM Kinds
rows 3
false
true
\N

SELECT DISTINCT b, t FROM Kinds
rows 7
\x616263,false
\N,true
\xff,\N
\x00,true
\x00ff80,true
\x,false
\N,\N

SELECT DISTINCT s LIKE 'a%', n IS NULL FROM Kinds
rows 4
true,true
true,false
false,false
\N,true

SELECT DISTINCT t FROM Kinds ORDER BY t
rows 3
\N
false
true

SELECT DISTINCT t FROM Kinds ORDER BY t DESC LIMIT 2
rows 2
true
false

SELECT DISTINCT t FROM Kinds LIMIT 1 OFFSET 2
rows 1
\N

SELECT ALL t FROM Kinds
rows 8
false
true
\N
false
true
true
false
\N

SELECT DISTINCT NULL, 1 FROM Kinds
rows 1
\N,1

SELECT t, COUNT(*), COUNT(n), MIN(n), MAX(n) FROM Kinds GROUP BY t
rows 3
false,3,2,-9223372036854775808,-7
true,3,3,0,9223372036854775807
\N,2,1,7,7

SELECT n, COUNT(*), MIN(id), MAX(id) FROM Kinds GROUP BY n
rows 6
\N,2,1,8
0,2,4,7
7,1,6,6
-7,1,5,5
9223372036854775807,1,3,3
-9223372036854775808,1,2,2

SELECT s, b, COUNT(*) FROM Kinds GROUP BY s, b HAVING COUNT(*) > 1
rows 1
abc,\x616263,2

SELECT t, n, COUNT(*) FROM Kinds GROUP BY n, t ORDER BY t, n DESC
rows 7
\N,7,1
\N,\N,1
false,-7,1
false,-9223372036854775808,1
false,\N,1
true,9223372036854775807,1
true,0,2

SELECT COUNT(*) FROM Kinds GROUP BY t, s, b, n, id HAVING id > 6
rows 2
1
1

SELECT MIN(s), MAX(s), MIN(b), MAX(b), MIN(t), MAX(t) FROM Kinds
rows 1
,é漢😀,\x,\xff,false,true

SELECT MIN(b), MAX(b), MIN(t), COUNT(t) FROM Kinds WHERE id = 1
rows 1
\N,\N,\N,0

SELECT t FROM Kinds GROUP BY t HAVING t
rows 1
true

SELECT t FROM Kinds GROUP BY t HAVING NOT t
rows 1
false

SELECT t FROM Kinds GROUP BY t HAVING t IS NULL
rows 1
\N

SELECT SUM(n) FROM Kinds
rows 1
-1

SELECT SUM(n), SUM(id) FROM Kinds WHERE n > 0
refused 62

SELECT SUM(IF(t, 1, 0)), SUM(IF(t, 1, NULL)), COUNT(IF(t, 1, NULL)) FROM Kinds
rows 1
3,3,3

SELECT id, n FROM Kinds ORDER BY n
rows 8
8,\N
1,\N
2,-9223372036854775808
5,-7
7,0
4,0
6,7
3,9223372036854775807

SELECT id, n FROM Kinds ORDER BY n DESC
rows 8
3,9223372036854775807
6,7
7,0
4,0
5,-7
2,-9223372036854775808
8,\N
1,\N

SELECT id, s FROM Kinds ORDER BY s ASC, id ASC
rows 8
1,\N
2,
6,ABC
4,a%b_c\\d
7,"a,""b"""
5,abc
8,abc
3,é漢😀

SELECT id, s FROM Kinds ORDER BY 2 DESC, 1
rows 8
3,é漢😀
5,abc
8,abc
7,"a,""b"""
4,a%b_c\\d
6,ABC
2,
1,\N

SELECT id, b FROM Kinds ORDER BY b
rows 8
7,\N
1,\N
2,\x
4,\x00
3,\x00ff80
8,\x616263
5,\x616263
6,\xff

SELECT id, b FROM Kinds ORDER BY b DESC, id DESC
rows 8
6,\xff
8,\x616263
5,\x616263
3,\x00ff80
4,\x00
2,\x
7,\N
1,\N

SELECT t, id FROM Kinds ORDER BY t
rows 8
\N,6
\N,1
false,8
false,5
false,2
true,7
true,4
true,3

SELECT t, id FROM Kinds ORDER BY t DESC
rows 8
true,7
true,4
true,3
false,8
false,5
false,2
\N,6
\N,1

SELECT t, n, id FROM Kinds ORDER BY t DESC, n, id LIMIT 4 OFFSET 2
rows 4
true,9223372036854775807,3
false,\N,8
false,-9223372036854775808,2
false,-7,5

SELECT t, s, n FROM Marks ORDER BY s, n DESC
rows 9
\N,\N,8
true,\N,3
true,,4
true,a,2
false,b,6
true,b,1
false,b,\N
\N,z,7
true,é,5

SELECT b, n FROM Marks ORDER BY b DESC LIMIT 3 OFFSET 6
rows 3
\x,4
\N,5
\N,8

SELECT t, COUNT(*), SUM(n), MIN(s), MAX(b) FROM Marks GROUP BY t
rows 3
true,5,15,,\x61
false,2,6,b,\x6100
\N,2,15,z,\xff

SELECT b, t FROM Marks GROUP BY b, t
rows 7
\N,true
\x,true
\x61,true
\x61,false
\x6100,false
\N,\N
\xff,\N

SELECT t, b, COUNT(s) AS n FROM Marks GROUP BY t, b HAVING COUNT(*) > COUNT(s) ORDER BY n, b DESC
rows 2
\N,\N,0
true,\x61,2

SELECT t, n FROM Marks WHERE t
rows 5
true,5
true,4
true,1
true,2
true,3

SELECT t, n FROM Marks WHERE NOT t
rows 2
false,6
false,\N

SELECT t, n FROM Marks WHERE t IS NULL
rows 2
\N,8
\N,7

SELECT n FROM Marks WHERE t = TRUE AND b = b'a' AND s > 'a'
rows 1
1

SELECT n FROM Marks WHERE b IS NULL ORDER BY 1
rows 2
5
8

SELECT m.n, k.id FROM Marks m JOIN Kinds k ON m.t = k.t AND k.n = 0
rows 10
5,7
5,4
4,7
4,4
1,7
1,4
2,7
2,4
3,7
3,4

SELECT m.n, k.id FROM Marks m LEFT JOIN Kinds k ON m.b = k.b
rows 9
5,\N
4,2
1,\N
2,\N
3,\N
6,\N
\N,\N
8,\N
7,6

SELECT k.id, m.n FROM Kinds k LEFT JOIN Marks m ON k.b = m.b WHERE m.n IS NULL
rows 6
8,\N
7,\N
5,\N
4,\N
3,\N
1,\N

SELECT COUNT(*), COUNT(m.n) FROM Kinds k LEFT JOIN Marks m ON k.s = m.s
rows 1
8,1

# A table without rows beside one with rows.

SELECT * FROM Nothing
rows 0

SELECT k.id, x.s FROM Kinds k LEFT JOIN Nothing x ON x.id = k.id WHERE k.id < 3
rows 2
2,\N
1,\N

SELECT k.id FROM Kinds k JOIN Nothing x ON TRUE
rows 0

SELECT k.id FROM Nothing x LEFT JOIN Kinds k ON TRUE
rows 0

SELECT COUNT(*), SUM(n), MIN(s), MAX(b), COUNT(t) FROM Nothing
rows 1
0,\N,\N,\N,0

SELECT k.id FROM Kinds k LEFT JOIN Nothing x ON DIV(1, 0) = 1
rows 8
8
7
6
5
4
3
2
1

SELECT s FROM Nothing UNION ALL SELECT s FROM Kinds WHERE id = 3
rows 1
é漢😀

SELECT t, COUNT(*) FROM Nothing GROUP BY t
rows 0

# Parameters of each type.

param n INT64 7
param s STRING é漢😀
param b BYTES \x00ff80
param t BOOL true
SELECT id, n = @n, s = @s, b = @b, t = @t FROM Kinds
rows 8
8,\N,false,false,false
7,false,false,\N,true
6,true,false,false,\N
5,false,false,false,false
4,false,false,false,true
3,false,true,true,true
2,false,false,false,false
1,\N,\N,\N,\N

param n INT64 \N
param s STRING \N
param b BYTES \N
param t BOOL \N
SELECT id, n + @n, s || @s, b || @b, t AND @t, t OR @t FROM Kinds WHERE id < 4
rows 3
3,\N,\N,\N,\N,true
2,\N,\N,\N,false,\N
1,\N,\N,\N,\N,\N

param n INT64 \N
SELECT @n || 'a' FROM Kinds
refused 13

param low INT64 -7
param high INT64 7
SELECT id FROM Kinds WHERE n BETWEEN @low AND @high
rows 4
7
6
5
4

param z INT64 0
SELECT DIV(n, @z) FROM Kinds WHERE n IS NULL
rows 2
\N
\N

param z INT64 0
SELECT DIV(n, @z) FROM Kinds WHERE id = 7
refused 62

# Types of NULL literals by their place.

SELECT NULL, NULL + NULL, NULL IS NULL, (NULL) IS NOT NULL FROM Kinds LIMIT 1
rows 1
\N,\N,true,false

SELECT NULL || b'a', NULL || 'a', LENGTH(NULL) + 1, STARTS_WITH(NULL, b'a'), NULL AND TRUE, NULL OR TRUE FROM Kinds LIMIT 1
rows 1
\N,\N,\N,\N,\N,true

SELECT IF(NULL, 1, 2), IFNULL(NULL, b'a'), COALESCE(NULL, NULL, TRUE), CASE WHEN NULL THEN 1 ELSE NULL END FROM Kinds LIMIT 1
rows 1
2,\x61,true,\N

SELECT (NULL || NULL) || 'a', COALESCE(NULL, NULL) + 1, IF(TRUE, NULL, NULL) + 1, CASE NULL WHEN NULL THEN 1 ELSE 2 END FROM Kinds LIMIT 1
rows 1
\N,\N,\N,2

SELECT (NULL || NULL) || b'a' FROM Kinds
refused 13

SELECT IF(TRUE, NULL, NULL) || 'a' FROM Kinds
refused 13

SELECT (NULL AND NULL) + 1 FROM Kinds
refused 13

SELECT (NULL LIKE 'a') AND (NULL = NULL) AND (NULL IN (NULL)) AND (NULL BETWEEN NULL AND NULL) FROM Kinds LIMIT 1
rows 1
\N

SELECT x.a + 1, x.b FROM (SELECT NULL AS a, 'b' AS b FROM Kinds LIMIT 1) x
rows 1
\N,b

SELECT id FROM Kinds WHERE NULL
rows 0

SELECT NULL FROM Kinds HAVING NULL IS NULL
rows 1
\N

# More of STARTS_WITH, escapes and BETWEEN.

SELECT STARTS_WITH('banana', 'ban'), STARTS_WITH('banana', 'ana'), STARTS_WITH('banana', 'BAN'), STARTS_WITH(b'\x00\xff', b'\xff'), STARTS_WITH(b'\x00\xff', b'\x00') FROM Kinds LIMIT 1
rows 1
true,false,false,false,true

SELECT id FROM Kinds WHERE STARTS_WITH(s, 'b') OR STARTS_WITH('abcd', s)
rows 3
8
5
2

SELECT 'a_c' LIKE 'a\\_c', 'abc' LIKE 'a\\_c', 'a\\c' LIKE 'a\\\\c', 'a%c' LIKE 'a\\%%', 'abc' LIKE 'a\\%%', '\\' LIKE '\\\\', '_' LIKE '\\__' FROM Kinds LIMIT 1
rows 1
true,false,true,true,false,true,false

SELECT n BETWEEN 1 AND '2' FROM Kinds
refused 13

SELECT NULL BETWEEN 'a' AND 1 FROM Kinds
refused 13

SELECT NULL BETWEEN NULL AND 'a', 'b' BETWEEN NULL AND 'a', b'b' BETWEEN b'a' AND NULL, TRUE BETWEEN FALSE AND TRUE FROM Kinds LIMIT 1
rows 1
\N,false,\N,true

SELECT n BETWEEN nope AND 'a' FROM Kinds
refused 11

SELECT 1 BETWEEN 'a' AND @p FROM Kinds
refused 17

SELECT LENGTH('\u6f22\u5b57'), LENGTH("😀") + LENGTH('é'), LENGTH(s || s) FROM Kinds WHERE id = 3
rows 1
2,2,6

SELECT s, LENGTH(s) FROM Kinds WHERE LENGTH(s) <> LENGTH(b)
rows 2
ABC,3
a%b_c\\d,7

# Chains of AND and OR with NULL and a fault go by twos from the left.

SELECT NULL AND DIV(1, 0) = 1 AND TRUE, (NULL AND DIV(1, 0) = 1) AND TRUE, TRUE AND NULL AND DIV(1, 0) = 1 FROM Kinds LIMIT 1
rows 1
\N,\N,\N

SELECT DIV(1, 0) = 1 AND TRUE AND NULL, TRUE AND DIV(1, 0) = 1 AND NULL, DIV(1, 0) = 1 AND TRUE AND FALSE FROM Kinds LIMIT 1
rows 1
\N,\N,false

SELECT NULL OR DIV(1, 0) = 1 OR FALSE, FALSE OR DIV(1, 0) = 1 OR NULL, DIV(1, 0) = 1 OR FALSE OR TRUE FROM Kinds LIMIT 1
rows 1
\N,\N,true

SELECT DIV(1, 0) = 1 AND TRUE AND TRUE FROM Kinds
refused 62

SELECT FALSE OR FALSE OR DIV(1, 0) = 1 FROM Kinds
refused 62

SELECT NOT (NULL AND DIV(1, 0) = 1), (NULL OR DIV(1, 0) = 1) IS NULL, (NULL AND DIV(1, 0) = 1) = TRUE FROM Kinds LIMIT 1
rows 1
\N,true,\N

SELECT (TRUE AND DIV(1, 0) = 1) IS NULL FROM Kinds
refused 62

SELECT IF(NULL AND DIV(1, 0) = 1, 1, 2), CASE WHEN FALSE AND DIV(1, 0) = 1 THEN 1 WHEN TRUE OR DIV(1, 0) = 1 THEN 3 END FROM Kinds LIMIT 1
rows 1
2,3

SELECT (FALSE AND DIV(1, 0) = 1) IN (FALSE, NULL), (NULL AND DIV(1, 0) = 1) IN (TRUE) FROM Kinds LIMIT 1
rows 1
true,\N

SELECT COUNT(FALSE AND DIV(1, 0) = 1), COUNT(NULL AND DIV(1, 0) = 1), COUNT(*) FROM Kinds
rows 1
8,0,8

# Conditions on numbers outside the key, alone, beside others, and by BETWEEN, in every order; NULLs among them.

SELECT id FROM Kinds WHERE n BETWEEN -7 AND 7
rows 4
7
6
5
4

SELECT id FROM Kinds WHERE n NOT BETWEEN -7 AND 7
rows 2
3
2

SELECT id FROM Kinds WHERE n BETWEEN 7 AND -7
rows 0

SELECT id FROM Kinds WHERE n BETWEEN NULL AND 7
rows 0

SELECT id FROM Kinds WHERE n BETWEEN -7 AND 7 AND t
rows 2
7
4

SELECT id FROM Kinds WHERE t AND n BETWEEN -7 AND 7 AND s LIKE 'a%'
rows 2
7
4

SELECT id FROM Kinds WHERE s = 'abc' AND n < 0
rows 1
5

SELECT id FROM Kinds WHERE n < 0 AND s = 'abc' AND id <> 2
rows 1
5

SELECT id, n FROM Kinds WHERE n >= 0 AND n <= 7 AND b IS NOT NULL
rows 2
6,7
4,0

SELECT COUNT(*) FROM Kinds WHERE n > -8 AND (t OR n < 0)
rows 1
4

SELECT COUNT(*), SUM(n) FROM Kinds WHERE n <> 0 AND n BETWEEN -7 AND 9223372036854775806
rows 1
2,0

SELECT id FROM Kinds WHERE n > 0 AND DIV(7, n - 7) = 0
refused 62

SELECT id FROM Kinds WHERE n > 0 AND n < 9223372036854775807 AND DIV(7, n) = 1
rows 1
6

SELECT id FROM Kinds WHERE DIV(7, n) = 1 AND n > 0 AND t IS NULL
rows 1
6

SELECT id FROM Kinds WHERE n IS NULL AND n > 0
rows 0

SELECT id FROM Kinds WHERE 0 < n AND n = 7 OR n = -7
rows 2
6
5

SELECT n, COUNT(*) FROM Marks WHERE n BETWEEN 2 AND 6 AND s IS NOT NULL GROUP BY n ORDER BY n DESC LIMIT 3
rows 3
6,1
5,1
4,1

SELECT id FROM Nothing WHERE n BETWEEN 1 AND 2 AND t
rows 0

# Texts outside the key, compared with literals and by LIKE, alone and beside other conditions.
SELECT COUNT(*) FROM Kinds WHERE s = 'abc'
rows 1
2

SELECT COUNT(*) FROM Kinds WHERE s <> 'abc'
rows 1
5

SELECT id FROM Kinds WHERE s <> ''
rows 6
8
7
6
5
4
3

SELECT id FROM Kinds WHERE s < 'abc'
rows 4
7
6
4
2

SELECT id FROM Kinds WHERE s <= 'abc'
rows 6
8
7
6
5
4
2

SELECT id FROM Kinds WHERE s > 'ABC'
rows 5
8
7
5
4
3

SELECT id FROM Kinds WHERE s >= ''
rows 7
8
7
6
5
4
3
2

SELECT COUNT(*) FROM Kinds WHERE s > ''
rows 1
6

SELECT id, n FROM Kinds WHERE s = ''
rows 1
2,-9223372036854775808

SELECT COUNT(*) FROM Kinds WHERE s < ''
rows 1
0

SELECT id FROM Kinds WHERE 'abc' > s
rows 4
7
6
4
2

SELECT id FROM Kinds WHERE 'abc' <= s
rows 3
8
5
3

SELECT COUNT(*) FROM Kinds WHERE '' = s
rows 1
1

SELECT id FROM Kinds WHERE 'é漢😀' = s
rows 1
3

SELECT id FROM Kinds WHERE s > 'é漢'
rows 1
3

SELECT id FROM Kinds WHERE s < 'é漢😁' AND s >= 'abc'
rows 3
8
5
3

SELECT id FROM Kinds WHERE s BETWEEN '' AND 'abc'
rows 6
8
7
6
5
4
2

SELECT COUNT(*) FROM Kinds WHERE s BETWEEN 'abc' AND 'a'
rows 1
0

SELECT id FROM Kinds WHERE s BETWEEN 'a' AND s || 'x'
rows 5
8
7
5
4
3

SELECT id FROM Kinds WHERE s BETWEEN 'a%b_c\\d' AND s
rows 5
8
7
5
4
3

SELECT id FROM Kinds WHERE s NOT BETWEEN 'ABC' AND 'abc'
rows 2
3
2

SELECT COUNT(*) FROM Kinds WHERE s = 'a text of more than thirty bytes, as long'
rows 1
0

SELECT COUNT(*) FROM Kinds WHERE s < 'a text of more than thirty bytes, as long'
rows 1
2

SELECT id FROM Kinds WHERE n < 0 AND s = 'abc' AND t = FALSE
rows 1
5

SELECT COUNT(*) FROM Kinds WHERE n <= 0 AND s LIKE 'a%'
rows 1
3

SELECT id FROM Kinds WHERE n <= 0 AND s LIKE 'a%' AND t IS NOT NULL
rows 3
7
5
4

SELECT COUNT(*) FROM Kinds WHERE s LIKE 'a\\%b\\_c\\\\d'
rows 1
1

SELECT COUNT(*) FROM Kinds WHERE s LIKE 'abc\\%'
rows 1
0

SELECT COUNT(*) FROM Kinds WHERE s LIKE '%' AND s <> ''
rows 1
6

SELECT COUNT(*) FROM Kinds WHERE s LIKE ''
rows 1
1

SELECT COUNT(*) FROM Kinds WHERE s LIKE '_\\__\\_%'
rows 1
0

SELECT id FROM Kinds WHERE s LIKE '%c' AND s >= 'B' AND n IS NULL
rows 1
8

SELECT COUNT(*) FROM Kinds WHERE s LIKE '_漢_' AND n > 0 AND s > 'z'
rows 1
1

SELECT id FROM Kinds WHERE s = 'nothing' AND DIV(1, 0) = 1
rows 0

SELECT id FROM Kinds WHERE DIV(1, 0) = 1 AND s LIKE 'nothing%'
rows 0

SELECT id FROM Kinds WHERE s = 'abc' AND DIV(1, 0) = 1
refused 62

SELECT id FROM Kinds WHERE s LIKE 'a%' OR s = 'ABC'
rows 5
8
7
6
5
4

SELECT id FROM Kinds WHERE NOT (s = 'abc' AND n < 0)
rows 5
7
6
4
3
2

SELECT COUNT(*) FROM Kinds WHERE s = s AND s LIKE s || ''
refused 3

SELECT COUNT(*) FROM Nothing WHERE s = ''
rows 1
0

SELECT COUNT(*) FROM Marks WHERE s = 'b' AND n > 1
rows 1
1

param p STRING abc
SELECT COUNT(*) FROM Kinds WHERE s = @p
rows 1
2

param p STRING abc
SELECT id FROM Kinds WHERE @p < s AND s LIKE '_%'
rows 1
3

param p STRING \N
SELECT COUNT(*) FROM Kinds WHERE s = @p
rows 1
0

param p STRING \N
SELECT COUNT(*) FROM Kinds WHERE s <> @p AND s LIKE '%'
rows 1
0

param p STRING 
SELECT COUNT(*) FROM Kinds WHERE s >= @p
rows 1
7
