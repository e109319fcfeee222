# Keys of numbers of several tables that have one length, whole or with NULLs: counts, which look at the keys.

SELECT COUNT(*) FROM Roots
rows 1
4

SELECT COUNT(*) FROM Roots WHERE n = 2
rows 1
2

SELECT COUNT(*) FROM Roots WHERE n > 1 AND n < 4
rows 1
2

SELECT COUNT(*) FROM Roots WHERE k = 0
rows 1
1

SELECT COUNT(*) FROM Roots WHERE k BETWEEN 0 AND 1 AND n = 2
rows 1
2

SELECT COUNT(*) FROM Roots WHERE n IS NULL
rows 1
1

SELECT 'row' FROM Roots WHERE n = 2
rows 2
row
row

SELECT COUNT(*), COUNT(n), SUM(n) FROM Roots
rows 1
4,3,5

SELECT COUNT(*) FROM Twos
rows 1
4

SELECT COUNT(*) FROM Twos WHERE n = 2
rows 1
3

SELECT COUNT(*) FROM Twos WHERE n > 1 AND n < 4
rows 1
3

SELECT COUNT(*) FROM Twos WHERE k = 0
rows 1
2

SELECT COUNT(*) FROM Twos WHERE k BETWEEN 0 AND 1 AND n = 2
rows 1
2

SELECT COUNT(*) FROM Twos WHERE n IS NULL
rows 1
0

SELECT 'row' FROM Twos WHERE n = 2
rows 3
row
row
row

SELECT COUNT(*), COUNT(n), SUM(n) FROM Twos
rows 1
4,4,7

SELECT COUNT(*) FROM Sides
rows 1
5

SELECT COUNT(*) FROM Sides WHERE n = 2
rows 1
3

SELECT COUNT(*) FROM Sides WHERE n > 1 AND n < 4
rows 1
4

SELECT COUNT(*) FROM Sides WHERE k = 0
rows 1
2

SELECT COUNT(*) FROM Sides WHERE k BETWEEN 0 AND 1 AND n = 2
rows 1
2

SELECT COUNT(*) FROM Sides WHERE n IS NULL
rows 1
1

SELECT 'row' FROM Sides WHERE n = 2
rows 3
row
row
row

SELECT COUNT(*), COUNT(n), SUM(n) FROM Sides
rows 1
5,4,9

SELECT COUNT(*) FROM Threes
rows 1
5

SELECT COUNT(*) FROM Threes WHERE n = 2
rows 1
4

SELECT COUNT(*) FROM Threes WHERE n > 1 AND n < 4
rows 1
5

SELECT COUNT(*) FROM Threes WHERE k = 0
rows 1
3

SELECT COUNT(*) FROM Threes WHERE k BETWEEN 0 AND 1 AND n = 2
rows 1
3

SELECT COUNT(*) FROM Threes WHERE n IS NULL
rows 1
0

SELECT 'row' FROM Threes WHERE n = 2
rows 4
row
row
row
row

SELECT COUNT(*), COUNT(n), SUM(n) FROM Threes
rows 1
5,5,11

SELECT COUNT(*) FROM Fours
rows 1
7

SELECT COUNT(*) FROM Fours WHERE n = 2
rows 1
5

SELECT COUNT(*) FROM Fours WHERE n > 1 AND n < 4
rows 1
6

SELECT COUNT(*) FROM Fours WHERE k = 0
rows 1
5

SELECT COUNT(*) FROM Fours WHERE k BETWEEN 0 AND 1 AND n = 2
rows 1
5

SELECT COUNT(*) FROM Fours WHERE n IS NULL
rows 1
0

SELECT 'row' FROM Fours WHERE n = 2
rows 5
row
row
row
row
row

SELECT COUNT(*), COUNT(n), SUM(n) FROM Fours
rows 1
7,7,17

SELECT COUNT(*) FROM Others
rows 1
3

SELECT COUNT(*) FROM Others WHERE n = 2
rows 1
2

SELECT COUNT(*) FROM Others WHERE n > 1 AND n < 4
rows 1
2

SELECT COUNT(*) FROM Others WHERE k = 0
rows 1
1

SELECT COUNT(*) FROM Others WHERE k BETWEEN 0 AND 1 AND n = 2
rows 1
1

SELECT COUNT(*) FROM Others WHERE n IS NULL
rows 1
0

SELECT 'row' FROM Others WHERE n = 2
rows 2
row
row

SELECT COUNT(*), COUNT(n), SUM(n) FROM Others
rows 1
3,3,5

SELECT COUNT(*) FROM Triples
rows 1
4

SELECT COUNT(*) FROM Triples WHERE n = 2
rows 1
3

SELECT COUNT(*) FROM Triples WHERE n > 1 AND n < 4
rows 1
3

SELECT COUNT(*) FROM Triples WHERE k = 0
rows 1
2

SELECT COUNT(*) FROM Triples WHERE k BETWEEN 0 AND 1 AND n = 2
rows 1
2

SELECT COUNT(*) FROM Triples WHERE n IS NULL
rows 1
0

SELECT 'row' FROM Triples WHERE n = 2
rows 3
row
row
row

SELECT COUNT(*), COUNT(n), SUM(n) FROM Triples
rows 1
4,4,7

SELECT COUNT(*) FROM (SELECT 1 FROM Threes UNION ALL SELECT 1 FROM Fours UNION ALL SELECT 1 FROM Triples) x
rows 1
16

SELECT COUNT(*) FROM Roots r JOIN Sides s ON s.k = r.k
rows 1
4
