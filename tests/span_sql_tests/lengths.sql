# Keys of numbers, whose lengths tell the tables apart, but for NULLs: counts, which look at no key of such a length.

SELECT COUNT(*) FROM Roots
rows 1
5

SELECT COUNT(*) FROM Roots WHERE n = 2
rows 1
2

SELECT COUNT(*) FROM Roots WHERE n > 1 AND n < 4
rows 1
2

SELECT COUNT(*) FROM Roots WHERE k = 0
rows 1
1

SELECT COUNT(*) FROM Roots WHERE k BETWEEN 0 AND 1 AND n = 2
rows 1
1

SELECT COUNT(*) FROM Roots WHERE n IS NULL
rows 1
1

SELECT 'row' FROM Roots WHERE n = 2
rows 2
row
row

SELECT COUNT(*), COUNT(n), SUM(n) FROM Roots
rows 1
5,4,10

SELECT COUNT(*) FROM Twos
rows 1
7

SELECT COUNT(*) FROM Twos WHERE n = 2
rows 1
3

SELECT COUNT(*) FROM Twos WHERE n > 1 AND n < 4
rows 1
4

SELECT COUNT(*) FROM Twos WHERE k = 0
rows 1
2

SELECT COUNT(*) FROM Twos WHERE k BETWEEN 0 AND 1 AND n = 2
rows 1
2

SELECT COUNT(*) FROM Twos WHERE n IS NULL
rows 1
1

SELECT 'row' FROM Twos WHERE n = 2
rows 3
row
row
row

SELECT COUNT(*), COUNT(n), SUM(n) FROM Twos
rows 1
7,6,14

SELECT COUNT(*) FROM Threes
rows 1
12

SELECT COUNT(*) FROM Threes WHERE n = 2
rows 1
7

SELECT COUNT(*) FROM Threes WHERE n > 1 AND n < 4
rows 1
8

SELECT COUNT(*) FROM Threes WHERE k = 0
rows 1
5

SELECT COUNT(*) FROM Threes WHERE k BETWEEN 0 AND 1 AND n = 2
rows 1
4

SELECT COUNT(*) FROM Threes WHERE n IS NULL
rows 1
1

SELECT 'row' FROM Threes WHERE n = 2
rows 7
row
row
row
row
row
row
row

SELECT COUNT(*), COUNT(n), SUM(n) FROM Threes
rows 1
12,11,23

SELECT COUNT(*) FROM Pairs
rows 1
6

SELECT COUNT(*) FROM Pairs WHERE n = 2
rows 1
3

SELECT COUNT(*) FROM Pairs WHERE n > 1 AND n < 4
rows 1
4

SELECT COUNT(*) FROM Pairs WHERE k = 0
rows 1
1

SELECT COUNT(*) FROM Pairs WHERE k BETWEEN 0 AND 1 AND n = 2
rows 1
1

SELECT COUNT(*) FROM Pairs WHERE n IS NULL
rows 1
1

SELECT 'row' FROM Pairs WHERE n = 2
rows 3
row
row
row

SELECT COUNT(*), COUNT(n), SUM(n) FROM Pairs
rows 1
6,5,10

SELECT COUNT(*) FROM Twos WHERE w = 'x'
rows 1
3

SELECT COUNT(*) FROM Twos WHERE w LIKE '%'
rows 1
6

SELECT COUNT(*) FROM Twos WHERE w >= 'x' AND n = 2
rows 1
1

SELECT COUNT(*) FROM (SELECT 1 FROM Threes UNION ALL SELECT 1 FROM Pairs UNION ALL SELECT 1 FROM Roots) x
rows 1
23

SELECT COUNT(*) FROM Roots r JOIN Twos t ON t.k = r.k JOIN Threes h ON h.k = t.k AND h.a = t.a
rows 1
6
