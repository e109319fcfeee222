# More keys than a walk finds together. A NULL stands among the last keys of Twos and Lasts, and none in those of Roots and Threes.

SELECT COUNT(*) FROM Roots
rows 1
70

SELECT COUNT(*) FROM Roots WHERE n = 1
rows 1
24

SELECT COUNT(*) FROM Roots WHERE k > 3
rows 1
67

SELECT COUNT(*) FROM Roots WHERE k BETWEEN 2 AND 69
rows 1
68

SELECT COUNT(*) FROM Roots WHERE k IS NULL
rows 1
0

SELECT COUNT(*), COUNT(n), SUM(n) FROM Roots
rows 1
70,70,70

SELECT n, COUNT(*) FROM Roots GROUP BY n
rows 3
1,24
2,23
0,23

SELECT COUNT(*) FROM Twos
rows 1
140

SELECT COUNT(*) FROM Twos WHERE n = 1
rows 1
32

SELECT COUNT(*) FROM Twos WHERE k > 3
rows 1
134

SELECT COUNT(*) FROM Twos WHERE k BETWEEN 2 AND 69
rows 1
136

SELECT COUNT(*) FROM Twos WHERE k IS NULL
rows 1
0

SELECT COUNT(*), COUNT(n), SUM(n) FROM Twos
rows 1
140,140,245

SELECT n, COUNT(*) FROM Twos GROUP BY n
rows 5
1,32
2,32
3,31
0,31
4,14

SELECT COUNT(*) FROM Threes
rows 1
105

SELECT COUNT(*) FROM Threes WHERE n = 1
rows 1
17

SELECT COUNT(*) FROM Threes WHERE k > 3
rows 1
102

SELECT COUNT(*) FROM Threes WHERE k BETWEEN 2 AND 69
rows 1
102

SELECT COUNT(*) FROM Threes WHERE k IS NULL
rows 1
0

SELECT COUNT(*), COUNT(n), SUM(n) FROM Threes
rows 1
105,105,141

SELECT n, COUNT(*) FROM Threes GROUP BY n
rows 4
2,35
3,18
0,35
1,17

SELECT COUNT(*) FROM Lasts
rows 1
132

SELECT COUNT(*) FROM Lasts WHERE n = 1
rows 1
65

SELECT COUNT(*) FROM Lasts WHERE k > 3
rows 1
127

SELECT COUNT(*) FROM Lasts WHERE k BETWEEN 2 AND 69
rows 1
68

SELECT COUNT(*) FROM Lasts WHERE k IS NULL
rows 1
1

SELECT COUNT(*), COUNT(n), SUM(n) FROM Lasts
rows 1
132,132,69

SELECT n, COUNT(*) FROM Lasts GROUP BY n
rows 3
0,65
1,65
2,2

SELECT COUNT(*) FROM Roots UNION ALL SELECT COUNT(*) FROM Twos UNION ALL SELECT COUNT(*) FROM Threes UNION ALL SELECT COUNT(*) FROM Lasts
rows 4
70
140
105
132

SELECT COUNT(*) FROM Roots r JOIN Twos t ON t.k = r.k
rows 1
140

SELECT COUNT(*) FROM Roots r LEFT JOIN Threes t ON t.k = r.k
rows 1
140

SELECT COUNT(*) FROM (SELECT k FROM Lasts) l
rows 1
132

SELECT COUNT(*) FROM Twos a JOIN Lasts b ON b.b = a.a
rows 1
0
