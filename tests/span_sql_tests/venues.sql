# The order of rows: DESC key columns, NULL first in ASC and last in DESC.

SELECT * FROM Venues
rows 7
süd,1,\N,\N,Große Bühne
nord,\N,\N,\x00,Attic
nord,1,true,\x00ff,Grand Hall
nord,2,false,\x,attic
,-5,true,\x61,\N
\N,\N,\N,\xff,no place
\N,7,false,\N,

SELECT * FROM Halls
rows 8
süd,1,\x4100,100,false
nord,\N,\x41,10,true
nord,1,\x42,50,false
nord,1,\x41,100,true
nord,1,\N,\N,\N
,-5,\x,0,true
\N,\N,\N,\N,true
\N,7,\xff,70,\N

SELECT region, code, hall, day, night FROM Shows
rows 8
süd,1,\x4100,1,true
nord,1,\x42,\N,\N
nord,1,\x41,2,true
nord,1,\x41,1,false
nord,1,\x41,1,true
nord,1,\N,3,false
,-5,\x,-1,false
\N,\N,\N,4,\N

SELECT title, price, poster FROM Shows
rows 8
漢字,30,\xfffe
\N,5,\x
Late show,\N,\x02
Matinee,20,\x01
Late show,30,\N
"Duo, ""live""",20,\x01
,0,\N
Late show,\N,\x02

SELECT * FROM Tags
rows 5
west,\N
süd,2
nord,1
,3
\N,4

# Joins of three levels.

SELECT v.title, h.hall, s.day, s.night FROM Venues v JOIN Halls h ON h.region = v.region AND h.code = v.code JOIN Shows s ON s.region = h.region AND s.code = h.code AND s.hall = h.hall
rows 6
Große Bühne,\x4100,1,true
Grand Hall,\x42,\N,\N
Grand Hall,\x41,2,true
Grand Hall,\x41,1,false
Grand Hall,\x41,1,true
\N,\x,-1,false

SELECT v.title, h.hall, s.title FROM Venues v LEFT JOIN Halls h ON h.region = v.region AND h.code = v.code LEFT JOIN Shows s ON s.region = v.region AND s.code = v.code AND s.hall = h.hall
rows 11
Große Bühne,\x4100,漢字
Attic,\N,\N
Grand Hall,\x42,\N
Grand Hall,\x41,Late show
Grand Hall,\x41,Matinee
Grand Hall,\x41,Late show
Grand Hall,\N,\N
attic,\N,\N
\N,\x,
no place,\N,\N
,\N,\N

SELECT v.region, v.code, h.seats FROM Venues v LEFT JOIN Halls h ON v.region = h.region AND v.code = h.code WHERE h.code IS NULL
rows 4
nord,\N,\N
nord,2,\N
\N,\N,\N
\N,7,\N

SELECT v.region, v.code, COUNT(h.seats), SUM(h.seats) FROM Venues v LEFT JOIN Halls h ON v.region = h.region AND v.code = h.code GROUP BY v.region, v.code
rows 7
süd,1,1,100
nord,\N,0,\N
nord,1,2,150
nord,2,0,\N
,-5,1,0
\N,\N,0,\N
\N,7,0,\N

SELECT s.title, v.title FROM Shows s JOIN Venues v ON v.region = s.region AND v.code = s.code WHERE s.price >= 20
rows 4
漢字,Große Bühne
Matinee,Grand Hall
Late show,Grand Hall
"Duo, ""live""",Grand Hall

SELECT s.day, h.seats, v.open FROM Shows s LEFT JOIN Halls h ON h.hall = s.hall AND h.region = s.region LEFT JOIN Venues v ON v.code = h.code AND v.region = h.region
rows 11
1,100,\N
\N,50,true
2,10,\N
2,100,true
1,10,\N
1,100,true
1,10,\N
1,100,true
3,\N,\N
-1,0,true
4,\N,\N

SELECT v.code, t.weight FROM Venues v JOIN Tags t ON t.tag = v.region
rows 5
1,2
\N,1
1,1
2,1
-5,3

SELECT t.tag, v.code FROM Tags t LEFT JOIN Venues v ON v.region = t.tag
rows 7
west,\N
süd,1
nord,\N
nord,1
nord,2
,-5
\N,\N

SELECT t.tag, v.code FROM Tags t LEFT JOIN Venues v ON v.region = t.tag OR v.region IS NULL AND t.tag IS NULL
rows 8
west,\N
süd,1
nord,\N
nord,1
nord,2
,-5
\N,\N
\N,7

SELECT a.code, b.code FROM Venues a JOIN Venues b ON a.region = b.region AND a.code < b.code
rows 1
1,2

SELECT a.hall, b.hall FROM Halls a JOIN Halls b ON a.region = b.region AND a.code = b.code AND a.hall <> b.hall
rows 2
\x42,\x41
\x41,\x42

SELECT COUNT(*) FROM Venues v JOIN Halls h ON TRUE JOIN Shows s ON TRUE
rows 1
448

SELECT COUNT(*) FROM Venues v LEFT JOIN Halls h ON h.seats > 1000 LEFT JOIN Shows s ON s.day = h.seats
rows 1
7

SELECT v.title, x.n, x.total FROM Venues v LEFT JOIN (SELECT region, code, COUNT(*) AS n, SUM(price) AS total FROM Shows GROUP BY region, code) x ON x.region = v.region AND x.code = v.code ORDER BY total DESC, title
rows 7
Grand Hall,5,75
Große Bühne,1,30
\N,1,0
,\N,\N
Attic,\N,\N
attic,\N,\N
no place,\N,\N

SELECT x.region, h.hall, x.m FROM (SELECT region, MAX(day) AS m FROM Shows GROUP BY region) x JOIN Halls h ON h.region = x.region WHERE x.m > 0
rows 5
süd,\x4100,1
nord,\x41,3
nord,\x42,3
nord,\x41,3
nord,\N,3

SELECT x.title, s.title FROM (SELECT v.title, v.code AS c, v.region AS r FROM Venues v WHERE v.open) x JOIN Shows s ON s.code = x.c AND s.region = x.r AND s.night = FALSE
rows 3
Grand Hall,Matinee
Grand Hall,"Duo, ""live"""
\N,

SELECT y.r, COUNT(*) FROM (SELECT x.region AS r FROM (SELECT region, code FROM Halls) x JOIN Venues v ON v.region = x.region) y GROUP BY y.r ORDER BY r
rows 3
,1
nord,12
süd,1

# WHERE over key columns and others.

SELECT code FROM Venues WHERE region = 'nord'
rows 3
\N
1
2

SELECT code FROM Venues WHERE region > 'nord'
rows 1
1

SELECT code FROM Venues WHERE region >= 'nord'
rows 4
1
\N
1
2

SELECT code FROM Venues WHERE region < 'nord'
rows 1
-5

SELECT code FROM Venues WHERE region <= 'nord'
rows 4
\N
1
2
-5

SELECT code FROM Venues WHERE 'nord' < region
rows 1
1

SELECT code FROM Venues WHERE region BETWEEN '' AND 'nord'
rows 4
\N
1
2
-5

SELECT code FROM Venues WHERE region NOT BETWEEN 'a' AND 'o'
rows 2
1
-5

SELECT code FROM Venues WHERE region IS NULL
rows 2
\N
7

SELECT code FROM Venues WHERE region = NULL
rows 0

SELECT code FROM Venues WHERE region <> 'nord'
rows 2
1
-5

SELECT code FROM Venues WHERE region IN ('nord', NULL) AND code IS NOT NULL
rows 2
1
2

SELECT code FROM Venues WHERE region LIKE '%d' AND code > 0
rows 3
1
1
2

SELECT region, code FROM Venues WHERE region > 'a' AND region < 'o' AND code = 2
rows 1
nord,2

SELECT region, code FROM Venues WHERE region = 'nord' AND region = 'süd'
rows 0

SELECT region, code FROM Venues WHERE region = 'nord' OR code = 7
rows 4
nord,\N
nord,1
nord,2
\N,7

SELECT region, code FROM Venues WHERE open
rows 2
nord,1
,-5

SELECT region, code FROM Venues WHERE NOT open
rows 2
nord,2
\N,7

SELECT region, code FROM Venues WHERE open IS NULL
rows 3
süd,1
nord,\N
\N,\N

SELECT region, code FROM Venues WHERE open = (code > 0)
rows 1
nord,1

SELECT region, code FROM Venues WHERE open OR code > 1
rows 4
nord,1
nord,2
,-5
\N,7

SELECT code, seal FROM Venues WHERE seal >= b'' AND seal < b'\x01'
rows 3
\N,\x00
1,\x00ff
2,\x

SELECT title, LENGTH(title), LENGTH(seal) FROM Venues
rows 7
Große Bühne,11,\N
Attic,5,1
Grand Hall,10,2
attic,5,0
\N,\N,1
no place,8,1
,0,\N

SELECT title FROM Venues WHERE title LIKE '%ß%' OR title LIKE '_ttic'
rows 3
Große Bühne
Attic
attic

SELECT title FROM Venues WHERE STARTS_WITH(title, 'G')
rows 2
Große Bühne
Grand Hall

SELECT code FROM Venues WHERE region = @where
refused 2

param place STRING nord
SELECT code FROM Venues WHERE region = @place
rows 3
\N
1
2

param place STRING \N
SELECT code FROM Venues WHERE region = @place
rows 0

param low STRING m
param high STRING t
SELECT code FROM Venues WHERE region BETWEEN @low AND @high
rows 4
1
\N
1
2

# Groups, order and distinct over three levels.

SELECT region, COUNT(*), SUM(price), MIN(title), MAX(poster) FROM Shows GROUP BY region
rows 4
süd,1,30,漢字,\xfffe
nord,5,75,"Duo, ""live""",\x02
,1,0,,\N
\N,1,\N,Late show,\x02

SELECT title, COUNT(*), COUNT(price) FROM Shows GROUP BY title ORDER BY 2 DESC, title
rows 6
Late show,3,1
\N,1,1
,1,1
"Duo, ""live""",1,1
Matinee,1,1
漢字,1,1

SELECT night, MIN(day), MAX(day) FROM Shows GROUP BY night
rows 3
true,1,2
\N,4,4
false,-1,3

SELECT hall, night, COUNT(*) FROM Shows GROUP BY night, hall HAVING MAX(price) > 5 ORDER BY hall DESC, night
rows 4
\x4100,true,1
\x41,false,1
\x41,true,2
\N,false,1

SELECT DISTINCT region FROM Shows
rows 4
süd
nord
""
\N

SELECT DISTINCT region, code FROM Halls WHERE lit IS NOT NULL
rows 5
süd,1
nord,\N
nord,1
,-5
\N,\N

SELECT DISTINCT poster FROM Shows ORDER BY poster DESC
rows 5
\xfffe
\x02
\x01
\x
\N

SELECT title, price FROM Shows ORDER BY price
rows 8
Late show,\N
Late show,\N
,0
\N,5
Matinee,20
"Duo, ""live""",20
漢字,30
Late show,30

SELECT title, price FROM Shows ORDER BY price DESC
rows 8
漢字,30
Late show,30
Matinee,20
"Duo, ""live""",20
\N,5
,0
Late show,\N
Late show,\N

SELECT title, price FROM Shows ORDER BY price DESC, title DESC LIMIT 3 OFFSET 1
rows 3
Late show,30
Matinee,20
"Duo, ""live""",20

SELECT region, day FROM Shows ORDER BY region
rows 8
\N,4
,-1
nord,\N
nord,2
nord,1
nord,1
nord,3
süd,1

SELECT region, code FROM Venues UNION ALL SELECT tag, weight FROM Tags ORDER BY region DESC, code
rows 12
west,\N
süd,1
süd,2
nord,\N
nord,1
nord,1
nord,2
,-5
,3
\N,\N
\N,4
\N,7

SELECT region FROM Venues UNION ALL SELECT region FROM Halls UNION ALL SELECT region FROM Shows LIMIT 3 OFFSET 6
rows 3
\N
süd
nord

SELECT COUNT(*) FROM (SELECT region FROM Venues UNION ALL SELECT region FROM Halls UNION ALL SELECT region FROM Shows) x
rows 1
23

SELECT r, COUNT(*) AS n FROM (SELECT region AS r FROM Venues UNION ALL SELECT region FROM Halls UNION ALL SELECT region FROM Shows) x GROUP BY r HAVING COUNT(*) > 3 ORDER BY n DESC
rows 2
nord,12
\N,5

SELECT MIN(region), MAX(region), MIN(hall), MAX(hall), MIN(lit), MAX(lit), SUM(seats), COUNT(*), COUNT(hall) FROM Halls
rows 1
,süd,\x,\xff,false,true,330,8,6

SELECT region, SUM(DIV(seats, 10)) FROM Halls WHERE seats <> 0 GROUP BY region HAVING COUNT(*) > 1
rows 1
nord,16

SELECT region FROM Halls GROUP BY region HAVING DIV(100, MIN(seats)) > 0
refused 62

SELECT region FROM Halls GROUP BY region HAVING MIN(seats) > 0 AND DIV(100, MIN(seats)) > 1
rows 1
nord

SELECT DIV(1000, seats) FROM Halls
refused 62

SELECT DIV(1000, seats) FROM Halls ORDER BY 1 LIMIT 0
refused 62

SELECT DIV(1000, seats) FROM Halls WHERE seats > 0 OR seats IS NULL
rows 7
10
100
20
10
\N
\N
14

SELECT h.seats FROM Venues v JOIN Halls h ON v.region = h.region AND v.code = h.code AND DIV(100, h.seats) > 0
refused 62

SELECT h.seats FROM Venues v JOIN Halls h ON v.region = h.region AND v.code = h.code AND h.seats <> 0 AND DIV(100, h.seats) > 0
rows 3
100
50
100

SELECT h.seats FROM Venues v LEFT JOIN Halls h ON v.region = h.region AND v.code = h.code WHERE DIV(100, h.seats) > 0
refused 62

SELECT v.code FROM Venues v LEFT JOIN Halls h ON v.code = h.code AND v.region = h.region WHERE h.lit
rows 2
1
-5

SELECT CASE WHEN price IS NULL THEN 'free?' WHEN price > 20 THEN 'dear' ELSE 'cheap' END, IFNULL(title, 'untitled') FROM Shows
rows 8
dear,漢字
cheap,untitled
free?,Late show
cheap,Matinee
dear,Late show
cheap,"Duo, ""live"""
cheap,
free?,Late show

SELECT COALESCE(price, day, 0) + IF(night, 100, 0) FROM Shows
rows 8
130
5
102
20
130
20
0
4

SELECT hall || b'\x2d' || hall, title || ' (' || region || ')' FROM Shows WHERE day IS NOT NULL
rows 7
\x41002d4100,漢字 (süd)
\x412d41,Late show (nord)
\x412d41,Matinee (nord)
\x412d41,Late show (nord)
\N,"Duo, ""live"" (nord)"
\x2d, ()
\N,\N

# Refusals over three levels.

SELECT region FROM Venues v JOIN Halls h ON v.region = h.region
refused 12

SELECT v.seats FROM Venues v JOIN Halls h ON v.region = h.region
refused 11

SELECT v.title FROM Venues v JOIN Halls h ON v.region = s.region JOIN Shows s ON s.region = h.region
refused 11

SELECT title FROM Venues v JOIN Halls h ON TRUE JOIN Shows s ON TRUE
refused 12

SELECT seats, price FROM Venues v JOIN Halls h ON v.code = h.code JOIN Shows s ON s.hall = h.hall WHERE seats = price
rows 1
0,0

SELECT v.region FROM Venues v JOIN Halls h ON v.hall = h.hall
refused 11

SELECT 1 FROM Venues v JOIN Halls h ON v.code = h.hall
refused 13

SELECT 1 FROM Venues WHERE open = 1
refused 13

SELECT 1 FROM Venues WHERE seal = 'a'
refused 13

SELECT SUM(open) FROM Venues
refused 13

SELECT SUM(seal) FROM Venues
refused 13

SELECT seal LIKE 'a' FROM Venues
refused 13

SELECT open + 1 FROM Venues
refused 13

SELECT LENGTH(open) FROM Venues
refused 13

SELECT h.region FROM Venues v JOIN Halls h ON v.region = h.region GROUP BY v.region
refused 14

SELECT open FROM Venues UNION ALL SELECT code FROM Venues
refused 20

SELECT seal FROM Venues UNION ALL SELECT title FROM Venues
refused 20

SELECT seal FROM Venues UNION ALL SELECT hall FROM Halls WHERE hall > b'B'
rows 8
\N
\x00
\x00ff
\x
\x61
\xff
\N
\xff

SELECT MAX(open), MIN(open) FROM Venues GROUP BY region
rows 4
\N,\N
true,false
true,true
false,false
