SELECT SUM(aid) FROM Albums
rows 1
9223372036854775807

SELECT SUM(aid) FROM Albums WHERE uid < 3
refused 62

SELECT SUM(aid) FROM Albums WHERE uid > 1
rows 1
0
