SELECT uid FROM Users WHERE DIV(1, uid) = 1 AND uid > 0
rows 0

SELECT uid FROM Users WHERE DIV(1, uid) = 1
refused 62

SELECT uid FROM Users WHERE uid > 0 AND DIV(1, uid) = 1
rows 0
