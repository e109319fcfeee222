SELECT uid FROM Users WHERE uid NOT IN (1, NULL)
rows 0

SELECT u.uid FROM Users u LEFT JOIN Albums a ON u.uid = a.uid WHERE a.name IS NULL
rows 1
2

SELECT u.uid FROM Users u LEFT JOIN Albums a ON u.uid = a.uid AND a.name IS NULL
rows 2
1
2
