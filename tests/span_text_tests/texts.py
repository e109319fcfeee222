"""Texts of queries and of schemas with their answers, worked out by hand from docs/SQL.md: the number that each is refused with, 0 where it
is not, and the byte where, from 0: END where that is the end of the text, None where the refusal has no place."""

END = "end"

USERS = """CREATE TABLE Users (uid INT64 NOT NULL, email STRING(MAX))
  PRIMARY KEY (uid);
CREATE TABLE Albums (uid INT64 NOT NULL, aid INT64 NOT NULL,
  name STRING(MAX)) PRIMARY KEY (uid, aid),
  INTERLEAVE IN PARENT Users ON DELETE CASCADE"""

JOIN = "SELECT u.uid FROM Users u JOIN Albums a ON a.uid = u.uid WHERE u.uid BETWEEN 2 AND 5"

# Query texts in the grammar.
READ = [
    "SELECT 1 FROM t",
    "select all * from T;",
    JOIN,
    "SELECT DISTINCT a, b.c AS d, e f, COUNT(*), t.*, IF(a, 1, 2), f() FROM t AS x",
    "SELECT a FROM t LEFT OUTER JOIN u ON a = b INNER JOIN (SELECT * FROM v) w ON TRUE LEFT JOIN y ON NULL",
    "SELECT a FROM t WHERE NOT a IS NOT NULL AND b NOT IN (1, NULL) OR c NOT LIKE 'x' AND d NOT BETWEEN 1 AND 2",
    "SELECT -a * -1 || b + c - @p, CASE WHEN a THEN b END, CASE a WHEN 1 THEN 2 WHEN 3 THEN 4 ELSE 5 END FROM t",
    "SELECT a FROM t GROUP BY a, t.b HAVING COUNT(*) > 1 ORDER BY a DESC, 2 ASC, b LIMIT 1 OFFSET 2",
    "SELECT a FROM t UNION ALL SELECT b FROM u UNION ALL SELECT c FROM v ORDER BY 1 LIMIT 3;",
    "SELECT offset FROM Users OFFSET JOIN Table key ON b'x' = \"y\"",
    "SELECT a <> b, a != b, a <= b, a >= b, a < b, a > b, (a), ((5)) FROM t -- end",
    "SELECT uid FROM Users -- WHERE",
    "SELECT '-- ' FROM Users",
    "SELECT a\tFROM\rt",
    "SELECT 9223372036854775807, 007 FROM t",
    "SELECT -9223372036854775807 FROM t",
    "SELECT a FROM t LIMIT 9223372036854775807 OFFSET 009223372036854775807",
    "SELECT a<=b,a>=b,a<b,a!=b,a=b,a||b,a+b,a*b FROM t",
]

# Query texts that are refused, and where.
REFUSED = [
    ("", 3, END),
    (";", 3, 0),
    ("SELECT a", 3, END),
    ("SELECT a FROM", 3, END),
    ("SELECT a FROM t t t", 3, 18),
    ("SELECT a FROM t; SELECT a FROM t", 3, 17),
    ("SELECT a FROM t; x", 3, 17),
    ("SELECT a FROM t;;", 3, 16),
    ("SELECT a FROM select", 3, 14),
    ("SELECT a AS from FROM t", 3, 12),
    ("SELECT FROM t", 3, 7),
    ("SELECT a FROM (SELECT b FROM t)", 3, END),
    ("SELECT a, COUNT(*), FROM t AS x", 3, 20),
    ("SELECT a FROM t AS x, WHERE", 3, 20),
    ("SELECT a b c FROM t", 3, 11),
    ("SELECT a FROM t WHERE", 3, END),
    ("SELECT a FROM t WHERE a = b = c", 3, 28),
    ("SELECT a FROM t WHERE NOT", 3, END),
    ("SELECT a FROM t LIMIT a", 3, 22),
    ("SELECT a FROM t OFFSET 1", 3, 23),
    ("SELECT a FROM t LIMIT 1 OFFSET", 3, END),
    ("SELECT a FROM t UNION SELECT a FROM t", 3, 22),
    ("SELECT a FROM t UNION DISTINCT SELECT a FROM t", 3, 22),
    ("SELECT a FROM t CROSS JOIN u", 3, END),
    ("SELECT a, FROM t", 3, 10),
    ("SELECT a.b.c FROM t", 3, 10),
    ("SELECT 1.5 FROM t", 3, 8),
    ("SELECT a FROM t WHERE a BETWEEN 1", 3, END),
    ("SELECT a FROM t WHERE a LIKE b", 3, 29),
    ("SELECT CASE END FROM t", 3, 12),
    ("SELECT a FROM t WHERE a.*", 3, 24),
    ("SELECT (a FROM t", 3, 10),
    ("SELECT a) FROM t", 3, 8),
    ("SELECT uid FROM", 3, END),
    ("SELECT 'a' -- ' FROM Users", 3, END),
    ("SELECT b 'x' FROM t", 3, 9),
    ("SELECT ab'x' FROM t", 3, 9),
    ("SELECT a <=> b FROM t", 3, 11),
    (USERS.replace("\n", " "), 3, 0),
    # A name before `.*` is at fault only where no name is allowed; else the dot or the star is.
    ("SELECT -max.* FROM t", 3, 12),
    ("SELECT a b.* FROM t", 3, 10),
    ("SELECT a FROM t LIMIT 1 offset.*", 3, 30),
    ("SELECT a FROM t WHERE TRUE b.*", 3, 27),
    ("SELECT a.* FROM t b.* JOIN", 3, 19),
    # No token, also before a fault of the grammar.
    ("SELECT 'abc", 2, 7),
    ("SELECT @from FROM t", 2, 7),
    ("SELECT 9223372036854775808 FROM t", 2, 7),
    ("SELECT - 9223372036854775808 FROM t", 2, 9),
    ("SELECT a FROM t LIMIT 9223372036854775808", 2, 22),
    ("SELECT a FROM t ORDER BY 18446744073709551616", 2, 25),
    ("SELECT FROM 9223372036854775808", 2, 12),
    ("SELECT '\\x80' FROM t", 2, 7),
    ("SELECT '\\ud800' FROM t", 2, 7),
    ("SELECT '\\uDFFF' FROM t", 2, 7),
    ("SELECT '\\u12' FROM t", 2, 7),
    ("SELECT '\\a' FROM t", 2, 7),
    ("SELECT '\\X41' FROM t", 2, 7),
    ("SELECT b'ä' FROM t", 2, 7),
    ("SELECT b'\\u0041' FROM t", 2, 7),
    ("SELECT 1a FROM t", 2, 7),
    ("SELECT 1_ FROM t", 2, 7),
    ("SELECT a @ p FROM t", 2, 9),
    ("SELECT @1 FROM t", 2, 7),
    ("SELECT @select FROM t", 2, 7),
    ("SELECT @--a", 2, 7),
    ("SELECT a / b FROM t", 2, 9),
    ("SELECT a | b FROM t", 2, 9),
    ("SELECT a ! b FROM t", 2, 9),
    ("SELECT `a` FROM t", 2, 7),
    ("SELECT ä FROM t", 2, 7),
    ("SELECT 1 '--", 2, 9),
    ("SELECT \"a' FROM t", 2, 7),
]

# What is opened, and what closes it.
OPENINGS = [("(", ")"), ("NOT ", ""), ("- ", ""), ("f(", ")"), ("IF(", ")"), ("CASE WHEN ", " THEN 1 END"), ("1 IN (", ")"), ("(SELECT a FROM ", ") x")]


def nested(opening, close, times):
    """An opening, one within another, this number of times."""
    if "FROM" in opening:
        return "SELECT a FROM " + opening * times + "t" + close * times
    return "SELECT " + opening * times + "1" + close * times + " FROM t"


# Texts at a limit and beyond it: the 33rd opening, that of a call being its parenthesis; the longest words and texts. A fault before the
# 33rd opening is the first.
LIMITS = [(nested(opening, close, 32), 0, None) for opening, close in OPENINGS]
LIMITS += [(nested(opening, close, 33), 4, len("SELECT ") + 32 * len(opening)) for opening, close in OPENINGS[:3]]
LIMITS += [
    ("SELECT " + "f(" * 33 + "1" + ")" * 33 + " FROM t", 4, 7 + 2 * 32 + 1),
    ("SELECT " + "IF(" * 33 + "1" + ")" * 33 + " FROM t", 4, 7 + 3 * 32 + 2),
    ("SELECT " + "CASE WHEN " * 33 + "1" + " THEN 1 END" * 33 + " FROM t", 4, 7 + 10 * 32),
    ("SELECT " + "1 IN (" * 33 + "1" + ")" * 33 + " FROM t", 4, 7 + 6 * 32 + 5),
    ("SELECT a FROM " + "(SELECT a FROM " * 33 + "t" + ") x" * 33, 4, 14 + 15 * 32),
    ("SELECT " + "(" * 32 + "- 1", 4, 39),
    ("SELECT " + "(" * 32 + "NOT 1", 4, 39),
    ("SELECT " + "(" * 33 + ")", 4, 39),
    ("SELECT " + "(" * 32 + ")", 3, 39),
    ("SELECT , " + "(" * 33 + "1", 3, 7),
    ("SELECT " + "(" * 32 + "IF 1", 3, 42),
    ("SELECT " + "(" * 32 + "f(1", 4, 40),
    ("SELECT a" + " OR a" * 13000 + " FROM t", 0, None),
    ("SELECT a IN (1" + ", 1" * 20000 + ") FROM t", 0, None),
    ("SELECT a FROM t" + " " * 65521, 0, None),
    ("SELECT a FROM t" + " " * 65522, 1, 65536),
    ("SELECT" + " " * 65531, 1, 65536),
    ("ä" * 32768 + "a", 1, 65536),
    ("SELECT {0} FROM {0} AS {0}".format("w" * 128), 0, None),
    ("SELECT {0} FROM {0} AS {0}w".format("w" * 128), 2, 273),
    ("SELECT @" + "p" * 128 + " FROM t", 0, None),
    ("SELECT @" + "p" * 129 + " FROM t", 2, 7),
]

# Each pair has the words before a name and after it, of texts of queries: no reserved word is a name there.
AROUND = [
    ("SELECT a FROM ", ""),
    ("SELECT a FROM t JOIN ", " ON TRUE"),
    ("SELECT a AS ", " FROM t"),
    ("SELECT a FROM t AS ", ""),
    ("SELECT t.", " FROM t"),
    ("SELECT a FROM t GROUP BY ", ""),
    ("SELECT a FROM t ORDER BY ", ""),
    ("SELECT a = @", " FROM t"),
]


# Texts of schemas that are taken, or refused.
SCHEMAS = [
    (USERS, 0, None),
    (USERS + ";", 0, None),
    (USERS + ";;", 3, len(USERS) + 1),
    ("", 3, END),
    (JOIN, 3, 0),
    ("CREATE TABLE t () PRIMARY KEY (a)", 3, 16),
    ("CREATE TABLE t (a INT64) PRIMARY KEY ()", 3, 38),
    ("CREATE TABLE t (a STRING) PRIMARY KEY (a)", 3, 24),
    ("CREATE TABLE t (a FLOAT64) PRIMARY KEY (a)", 3, 18),
    ("CREATE TABLE t (a INT64) PRIMARY KEY (a);;", 3, 41),
    ("CREATE TABLE t ! (a INT64) PRIMARY KEY (b)", 2, 15),
    ("CREATE TABLE t.* (a INT64) PRIMARY KEY (a)", 3, 14),
    ("CREATE table.* (a INT64) PRIMARY KEY (a)", 3, 12),
    ("CREATE t.* (a INT64) PRIMARY KEY (a)", 3, 7),
    # The rules of schemas.
    ("CREATE TABLE t (a INT64) PRIMARY KEY (a); create table T (a int64) primary key (b)", 30, None),
    ("CREATE TABLE t (a INT64) PRIMARY KEY (a), INTERLEAVE IN PARENT t", 31, None),
    ("CREATE TABLE u (a INT64, b INT64) PRIMARY KEY (a, b), INTERLEAVE IN PARENT t; CREATE TABLE t (a INT64) PRIMARY KEY (a)", 31, None),
    ("CREATE TABLE t (a STRING(5)) PRIMARY KEY (a); CREATE TABLE u (a STRING(6), b BOOL) PRIMARY KEY (a, b), INTERLEAVE IN PARENT t", 32, None),
    ("CREATE TABLE t (a BOOL) PRIMARY KEY (a DESC); CREATE TABLE u (a BOOL, b BOOL) PRIMARY KEY (a, b), INTERLEAVE IN PARENT t", 32, None),
    ("CREATE TABLE t (a INT64) PRIMARY KEY (a); CREATE TABLE u (A INT64) PRIMARY KEY (A), INTERLEAVE IN PARENT T", 32, None),
    ("CREATE TABLE t (a INT64) PRIMARY KEY (b)", 35, None),
    ("CREATE TABLE t (a INT64, A BOOL) PRIMARY KEY (a)", 35, None),
    ("CREATE TABLE t (a INT64) PRIMARY KEY (a, A)", 35, None),
    # Lengths of columns.
    ("CREATE TABLE t (a STRING(0)) PRIMARY KEY (a)", 35, None),
    ("CREATE TABLE t (a STRING(1)) PRIMARY KEY (a)", 0, None),
    ("CREATE TABLE t (a STRING(0001048576)) PRIMARY KEY (a)", 0, None),
    ("CREATE TABLE t (a BYTES(1048577)) PRIMARY KEY (a)", 35, None),
    ("CREATE TABLE t (a BYTES(9223372036854775807)) PRIMARY KEY (a)", 35, None),
    ("CREATE TABLE t (a STRING(9223372036854775808)) PRIMARY KEY (a)", 2, 25),
    ("CREATE TABLE t (a STRING(-1)) PRIMARY KEY (a)", 3, 25),
    ("CREATE TABLE t (a STRING(1 MAX)) PRIMARY KEY (a)", 3, 27),
    # Words of the grammar that are names where they are no words of it.
    ("create table no (max bytes(7)) primary key (max desc); create table key (max bytes(7), b bool not null) primary key (max desc, b asc),"
     " interleave in parent no on delete no action;", 0, None),
    # Comments end with their line.
    ("-- a\nCREATE TABLE t -- @ / ä 1a 'b\n(a INT64) PRIMARY KEY (a)--", 0, None),
    ("CREATE TABLE t (a INT64)-- 2\rPRIMARY KEY (a)\n", 3, END),
    ("CREATE TABLE t (a INT64) -\n- PRIMARY KEY (a)", 3, 25),
    ("CREATE TABLE 'a -- \n'", 2, 13),
    ("-- a\n!", 2, 5),
    ("CREATE\t\r\n TABLE t (a INT64) PRIMARY KEY (a)", 0, None),
    # Limits.
    ("".join(f"CREATE TABLE t{i} (a INT64) PRIMARY KEY (a);" for i in range(64)), 0, None),
    ("".join(f"CREATE TABLE t{i} (a INT64) PRIMARY KEY (a);" for i in range(65)), 33, None),
    ("CREATE TABLE t (" + ", ".join(f"a{i} BOOL" for i in range(64)) + ") PRIMARY KEY (a63, a0)", 0, None),
    ("CREATE TABLE t (" + ", ".join(f"a{i} BOOL" for i in range(65)) + ") PRIMARY KEY (a63, a0)", 33, None),
    ("CREATE TABLE t (a INT64) PRIMARY KEY (a)" + " " * 65496, 0, None),
    ("CREATE TABLE t (a INT64) PRIMARY KEY (a)" + " " * 65497, 1, 65536),
    ("CREATE TABLE {0} ({0} INT64) PRIMARY KEY ({0})".format("w" * 128), 0, None),
    ("CREATE TABLE {0}w ({0} INT64) PRIMARY KEY ({0})".format("w" * 128), 2, 13),
]


def levels(count):
    """Tables each in the one before it, the first in none."""
    tables = []
    for level in range(1, count + 1):
        names = [f"k{i}" for i in range(level)]
        parent = f", INTERLEAVE IN PARENT t{level - 1}" if level > 1 else ""
        tables.append(f"CREATE TABLE t{level} (" + ", ".join(f"{name} INT64" for name in names) + f") PRIMARY KEY ({', '.join(names)}){parent}")
    return ";\n".join(tables)


SCHEMAS += [(levels(7), 0, None), (levels(8), 34, None)]

# Each pair has the words before a name and after it, of texts of schemas.
AROUND_IN_SCHEMAS = [
    ("CREATE TABLE ", " (a INT64) PRIMARY KEY (a)"),
    ("CREATE TABLE t (", " INT64) PRIMARY KEY (a)"),
    ("CREATE TABLE t (a INT64) PRIMARY KEY (", ")"),
    ("CREATE TABLE t (a INT64) PRIMARY KEY (a), INTERLEAVE IN PARENT ", ""),
]
