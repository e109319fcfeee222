"""Asks SQLite the texts too: `python3 against_sqlite.py` prints what it answers otherwise, with the cause, and counts.

A text goes over token by token, so SQLite parses it by its own grammar and finds names by its own rules; only literals, parameters and the
calls that SQLite spells otherwise are rewritten. Tables are made in the order of their primary keys by SQLite itself. Joins are
written CROSS JOIN, which SQLite never turns round. Of refused texts it reports whether SQLite refuses them too.
"""
import collections
import re
import sqlite3
import sys

import check
import reference
import tables
from reference import BOOL, BYTES, RESERVED


def literal(value):
    if value is None:
        return "NULL"
    if isinstance(value, bool):
        return "TRUE" if value else "FALSE"
    if isinstance(value, bytes):
        return f"x'{value.hex()}'"
    if isinstance(value, int):
        return str(value) if value != reference.LEAST else "(-9223372036854775807 - 1)"
    return "'" + value.replace("'", "''") + "'" if "\0" not in value else f"CAST(x'{value.encode().hex()}' AS TEXT)"


def translated(text, params):
    """The text as SQLite spells it."""
    params = {reference.folded(name): value for name, (_, value) in params.items()}
    found, at, words = reference.tokens(text), 0, []
    while found[at][0] != "end":
        kind, spelling = found[at]
        calls = found[at + 1] == ("sign", "(")
        if kind == "string":
            words.append(literal(reference.unescaped(spelling[1:-1])))
            if at and found[at - 1][1].upper() == "LIKE":
                words.append("ESCAPE '\\'")
        elif kind == "bytes":
            words.append(literal(reference.unescaped(spelling[2:-1]).encode("latin-1")))
        elif kind == "parameter":
            words.append(literal(params[reference.folded(spelling[1:])]) if reference.folded(spelling[1:]) in params else "?nope")
        elif kind == "word" and calls and spelling.upper() in CALLS:
            operands, at = operands_after(found, at + 1, params)
            words.append(CALLS[spelling.upper()](*operands))
        elif kind == "word" and spelling.upper() == "JOIN" and found[at - 1][1].upper() not in ("LEFT", "OUTER"):
            if words[-1] == "INNER":
                words.pop()
            words.append("CROSS JOIN")
        elif kind == "word" and spelling.upper() not in RESERVED | {"OFFSET"} and not calls:
            words.append(f"[{spelling}]")
        elif kind == "word" and spelling.upper() == "OFFSET" and found[at + 1][0] != "int":
            words.append(f"[{spelling}]")
        else:
            words.append(spelling)
        at += 1
    return " ".join(words)


def operands_after(found, at, params):
    """The operands between the parenthesis here and its end, spelt for SQLite, and where that end is."""
    depth, start, operands = 0, at + 1, []
    while True:
        spelling = found[at][1] if found[at][0] == "sign" else ""
        depth += (spelling == "(") - (spelling == ")")
        if depth == 1 and spelling == "," or depth == 0:
            operands.append(" ".join(word for _, word in found[start:at]))
            start = at + 1
        if depth == 0:
            given = {name: (None, value) for name, value in params.items()}
            return [translated(operand, given) for operand in operands], at
        at += 1


CALLS = {
    "DIV": lambda x, y: f"(({x}) / ({y}))",
    "MOD": lambda x, y: f"(({x}) % ({y}))",
    "IF": lambda x, y, z: f"IIF({x}, {y}, {z})",
    "STARTS_WITH": lambda x, y: f"IIF(length({y}) = 0 AND ({x}) IS NOT NULL, TRUE, substr({x}, 1, length({y})) = ({y}))",
    "COALESCE": lambda *operands: f"COALESCE({', '.join(operands)}, NULL)",
    "LENGTH": lambda x: f"LENGTH({x})",
}


def text_or_bytes(raw):
    """SQLite's `||` makes a TEXT of two BLOBs: what is no UTF-8 stays bytes."""
    try:
        return raw.decode()
    except UnicodeDecodeError:
        return raw


def database(schema, rows):
    base = sqlite3.connect(":memory:")
    base.text_factory = text_or_bytes
    base.execute("PRAGMA case_sensitive_like = ON")
    base.execute("PRAGMA automatic_index = OFF")
    types = {"INT64": "INTEGER", "STRING": "TEXT", "BYTES": "BLOB", "BOOL": "INTEGER"}
    for name, table in schema.items():
        columns = ", ".join(f"[{column[0]}] {types[column[1]]}" for column in table.columns)
        base.execute(f"CREATE TABLE [raw_{name}] ({columns})")
        base.execute(f"CREATE TABLE [{table.name}] ({columns})")
        for row in reversed(rows[name]):
            base.execute(f"INSERT INTO [raw_{name}] VALUES ({', '.join('?' for _ in row)})", row)
        keys = ", ".join(f"[{table.columns[place][0]}] {'DESC' if is_desc else 'ASC'}" for place, is_desc in table.key)
        base.execute(f"INSERT INTO [{table.name}] SELECT * FROM [raw_{name}] ORDER BY {keys}")
    return base


def value(kind, found):
    if kind == BOOL and found in (0, 1):
        return bool(found)
    if kind == BYTES and isinstance(found, str):
        return found.encode()
    return found


def asked(base, text, params, kinds):
    """("rows", rows) or ("error", its message)."""
    try:
        found = base.execute(translated(text, params)).fetchall()
    except (sqlite3.Error, TypeError, reference.Refused, OverflowError) as why:
        return "error", str(why)
    return "rows", [tuple(value(kind, one) for kind, one in zip(kinds, row)) for row in found]


def cause(text, wanted, found):
    """Why SQLite may answer otherwise, by a definition; None where nothing here explains it."""
    capitals = text.upper()
    if found[0] == "error" and "HAVING clause on a non-aggregate query" in found[1]:
        return "HAVING without GROUP BY and aggregate: SQLite refuses it"
    if found[0] == "error" and "integer overflow" in found[1]:
        return "SUM: SQLite faults where a partial sum leaves INT64, ours only where the exact total does"
    if found[0] == "error":
        return None
    if "\\X00" in capitals and re.search(r"LENGTH|LIKE", capitals):
        return "NUL in a text: SQLite's LENGTH and LIKE end at it"
    if any(isinstance(one, float) for row in found[1] for one in row):
        return "SQLite turns a sum beyond INT64 into a REAL"
    if sorted(map(repr, wanted)) == sorted(map(repr, found[1])) and re.search(r"GROUP BY|DISTINCT", capitals):
        return "order of groups: ours by first appearance, SQLite's sorted"
    if sorted(map(repr, wanted)) == sorted(map(repr, found[1])) and re.search(r"\(SELECT [^()]* ORDER BY", capitals):
        return "order of a derived table: ours is that of its ORDER BY, SQLite's is not kept"
    return None


def main(words):
    if words:
        print(f"against_sqlite.py: takes no words, and was given {' '.join(words)}", file=sys.stderr)
        return 2
    counts, refused, faults, status = collections.Counter(), collections.Counter(), collections.Counter(), 0
    for name, schema, rows, path in check.sets():
        base = database(schema, rows)
        for part in check.parts(path):
            if part.text is None:
                continue
            first = part.wanted[0]
            if first == "refused 62":
                found = asked(base, part.text, part.params, [])
                faults["error: " + found[1] if found[0] == "error" else "rows (NULL or REAL in the place of the fault)"] += 1
            elif first.startswith("refused"):
                refused[first, asked(base, part.text, part.params, [])[0]] += 1
            else:
                kinds, wanted = reference.answer(part.text, schema, rows, part.params)
                assert [tables.record_text(row) for row in wanted] == part.wanted[1:]
                found = asked(base, part.text, part.params, kinds)
                if found == ("rows", wanted):
                    counts["the same rows in the same order"] += 1
                    continue
                why = cause(part.text, wanted, found)
                counts[why or "NOT EXPLAINED"] += 1
                status = status if why else 1
                print(f"{name}: {part.text}\n  here {wanted}\n  SQLite {found[1]}\n  cause {why}")
    for title, counted in (("texts with rows", counts), ("texts refused 62", faults)):
        print(title)
        for key, count in sorted(counted.items(), key=lambda pair: -pair[1]):
            print(f"  {count:4} {key}")
    print("texts refused otherwise, and whether SQLite refuses them too")
    for number in sorted({key[0] for key in refused}, key=lambda text: (len(text), text)):
        print(f"  {number}: SQLite refuses {refused[number, 'error']}, takes {refused[number, 'rows']}")
    return status


if __name__ == "__main__":
    sys.exit(main(sys.argv[1:]))
