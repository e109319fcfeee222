#!/usr/bin/env python3
"""Asks the proved program spansql queries that are made at random, and compares its answers with those of the reference.

    at_random.py [--sets N] [--texts N] [--seed N]      N sets, of N query texts each
    at_random.py .. --write FOLDER                      writes the scripts and their schemas there, and asks nothing

Of each set the rows are made at random too, and the keys are cut into slots at some of the root rows. The query texts are made for the planner:
tables of one family and of two, joined by the whole root key, by a part of it or by anything, LEFT JOINs, derived tables, unions, conditions that
bound root keys beside others, and expressions that may fault. The same seed makes the same sets. Each query that is answered otherwise is printed,
and the status is then 1.
"""
import argparse
import os
import random
import subprocess
import sys
import tempfile

import reference
import run
import tables

# The schemas, one after another: keys of texts and numbers; keys of numbers, of two tables with one length; and keys of numbers whose length
# doesn't decide their table, since two tables have the table's number at different places, or one has eight bytes more for eight columns.
SCHEMAS = ("""CREATE TABLE A (k INT64, s STRING(MAX), n INT64) PRIMARY KEY (k);
CREATE TABLE B (k INT64, b INT64, s STRING(MAX), n INT64) PRIMARY KEY (k, b DESC),
  INTERLEAVE IN PARENT A ON DELETE CASCADE;
CREATE TABLE C (k INT64, b INT64, c STRING(8), n INT64) PRIMARY KEY (k, b DESC, c),
  INTERLEAVE IN PARENT B ON DELETE CASCADE;
CREATE TABLE D (p STRING(8), q INT64, n INT64) PRIMARY KEY (p DESC, q);
CREATE TABLE E (p STRING(8), q INT64, e INT64, s STRING(MAX)) PRIMARY KEY (p DESC, q, e),
  INTERLEAVE IN PARENT D ON DELETE CASCADE
""", """CREATE TABLE A (k INT64, s STRING(MAX), n INT64) PRIMARY KEY (k);
CREATE TABLE B (k INT64, b INT64, s STRING(MAX), n INT64) PRIMARY KEY (k, b DESC),
  INTERLEAVE IN PARENT A ON DELETE CASCADE;
CREATE TABLE C (k INT64, b INT64, c INT64, n INT64) PRIMARY KEY (k, b DESC, c),
  INTERLEAVE IN PARENT B ON DELETE CASCADE;
CREATE TABLE F (k INT64, b INT64, n INT64, s STRING(MAX)) PRIMARY KEY (k, b),
  INTERLEAVE IN PARENT A ON DELETE CASCADE;
CREATE TABLE D (q INT64, p INT64, n INT64, s STRING(MAX)) PRIMARY KEY (q DESC, p);
CREATE TABLE E (q INT64, p INT64, e INT64, s STRING(MAX)) PRIMARY KEY (q DESC, p, e),
  INTERLEAVE IN PARENT D ON DELETE CASCADE
""", """CREATE TABLE A (k INT64, n INT64) PRIMARY KEY (k);
CREATE TABLE M (k INT64, a INT64, n INT64) PRIMARY KEY (k, a),
  INTERLEAVE IN PARENT A;
CREATE TABLE Y (k INT64, a INT64, b INT64, c INT64, n INT64) PRIMARY KEY (k, a, b, c),
  INTERLEAVE IN PARENT M;
CREATE TABLE T (k INT64, a INT64, b INT64, n INT64) PRIMARY KEY (k, a, b),
  INTERLEAVE IN PARENT A;
CREATE TABLE Z (k INT64, a INT64, b INT64, c INT64, n INT64, s STRING(MAX)) PRIMARY KEY (k, a, b, c),
  INTERLEAVE IN PARENT T;
CREATE TABLE W (k INT64, a INT64, b INT64, c INT64, d INT64, e INT64, f INT64, g INT64, n INT64, s STRING(MAX))
  PRIMARY KEY (k, a, b, c, d, e, f, g), INTERLEAVE IN PARENT A;
CREATE TABLE D (q INT64, n INT64, s STRING(MAX)) PRIMARY KEY (q)
""")
# The values of columns, each NULL now and then.
NUMBERS, TEXTS = (-1, 0, 1, 2, 3, 4, 257), ("", "a", "ab", "b", "é", "abcdefgh")
# The parameters that each script sets: their types and cells.
PARAMETERS = {"i": ("INT64", "2"), "s": ("STRING", "ab"), "z": ("INT64", "\\N")}
COMPARISONS = ("=", "<", "<=", ">", ">=", "<>")
# How many rows are made for a table, those of one key counted apart, and how many items a FROM has at most.
LEAST_ROWS, MOST_ROWS, MOST_ITEMS = 3, 10, 3


def made_rows(pick, schema):
    """The rows of each table, at random: a child's keys begin with those of its parent's rows."""
    rows = {}
    for name, table in schema.items():
        above = table.parent and rows[reference.folded(table.parent.name)]
        found = {}
        for _ in range(pick.randint(LEAST_ROWS, MOST_ROWS)):
            row = [made_value(pick, kind) for _, kind, _, _ in table.columns]
            front = tables.key_of(table.parent, pick.choice(above)) if table.parent else ()
            row[:len(front)] = front
            found[tables.key_of(table, row)] = tuple(row)
        rows[name] = tables.ordered(list(found.values()), table.key)
    return rows


def made_value(pick, kind):
    if pick.random() < 0.15:
        return None
    return pick.choice(NUMBERS if kind == "INT64" else TEXTS)


class Item:
    """An item of a FROM: its text, and its columns with their types. A table has its root table, and the names of that one's key."""

    def __init__(self, name, text, columns, root=None, root_key=()):
        self.name, self.text, self.columns, self.root, self.root_key = name, text, columns, root, root_key


class Maker:
    """Makes query texts at random over a schema."""

    def __init__(self, pick, schema):
        self.pick, self.schema, self.tables_left, self.count = pick, schema, 0, 0

    def chance(self, share):
        return self.pick.random() < share

    def text(self):
        """A query text of at most eight table names."""
        self.tables_left, self.count = reference.MOST_TABLE_NAMES, 0
        return self.query(2)[0]

    def query(self, depth):
        """A query text, and the types of its columns."""
        text, kinds = self.block(depth)
        while self.tables_left and self.chance(0.15):
            text += " UNION ALL " + self.block(depth, kinds)[0]
        if self.chance(0.3):
            keys = self.pick.sample(range(1, len(kinds) + 1), self.pick.randint(1, len(kinds)))
            text += " ORDER BY " + ", ".join(f"{key}{self.pick.choice(('', ' ASC', ' DESC'))}" for key in keys)
        if self.chance(0.15):
            text += f" LIMIT {self.pick.choice((0, 1, 2, 3, 4, 5, 64, 65))}" + (f" OFFSET {self.pick.randint(0, 3)}" if self.chance(0.5) else "")
        return text, kinds

    def block(self, depth, kinds=None):
        """A block, and the types of its columns, which are these where they are given."""
        items, joins = self.sources(depth)
        conditions = [self.conjunct(items) for _ in range(self.pick.choice((0, 0, 0, 1, 1, 2, 3)))]
        where = " WHERE " + " AND ".join(conditions) if conditions else ""
        kinds = kinds or [self.pick.choice(("INT64", "INT64", "STRING")) for _ in range(self.pick.randint(1, 3))]
        # (columns alone take ways of their own where they are put in order, or each once)
        deepest, is_distinct = (0, 0.5) if self.chance(0.35) else (2, 0.15)
        if self.chance(0.25):
            outputs, rest = self.grouped(items, kinds)
        else:
            outputs, rest = [self.value(items, kind, deepest) for kind in kinds], ""
        distinct = "DISTINCT " if self.chance(is_distinct) else ""
        outputs = ", ".join(f"{text} AS c{place}" for place, text in enumerate(outputs))
        return f"SELECT {distinct}{outputs} FROM {joins}{where}{rest}", kinds

    def grouped(self, items, kinds):
        """The outputs of a grouped block, and its GROUP BY and HAVING."""
        names = columns_of(items)
        keys = self.pick.sample(names, min(len(names), self.pick.randint(0, 2)))
        outputs = [self.output_of_group(items, keys, kind) for kind in kinds]
        rest = " GROUP BY " + ", ".join(name for name, _ in keys) if keys else ""
        if self.chance(0.4):
            rest += f" HAVING COUNT(*) {self.pick.choice(COMPARISONS)} {self.pick.randint(0, 2)}"
        return outputs, rest

    def output_of_group(self, items, keys, kind):
        fitting = [name for name, of_key in keys if of_key == kind]
        if fitting and self.chance(0.5):
            return self.pick.choice(fitting)
        if kind == "INT64" and self.chance(0.5):
            return self.pick.choice(("COUNT(*)", f"COUNT({self.value(items, 'STRING', 1)})", f"SUM({self.value(items, 'INT64', 1)})"))
        return f"{self.pick.choice(('MIN', 'MAX'))}({self.value(items, kind, 1)})"

    # ---- FROM

    def sources(self, depth):
        """The items of a FROM, and its text."""
        items = [self.item(depth)]
        text = items[0].text
        while self.tables_left and len(items) < MOST_ITEMS and self.chance(0.6):
            items.append(self.item(depth, items[0]))
            kind = self.pick.choice(("JOIN", "JOIN", "LEFT JOIN"))
            text += f" {kind} {items[-1].text} ON {self.on(items)}"
        return items, text

    def item(self, depth, first=None):
        """A table, in two cases of three one of the first item's family, or a derived table."""
        self.count += 1
        name = f"t{self.count}"
        if depth and self.tables_left > 1 and self.chance(0.15):
            text, kinds = self.query(depth - 1)
            return Item(name, f"({text}) {name}", [(f"c{place}", kind) for place, kind in enumerate(kinds)])
        self.tables_left -= 1
        found = list(self.schema.values())
        if first and first.root and self.chance(0.67):
            found = [table for table in found if root_of(table) is first.root]
        table = self.pick.choice(found)
        root = root_of(table)
        key = [root.columns[place][0] for place, _ in root.key]
        return Item(name, f"{table.name} {name}", [(column[0], column[1]) for column in table.columns], root, key)

    def on(self, items):
        """An ON: by the whole root key, by a part of it, or by anything."""
        first, last = items[0], items[-1]
        conditions = []
        if first.root and first.root is last.root and self.chance(0.8):
            other = first if self.chance(0.85) else self.pick.choice([it for it in items[:-1] if it.root is first.root])
            names = last.root_key if self.chance(0.75) else last.root_key[:1]
            conditions = [self.equality(f"{other.name}.{name}", f"{last.name}.{name}") for name in names]
        while not conditions or self.chance(0.25):
            conditions.append(self.condition(items, 1))
        self.pick.shuffle(conditions)
        return " AND ".join(conditions)

    def equality(self, one, other):
        return f"{one} = {other}" if self.chance(0.5) else f"{other} = {one}"

    # ---- expressions

    def conjunct(self, items):
        """A condition of a WHERE: often one that bounds a root key."""
        rooted = [it for it in items if it.root]
        if rooted and self.chance(0.6):
            it = self.pick.choice(rooted)
            return self.bound(f"{it.name}.{it.root_key[0]}", dict(it.columns)[it.root_key[0]])
        return self.condition(items, 2)

    def bound(self, column, kind):
        literals = [self.literal(kind) for _ in range(2)]
        form = self.pick.randint(0, 3)
        if form == 0:
            return f"{column} BETWEEN {literals[0]} AND {literals[1]}"
        sides = (column, literals[0]) if form < 3 else (literals[0], column)
        return f"{sides[0]} {self.pick.choice(COMPARISONS)} {sides[1]}"

    def literal(self, kind):
        if self.chance(0.15):
            return self.pick.choice(("@i", "@z")) if kind == "INT64" else "@s"
        if self.chance(0.04):
            return "NULL"
        return str(self.pick.choice(NUMBERS)) if kind == "INT64" else f"'{self.pick.choice(TEXTS)}'"

    def condition(self, items, depth):
        """A condition, in parentheses where it is one of several."""
        if self.chance(0.12):
            return f"DIV(4, {self.value(items, 'INT64', 0)}) {self.pick.choice(COMPARISONS)} {self.pick.randint(0, 2)}"
        form = self.pick.randint(0, 8 if depth else 5)
        kind = self.pick.choice(("INT64", "STRING"))
        one, other = self.value(items, kind, depth), self.value(items, kind, depth)
        if form <= 2:
            return f"{one} {self.pick.choice(COMPARISONS)} {other}"
        if form == 3:
            return f"{one} IS {self.pick.choice(('', 'NOT '))}NULL"
        if form == 4:
            return f"{one} {self.pick.choice(('', 'NOT '))}IN ({self.literal(kind)}, {other})"
        if form == 5:
            return f"{self.value(items, 'STRING', 0)} LIKE '{self.pick.choice(('a%', '%b', '_', '%'))}'"
        if form == 6:
            return f"NOT ({self.condition(items, depth - 1)})"
        word = self.pick.choice((" OR ", " AND "))
        return "(" + word.join(self.condition(items, depth - 1) for _ in range(self.pick.randint(2, 3))) + ")"

    def value(self, items, kind, depth):
        """An expression of a type: mostly a column."""
        names = [name for name, of_column in columns_of(items) if of_column == kind]
        if names and (not depth or self.chance(0.75)):
            return self.pick.choice(names)
        if not depth or self.chance(0.3):
            return self.literal(kind)
        one, other = self.value(items, kind, depth - 1), self.value(items, kind, depth - 1)
        if self.chance(0.3):
            return self.pick.choice((f"IFNULL({one}, {other})", f"COALESCE({one}, {other})", f"IF({self.condition(items, 0)}, {one}, {other})"))
        if kind == "STRING":
            return f"({one} || {other})"
        return self.pick.choice((f"({one} + {other})", f"({one} * {other})", f"-({one})", f"DIV({one}, {other})", f"MOD({one}, 2)",
                                 f"LENGTH({self.value(items, 'STRING', 0)})"))


def columns_of(items):
    """The names of all columns, with their types."""
    return [(f"{it.name}.{name}", kind) for it in items for name, kind in it.columns]


def root_of(table):
    return root_of(table.parent) if table.parent else table


class Set:
    """A script, and the answers that it wants."""

    def __init__(self, seed, number, count):
        pick = random.Random(f"{seed}/{number}")
        self.schema = SCHEMAS[number % len(SCHEMAS)]
        schema = tables.read_schema(self.schema)
        rows = made_rows(pick, schema)
        lines = [f"insert {schema[name].name} * {tables.record_text(row)}" for name, values in rows.items() for row in values]
        cuts = run.splits(f"{seed}/{number}", schema, rows)
        given = [f"param {name} {kind} {cell}" for name, (kind, cell) in PARAMETERS.items()]
        self.made = [*cuts, *lines, *(run.commit(len(cuts) + 1) if lines else ()), *run.ASKED, *given]
        maker = Maker(pick, schema)
        self.texts = [maker.text() for _ in range(count)]
        self.wanted = [wanted_answer(text, schema, rows) for text in self.texts]

    def script(self):
        return "".join(line + "\n" for line in [*self.made, *("query strong " + text for text in self.texts)])

    def wrong(self, output):
        """What is answered otherwise."""
        found = run.answers_of(output)[len(self.made):]
        if len(found) != len(self.texts):
            return [f"{len(found)} answers to {len(self.texts)} queries"]
        return [f"{text}\n  wanted {' | '.join(wanted)}\n  found  {' | '.join(answer)}"
                for text, wanted, answer in zip(self.texts, self.wanted, found) if wanted != answer]


def wanted_answer(text, schema, rows):
    """The answer's lines that the reference finds."""
    params = {name: (kind, tables.read_cell(kind, cell)) for name, (kind, cell) in PARAMETERS.items()}
    try:
        _, answer = reference.answer(text, schema, rows, params)
    except reference.Refused as why:
        return [f"refused {why.number}"]
    return [f"rows {len(answer)}"] + [tables.record_text(row) for row in answer]


def arguments():
    reader = argparse.ArgumentParser(description=__doc__.split("\n", maxsplit=1)[0], allow_abbrev=False)
    reader.add_argument("--sets", type=int, default=50)
    reader.add_argument("--texts", type=int, default=100)
    reader.add_argument("--seed", type=int, default=0)
    reader.add_argument("--write", metavar="FOLDER")
    return reader.parse_args()


def write_file(folder, name, text):
    path = os.path.join(folder, name)
    with open(path, "w", encoding="utf-8", newline="") as file:
        file.write(text)
    return path


def ask(of_set, folder):
    """The output of the program for the script of a set."""
    schema, script = write_file(folder, "schema", of_set.schema), write_file(folder, "script", of_set.script())
    done = subprocess.run([run.PROGRAM, "run", schema, script], stdin=subprocess.DEVNULL, capture_output=True, timeout=run.LONGEST, check=False)
    if done.returncode != 0:
        sys.exit(f"at_random: status {done.returncode}: {done.stderr.decode(errors='replace')}")
    return done.stdout.decode()


def main():
    words = arguments()
    sets = [Set(words.seed, number, words.texts) for number in range(words.sets)]
    if words.write:
        for number, of_set in enumerate(sets):
            write_file(words.write, f"set-{number}.schema", of_set.schema)
            write_file(words.write, f"set-{number}.script", of_set.script())
        return 0
    wrong = []
    with tempfile.TemporaryDirectory() as folder:
        for of_set in sets:
            wrong += of_set.wrong(ask(of_set, folder))
    print("\n\n".join(wrong))
    faults = sum(wanted == ["refused 62"] for it in sets for wanted in it.wanted)
    print(f"queries at random: {words.sets * words.texts - len(wrong)} of {words.sets * words.texts} answered as wanted, {faults} of them faults")
    return 1 if wrong else 0


if __name__ == "__main__":
    sys.exit(main())
