#!/usr/bin/env python3
"""Counts the allocations of a query by the proved program: one whose range is a single key asks for as many with 256 rows in its slot as with one,
so that it touches the rows of its range alone; and so does one that only counts all rows, of which none is read. A query over the whole table asks
for more with more rows, or nothing would be measured here.

The program and the counting library are those of run.py.
"""
import os
import subprocess
import sys
import tempfile

import run

OF_ONE_COST = {
    "one key": "SELECT uid, email FROM Users WHERE uid = 1",
    "one key of a further condition": "SELECT uid FROM Users WHERE uid = 1 AND email IS NULL",
    "one root of a join": "SELECT u.uid, a.aid FROM Users u JOIN Albums a ON a.uid = u.uid WHERE u.uid = 1",
    "keys at most the first": "SELECT uid FROM Users WHERE uid <= 1",
    "rows that are counted": "SELECT COUNT(*) FROM Users",
}
WHOLE = "SELECT uid, email FROM Users"
SCHEMA = """CREATE TABLE Users (uid INT64 NOT NULL, email STRING(MAX)) PRIMARY KEY (uid);
CREATE TABLE Albums (uid INT64 NOT NULL, aid INT64 NOT NULL) PRIMARY KEY (uid, aid), INTERLEAVE IN PARENT Users ON DELETE CASCADE
"""


def script_of(users, queries):
    """A script that commits this number of Users, the first with two Albums, and asks the queries."""
    lines = ["load Users *", *(f"{uid},\\N" for uid in range(1, users + 1)), "end", "load Albums *", "1,1", "1,2", "end"]
    lines += ["begin", "prepare 1 0", "clock 10 20", "decide 1", "clock 30 40", "apply 1 0"]
    return "".join(f"{line}\n" for line in lines + [f"query strong {text}" for text in queries])


def allocations_of(folder, library, users, queries):
    """How many allocations a run of such a script asks for."""
    schema, script = os.path.join(folder, "schema"), os.path.join(folder, "script")
    for path, text in ((schema, SCHEMA), (script, script_of(users, queries))):
        with open(path, "w", encoding="utf-8") as file:
            file.write(text)
    environment = dict(os.environ, LD_PRELOAD=library)
    ran = subprocess.run([run.PROGRAM, "run", schema, script], env=environment, capture_output=True, timeout=run.LONGEST, check=True)
    if b"refused" in ran.stdout:
        sys.exit(f"scans: refused: {queries}")
    return run.allocations_of(ran.stderr)


def allocations_of_query(folder, library, users, text):
    """How many allocations the query asks for once it has been asked before."""
    once, twice = (allocations_of(folder, library, users, [text] * times) for times in (1, 2))
    return twice - once


def main():
    run.build()
    wrong = 0
    with tempfile.TemporaryDirectory() as folder:
        library = run.built_library(folder, "refuse_allocation")
        for name, text in OF_ONE_COST.items():
            few, many = (allocations_of_query(folder, library, users, text) for users in (1, 256))
            print(f"scans: {name}: {few} allocations with 1 row, {many} with 256")
            wrong += few != many
        few, many = (allocations_of_query(folder, library, users, WHOLE) for users in (1, 256))
        print(f"scans: the whole table: {few} allocations with 1 row, {many} with 256")
        wrong += few >= many
    print(f"scans: {wrong} wrong" if wrong else "scans: as wanted")
    return int(wrong > 0)


if __name__ == "__main__":
    if sys.argv[1:]:
        print(f"scans.py: takes no words, and was given {' '.join(sys.argv[1:])}", file=sys.stderr)
        sys.exit(2)
    sys.exit(main())
