#!/usr/bin/env python3
"""Asks the proved program spansql the queries of this folder, and compares its answers with those of the data.

    run.py            every set, with the program as LLVM builds it and, where it is there, as Rattle's own compiler does
    run.py NAME ..    these sets alone

Of each set a script is made: the rows are committed in one transaction, and then each query is asked. Parameters stay set in a script, so
a query that has some is asked in a script of its own. README.md has the format of the data. Each query that is answered otherwise is
printed, and the status is then 1.

All are asked twice: with all keys in one slot, and with the keys cut at root rows of the set, some of them chosen at random, always the same
ones, so that the leaves of queries lie in several slots.
"""
import argparse
import itertools
import os
import random
import subprocess
import sys
import tempfile

import check
import tables

HERE = os.path.dirname(os.path.abspath(__file__))
PROGRAM = os.path.join(os.path.dirname(os.path.dirname(HERE)), "crates", "spansql", "out", "spansql")
PROGRAMS = (PROGRAM, PROGRAM + ".by-rattle")
# How many seconds a script may take.
LONGEST = 60
# Into how many slots the keys of a set are cut at most.
MOST_SLOTS = 8
# When the queries are asked each timestamp of the commit has surely passed.
ASKED = ["clock 300 310"]


def lines_of(path):
    with open(path, encoding="utf-8", newline="") as file:
        return file.read().splitlines()


def commit(slots):
    """The lines that commit what was gathered in this number of slots: a step in a slot that has none of it is refused."""
    prepared = [f"prepare 1 {slot}" for slot in range(slots)]
    applied = [f"apply 1 {slot}" for slot in range(slots)]
    return ["clock 100 110", "begin", *prepared, "decide 1", "clock 200 210", *applied]


def splits(name, schema, rows):
    """The lines that cut the keys at some of the root rows, at most one for each slot but the first."""
    found = []
    for root, values in ((schema[name], values) for name, values in rows.items()):
        if root.parent is None:
            found += [f"split {root.name} " + tables.record_text(tables.key_of(root, row)) for row in values]
    return random.Random(name).sample(found, min(len(found), MOST_SLOTS - 1))


def answers_of(output):
    """The answers of an output, each with its records; of the rows of a query the timestamp is left out."""
    found, lines = [], output.splitlines()
    while lines:
        line = lines.pop(0)
        count = int(line.split()[1]) if line.startswith("rows ") else 0
        found.append([line.split(" at ")[0], *lines[:count]])
        del lines[:count]
    return found


class Set:
    """A set of the data: how its database is made, and its queries with their wanted answers."""

    def __init__(self, path):
        self.stem = path.removesuffix(".sql")
        self.name = os.path.basename(self.stem)
        self.parts = [part for part in check.parts(path) if part.text is not None]

    def made(self, is_cut):
        """The lines that make the database, with the keys cut into slots or all in one."""
        rows = lines_of(self.stem + ".rows")
        schema = tables.read_schema("\n".join(lines_of(self.stem + ".schema")))
        cuts = splits(self.name, schema, tables.read_rows(schema, rows)) if is_cut else []
        return [*cuts, *rows, *commit(len(cuts) + 1), *ASKED] if rows else ASKED

    def scripts(self):
        """The queries that are asked together."""
        yield [part for part in self.parts if not part.params]
        yield from ([part] for part in self.parts if part.params)

    def ask(self, program, made, parts, folder):
        """The answers of a program to these queries on the database that these lines make."""
        given = [line for part in parts for line in part.lines if line.startswith("param ")]
        script = os.path.join(folder, "script")
        with open(script, "w", encoding="utf-8", newline="") as file:
            file.writelines(line + "\n" for line in [*made, *given, *("query strong " + part.text for part in parts)])
        done = subprocess.run([program, "run", self.stem + ".schema", script], stdin=subprocess.DEVNULL, capture_output=True, timeout=LONGEST, check=False)
        if done.returncode != 0:
            sys.exit(f"{self.name}: status {done.returncode}: {done.stderr.decode(errors='replace')}")
        return answers_of(done.stdout.decode())[len(made) + len(given):]


def compare(program, of_set, is_cut, folder):
    """Prints what a program answers otherwise; how many queries of the set it answers as wanted."""
    equal, made = 0, of_set.made(is_cut)
    for parts in of_set.scripts():
        found = of_set.ask(program, made, parts, folder)
        if len(found) != len(parts):
            print(f"{of_set.name}: {len(found)} answers to {len(parts)} queries")
        for part, answer in zip(parts, found):
            equal += answer == part.wanted
            if answer != part.wanted:
                print("\n".join([f"{of_set.name}:", part.text, "  wanted " + " | ".join(part.wanted), "  found  " + " | ".join(answer), ""]))
    return equal


def arguments():
    reader = argparse.ArgumentParser(description=__doc__.split("\n", maxsplit=1)[0], allow_abbrev=False)
    reader.add_argument("names", nargs="*", metavar="NAME")
    return reader.parse_args()


def main():
    names = arguments().names
    chosen = [found for found in map(Set, check.paths()) if not names or found.name in names]
    if len(chosen) != (len(set(names)) or len(chosen)):
        sys.exit("run.py: there is no such set")
    wanted, well = sum(len(it.parts) for it in chosen), True
    with tempfile.TemporaryDirectory() as folder:
        for program, is_cut in itertools.product(filter(os.path.exists, PROGRAMS), (False, True)):
            equal = sum(compare(program, it, is_cut, folder) for it in chosen)
            print(f"queries: {os.path.basename(program)} answers {equal} of {wanted} as wanted, with the keys in {'several slots' if is_cut else 'one slot'}")
            well = well and equal == wanted
    if not os.path.exists(PROGRAM):
        sys.exit("queries: build the program first: rt run in crates/spansql")
    return 0 if well else 1


if __name__ == "__main__":
    sys.exit(main())
