#!/usr/bin/env python3
"""Gives the proved program spansql texts of queries and of schemas, and compares what it answers with what docs/SQL.md has.

    run.py            all parts
    run.py PART ..    these parts alone: queries, schemas, made-queries, made-schemas, values, codes

queries, schemas      texts.py: the number of the refusal and its byte, worked out by hand, and found by tests/recogniser.py
made-queries,         made.py: beginnings of texts, reserved words where a name is, tokens in the place of others, escapes: number and byte
made-schemas          as tests/recogniser.py finds them
values                values.py: what literals and expressions come to, worked out by hand
codes                 each code of four digits in a string, each of two in bytes, as Python reads them

The bytes are those that the program reports on standard error. What is answered otherwise is printed, and the status is then 1.
"""
import argparse
import os
import re
import subprocess
import sys
import tempfile

HERE = os.path.dirname(os.path.abspath(__file__))
TOP = os.path.dirname(os.path.dirname(HERE))
CRATE = os.path.join(TOP, "crates", "spansql")
PROGRAM = os.path.join(CRATE, "out", "spansql")
sys.path[:0] = [os.path.join(TOP, "tests"), os.path.join(TOP, "tests", "span_sql_tests")]
sys.dont_write_bytecode = True

import made
import recogniser
import tables
import texts
import values

# How many seconds a run may take.
LONGEST = 120
# How many differences of a part are printed.
MOST_SHOWN = 10
SCHEMA = "CREATE TABLE t (a INT64 NOT NULL, n INT64) PRIMARY KEY (a)"
# One row, of which a is 1 and n is NULL; and the parameter p, which is 7.
MADE = ["insert t * 1,\\N", "begin", "prepare 1 0", "clock 100 110", "decide 1", "clock 200 210", "apply 1 0", "param P INT64 8", "param p INT64 7"]


class Program:
    """The program, and a folder for what it is given."""

    def __init__(self, folder):
        self.schema, self.script = os.path.join(folder, "schema"), os.path.join(folder, "script")

    def run(self, schema, lines):
        """What is written on standard output and on standard error for this schema and these lines, and the status."""
        for path, content in ((self.schema, schema), (self.script, "".join(line + "\n" for line in lines))):
            with open(path, "wb") as file:
                file.write(content.encode())
        done = subprocess.run([PROGRAM, "run", "--explain-refusals", self.schema, self.script], stdin=subprocess.DEVNULL, capture_output=True,
                              timeout=LONGEST, check=False)
        return done.stdout.decode(), done.stderr.decode(), done.returncode

    def schema_answer(self, text):
        """The number that a schema is refused with and the byte where, from 0, None where none is reported; 0 and None where it is taken."""
        written, errors, status = self.run(text, [])
        if status == 0:
            return (0, None) if written + errors == "" else (written, errors)
        number = int(re.fullmatch(r"schema refused (\d+)\n", written).group(1))
        place = re.fullmatch(rf"spansql: {re.escape(self.schema)}(?:, line (\d+), byte (\d+))?: refused {number} \w+: .+\n", errors).groups()
        if place == (None, None):
            return number, None
        before = text.encode().split(b"\n")[:int(place[0]) - 1]
        return number, sum(len(line) + 1 for line in before) + int(place[1]) - 1

    def query_answers(self, queries):
        """The same of query texts, by `explain`; a refusal of names or types, 10 to 20, is none here."""
        written, errors, status = self.run(SCHEMA, ["explain " + text for text in queries])
        places = re.findall(rf"^spansql: {re.escape(self.script)}, line (\d+)(?:, byte (\d+))?: refused (\d+)", errors, re.M)
        found = [(0, None)] * len(queries)
        for line, byte, number in places:
            if int(number) < 10:
                found[int(line) - 1] = (int(number), int(byte) - 1 - len("explain "))
        answered = re.findall(r"^(?:refused|leaves) (\d+)$", written, re.M)
        if status != 0 or len(answered) != len(queries):
            sys.exit(f"texts: status {status}, {len(answered)} answers to {len(queries)} query texts")
        return found


def wanted_of(text, number, place):
    """A wanted answer, with the byte where its text says END."""
    return number, len(text.encode()) if place == texts.END else place


def judged(goal, text):
    """What the recogniser answers, with no place where the refusal has none."""
    number, place = recogniser.judge(goal, text.encode())
    return (number, place) if 1 <= number <= 4 else (number, None)


def hand_worked(goal, rows):
    """Texts with their answers, after the recogniser was compared with these."""
    wanted = {text: wanted_of(text, number, place) for text, number, place in rows}
    for text, answer in wanted.items():
        if judged(goal, text) != answer:
            sys.exit(f"texts: the recogniser answers {judged(goal, text)} and not {answer}: {text[:200]!r}")
    return wanted


def queries(program):
    wanted = hand_worked("statement", [(text, 0, None) for text in texts.READ] + texts.REFUSED + texts.LIMITS)
    return zip(wanted, program.query_answers(list(wanted)), wanted.values())


def made_queries(program):
    found = list(dict.fromkeys(made.queries()))
    return zip(found, program.query_answers(found), (judged("statement", text) for text in found))


def schemas(program):
    wanted = hand_worked("schema", texts.SCHEMAS)
    return ((text, program.schema_answer(text), answer) for text, answer in wanted.items())


def made_schemas(program):
    return ((text, program.schema_answer(text), judged("schema", text)) for text in dict.fromkeys(made.schemas()))


def spelt(text):
    """A literal of a string."""
    return "'" + text.replace("\\", "\\\\").replace("'", "\\'") + "'"


def asked_values():
    """Expressions with what they come to: a value, or how the query is refused."""
    yield from values.LITERALS
    for pattern, text, wanted in values.PATTERNS:
        yield f"{spelt(text)} LIKE {spelt(pattern)}", wanted
    for expression, wanted in values.EXPRESSIONS:
        yield expression.replace("LEAST", "(-9223372036854775807 - 1)"), wanted


def answers_to(program, expressions):
    """The answers to queries of these expressions, each with its record."""
    written, _, _ = program.run(SCHEMA, [*MADE, *(f"query strong SELECT {expression} FROM t" for expression in expressions)])
    # Each answer begins with a line of its own; a record may have more lines than one.
    return re.split(r"\n(?=rows \d+ at \d+\n|refused \d+\n)", written[:-1] + "\n")[1:]


def answer_of(wanted):
    """The answer to the query of one expression."""
    if isinstance(wanted, str) and wanted.startswith("refused "):
        return wanted
    return "rows 1 at 210\n" + tables.record_text([wanted])


def of_values(program):
    rows = list(asked_values())
    found = answers_to(program, [expression for expression, _ in rows])
    if len(found) != len(rows):
        sys.exit(f"texts: {len(found)} answers to {len(rows)} expressions")
    return ((expression, answer.rstrip("\n"), answer_of(wanted)) for (expression, wanted), answer in zip(rows, found))


def codes(program):
    """All codes of characters, 8,192 in a string, and all of bytes, each with what it is."""
    characters = [code for code in range(0x10000) if not 0xd800 <= code < 0xe000]
    parts = [characters[at:at + 8192] for at in range(0, len(characters), 8192)]
    rows = [("'" + "".join(f"\\u{code:04x}" for code in part) + "'", "".join(map(chr, part))) for part in parts]
    rows += [("b'" + "".join(f"\\x{byte:02X}" for byte in range(256)) + "'", bytes(range(256)))]
    for expression, wanted in rows:
        written, _, _ = program.run(SCHEMA, [*MADE, f"query strong SELECT {expression} FROM t"])
        yield expression, written.split("rows 1 at 210\n", 1)[-1], tables.record_text([wanted]) + "\n"


PARTS = {"queries": queries, "schemas": schemas, "made-queries": made_queries, "made-schemas": made_schemas, "values": of_values, "codes": codes}


def compare(name, rows):
    """Prints what is answered otherwise, and how many texts there were; whether all are answered as wanted."""
    count, wrong = 0, []
    for text, found, wanted in rows:
        count += 1
        if found != wanted:
            wrong.append(f"texts: {name}: {text[:300]!r}\n  wanted {wanted!r}\n  found  {found!r}"[:1000])
    print("\n".join([*wrong[:MOST_SHOWN], f"texts: {name}: {count - len(wrong)} of {count} as wanted"]))
    return count > 0 and not wrong


def arguments():
    reader = argparse.ArgumentParser(description=__doc__.split("\n", maxsplit=1)[0], allow_abbrev=False)
    reader.add_argument("parts", nargs="*", metavar="PART")
    words = reader.parse_args()
    for name in words.parts:
        if name not in PARTS:
            reader.error(f"there is no part {name}")
    return words


def build():
    """Proves and builds the program, where that was not done."""
    if not os.path.exists(PROGRAM):
        subprocess.run([os.path.join(TOP, "tools", "rt"), "run"], cwd=CRATE, stdout=subprocess.DEVNULL, stderr=subprocess.DEVNULL, check=False)
    if not os.path.exists(PROGRAM):
        sys.exit("texts: spansql can't be built: run `rt check` in " + CRATE)


def main():
    words = arguments()
    build()
    with tempfile.TemporaryDirectory() as folder:
        program = Program(folder)
        results = [compare(name, PARTS[name](program)) for name in words.parts or PARTS]
    return 0 if all(results) else 1


if __name__ == "__main__":
    sys.exit(main())
