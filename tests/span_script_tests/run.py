#!/usr/bin/env python3
"""Runs each script of this folder through the proved program spansql, and compares what it writes, what it explains on standard error
and its exit status.

    run.py                  every script, with and without --explain-refusals
    run.py --allocations    and, for each script, each allocation refused in turn
    run.py --devices        and, for each script, each read and each write failing in turn, and standard error failing
    run.py NAME ..          these scripts alone

A test is NAME.script, NAME.expected, NAME.schema where it has a schema of its own (else default.schema), NAME.status where its exit
status is not 0, and NAME.error where its schema is refused: what the line on standard error has after the name of the schema's file. A
file that ends in .gz is compressed.

Each refused command has one line on standard error, in the order of the answers: with the number that is answered, the name and message of
docs/REFUSALS.md, a line of the script after those of the reports before, and a byte where the refusal is one of 1 to 4. NAME.errors has
these lines exactly, of each what comes after the name of the script's file.

With an allocation refused, the answers before the line that met it are those of NAME.expected, and that line is answered `refused 90`; or the
program ends with status 1 after a beginning of these answers. Where a line was answered `refused 90`, the script is run once more, with the
same allocation refused and this command given again directly after itself: it is then answered as ever, and so is all that follows. A `begin`
is given again with what was gathered for it. After a `query`, which may have used a number, that is not asked where the script opens queries by
their number later. With a device that fails it ends with status 1 after a beginning of them; where
standard error fails the answers and the status are as ever.
"""
import argparse
import collections
import concurrent.futures
import gzip
import os
import re
import subprocess
import sys
import tempfile
import threading

ROWS = os.path.dirname(os.path.abspath(__file__))
TOP = os.path.dirname(os.path.dirname(ROWS))
CRATE = os.path.join(TOP, "crates", "spansql")
PROGRAM = os.path.join(CRATE, "out", "spansql")
# A device on which every write fails.
FULL = "/dev/full"
# How many seconds a run may take.
LONGEST = 60
# How many allocations of a script are refused at most: of a longer one this many are refused, evenly spread.
MOST_REFUSALS = 400


def read(name):
    """The bytes of a file of the rows, unpacked; None where there is none."""
    path = os.path.join(ROWS, name)
    if os.path.exists(path):
        with open(path, "rb") as file:
            return file.read()
    if os.path.exists(path + ".gz"):
        with gzip.open(path + ".gz", "rb") as file:
            return file.read()
    return None


def refusals():
    """The name and the message of each refusal, by its number, as docs/REFUSALS.md has them."""
    with open(os.path.join(TOP, "docs", "REFUSALS.md"), "rb") as file:
        rows = re.findall(rb"^\| (\d+) \| (\w+) \| (.+) \|$", file.read(), re.M)
    return {number: (name, message) for number, name, message in rows}


# How many commands of each word were given again after an allocation was refused. Scripts are checked side by side: one counts at a time.
AGAIN = collections.Counter()
COUNTING = threading.Lock()
# What takes a mutation, or gathers more of them.
GATHERING = (b"insert ", b"update ", b"upsert ", b"delete ", b"load ")
# What may have an answer of more lines than one.
OF_MANY_LINES = (b"query ", b"finish ", b"shards", b"explain ")


class Row:
    """A script, what it must write, and the status that it must end with."""

    def __init__(self, name, folder):
        self.name = name
        self.expected = read(name + ".expected")
        self.status = int(read(name + ".status") or b"0")
        self.error = read(name + ".error")
        self.errors = read(name + ".errors")
        self.schema = self.put(folder, "schema", read(name + ".schema") or read("default.schema"))
        self.lines = read(name + ".script").split(b"\n")
        self.script = self.put(folder, "script", read(name + ".script"))

    def commands(self):
        """The lines of each command that has an answer, by their places: the first, and the one after the last."""
        found, at = [], 0
        while at < len(self.lines):
            end = at + 1
            if re.fullmatch(rb"load [^ ]+ [^ ]+", self.lines[at]):
                end = self.lines.index(b"end", at) + 1 if b"end" in self.lines[at:] else len(self.lines)
            if self.lines[at] and not self.lines[at].startswith(b"#"):
                found.append((at, end))
            at = end
        return found

    def put(self, folder, ending, content):
        path = os.path.join(folder, self.name + "." + ending)
        with open(path, "wb") as file:
            file.write(content)
        return path

    def run(self, environment=None, errors=subprocess.PIPE, options=("--explain-refusals",), script=None):
        done = subprocess.run([PROGRAM, "run", *options, self.schema, script or self.script], env=environment, timeout=LONGEST,
                              stdin=subprocess.DEVNULL, stdout=subprocess.PIPE, stderr=errors, check=False)
        return done.stdout, done.stderr, done.returncode


def names_of_rows():
    return sorted({file.split(".")[0] for file in os.listdir(ROWS) if ".script" in file})


def build():
    """Proves and builds the program, where that was not done."""
    if not os.path.exists(PROGRAM):
        subprocess.run([os.path.join(TOP, "tools", "rt"), "run"], cwd=CRATE, stdout=subprocess.DEVNULL, stderr=subprocess.DEVNULL, check=False)
    if not os.path.exists(PROGRAM):
        sys.exit("scripts: spansql can't be built: run `rt check` in " + CRATE)


def check_row(row):
    """What is wrong with a row; None where nothing is."""
    written, errors, status = row.run()
    if status != row.status:
        return f"status {status}, wanted {row.status}"
    if written != row.expected:
        return first_difference(written, row.expected)
    return wrong_errors(row, errors) or wrong_without_explanations(row)


def wrong_without_explanations(row):
    """What is wrong with a run in which no refusal is explained: the status and the answers are the same, and standard error is empty."""
    written, errors, status = row.run(options=())
    if (written, errors, status) != (row.expected, b"", row.status):
        return f"without explanations: status {status}, {errors!r}, or other answers"
    return None


def wrong_errors(row, errors):
    """What is wrong with what a row writes on standard error; None where nothing is."""
    if row.error is not None:
        wanted = b"spansql: " + row.schema.encode() + row.error
        return None if errors == wanted else f"standard error has {errors!r}, wanted {wanted!r}"
    if row.errors is not None:
        wanted = b"".join(b"spansql: " + row.script.encode() + line for line in row.errors.splitlines(keepends=True))
        if errors != wanted:
            return "standard error: " + first_difference(errors, wanted)
    reports = reports_of(row, errors)
    if len(reports) != errors.count(b"\n"):
        return f"standard error has more than reports: {errors!r}"
    if [report[2] for report in reports] != answered(row.expected):
        return f"what is reported is not what is answered: {errors!r}"
    return wrong_places(reports) or wrong_words(reports)


def reports_of(row, errors):
    """The line, the byte (empty where there is none), the number, the name and the message of each refused command that is reported."""
    program = re.escape(b"spansql: " + row.script.encode())
    return re.findall(rb"^" + program + rb", line (\d+)(?:, byte (\d+))?: refused (\d+) (\w+): (.+)$", errors, re.M)


def answered(written):
    """The number of each refusal that is answered."""
    return re.findall(rb"^refused (\d+)$", written, re.M)


def wrong_places(reports):
    """What is wrong with the places of reports: the lines rise, and there is a byte for the refusals 1 to 4 alone."""
    last = 0
    for line, byte, number, _, _ in reports:
        if int(line) <= last:
            return f"a report of line {int(line)} follows one of line {last}"
        if (byte != b"") != (int(number) <= 4):
            return f"the report of line {int(line)} has a byte and should have none, or has none"
        last = int(line)
    return None


def wrong_words(reports):
    """What is wrong with the names and messages of reports; None where nothing is."""
    words = refusals()
    for line, _, number, name, message in reports:
        if words[number] != (name, message):
            return f"the report of line {int(line)} has {name!r}: {message!r}, wanted {words[number]!r}"
    return None


def first_difference(written, wanted):
    lines = list(zip(written.split(b"\n"), wanted.split(b"\n")))
    for number, (one, other) in enumerate(lines, 1):
        if one != other:
            return f"line {number} is {one!r}, wanted {other!r}"
    return f"{len(written)} bytes, wanted {len(wanted)}"


def built_library(folder, name):
    """The library of a C file of the tests."""
    library = os.path.join(folder, name + ".so")
    source = os.path.join(TOP, "tests", name + ".c")
    subprocess.run(["cc", "-shared", "-fPIC", "-O2", "-o", library, source, "-ldl"], check=True)
    return library


def allocations_of(errors):
    found = re.search(rb"^allocations (\d+)$", errors, re.M)
    return int(found.group(1)) if found else 0


def check_allocations(row, library, folder):
    """Refuses the script's allocations in turn: how many were refused, and what is wrong, None where nothing is."""
    environment = dict(os.environ, LD_PRELOAD=library, FAIL_AT="0")
    _, errors, _ = row.run(environment)
    most = allocations_of(errors)
    step = max(1, -(-most // MOST_REFUSALS))
    refused = 0
    for number in range(1, most + 1, step):
        environment["FAIL_AT"] = str(number)
        written, errors, status = row.run(environment)
        wrong = judge_refusal(row, written, status) or judge_reports(row, written, errors, status)
        if wrong is None and status == row.status and written != row.expected:
            wrong = check_again(row, written, errors, environment, folder)
        if wrong:
            return refused, f"allocation {number}: {wrong}"
        refused += 1
    return refused, None


def check_again(row, written, errors, environment, folder):
    """What is wrong where the command that met the refused allocation is given again; None where nothing is, or where that is not asked."""
    before = written[:written.find(b"refused 90\n")]
    line = next(int(report[0]) for report in reports_of(row, errors) if report[2] == b"90")
    commands = row.commands()
    place = next(place for place, (first, end) in enumerate(commands) if first < line <= end)
    again = commands_again(row, commands, place, before)
    if again is None:
        return None
    given, answers = again
    end = commands[place][1]
    script = os.path.join(folder, row.name + ".again")
    with open(script, "wb") as file:
        file.write(b"\n".join([*row.lines[:end], *(row.lines[at] for command in given for at in range(*command)), *row.lines[end:]]))
    found, _, status = row.run(environment, script=script)
    wanted = before + b"refused 90\n" + answers + row.expected[len(before):]
    with COUNTING:
        AGAIN[row.lines[commands[place][0]].split(b" ")[0].decode()] += 1
    return None if (found, status) == (wanted, row.status) else f"line {line} given again: status {status}, {first_difference(found, wanted)}"


def commands_again(row, commands, place, before):
    """The commands that are given again for that of this place, and the answers to all but the last; None where that is not asked."""
    word = row.lines[commands[place][0]].split(b" ")[0]
    if word == b"query" and any(row.lines[at].startswith(b"open ") for at, _ in commands[place:]):
        return None
    if word != b"begin":
        return [commands[place]], b""
    gathering = gathered(row, commands[:place], before.splitlines(keepends=True))
    return gathering and (gathering[0] + [commands[place]], gathering[1])


def gathered(row, commands, answers):
    """The commands that gathered mutations for the one after these, and their answers; None where not each answer is one line."""
    begins = [place for place, (first, _) in enumerate(commands) if row.lines[first] == b"begin"]
    last = commands[begins[-1] + 1:] if begins else commands
    if any(row.lines[first].startswith(OF_MANY_LINES) for first, _ in last):
        return None
    pairs = [(command, answer) for command, answer in zip(last, answers[len(answers) - len(last):]) if row.lines[command[0]].startswith(GATHERING)]
    return [command for command, _ in pairs], b"".join(answer for _, answer in pairs)


def check_devices(row, library, _folder):
    """Lets the row's reads, then its writes, then standard error fail: how many failed, and what is wrong, None where nothing is."""
    environment = dict(os.environ, LD_PRELOAD=library)
    _, errors, _ = row.run(environment)
    reads, writes = re.search(rb"^reads (\d+) writes (\d+)$", errors, re.M).groups()
    for word, most in (("FAIL_READ", int(reads)), ("FAIL_WRITE", int(writes))):
        for number in range(1, most + 1):
            written, errors, status = row.run({**environment, word: str(number)})
            if status != 1 or not row.expected.startswith(written):
                return 0, f"{word}={number}: status {status}, or no beginning of the answers"
            wrong = judge_reports(row, written, errors, status)
            if wrong:
                return 0, f"{word}={number}: {wrong}"
    with open(FULL, "wb") as full:
        written, _, status = row.run(errors=full)
    if status != row.status or written != row.expected:
        return 0, f"standard error fails: status {status}, or other answers"
    return int(reads) + int(writes) + 1, None


def judge_refusal(row, written, status):
    """What is wrong with a run in which one allocation was refused; None where nothing is."""
    if status == 1:
        return None if row.expected.startswith(written) else "status 1, but no beginning of the answers"
    if status != row.status:
        return f"status {status}"
    if written == row.expected:
        return None
    at = written.find(b"refused 90\n")
    if at < 0 or not row.expected.startswith(written[:at]):
        return "neither the answers, nor their beginning and `refused 90`"
    return None


def judge_reports(row, written, errors, status):
    """What is wrong with the reports of a run in which something failed; None where nothing is. Each refusal that is answered was reported."""
    reported = [report[2] for report in reports_of(row, errors)]
    numbers = answered(written)
    if reported[:len(numbers)] != numbers or (status != 1 and reported != numbers):
        return f"what is reported is not what is answered: {errors!r}"
    return None


def arguments():
    reader = argparse.ArgumentParser(description=__doc__.split("\n", maxsplit=1)[0], allow_abbrev=False)
    reader.add_argument("--allocations", action="store_true", help="refuse each allocation in turn")
    reader.add_argument("--devices", action="store_true", help="let each read and each write fail in turn")
    reader.add_argument("names", nargs="*", metavar="NAME")
    words = reader.parse_args()
    for name in words.names:
        if name not in names_of_rows():
            reader.error(f"there is no script {name}")
    return words


def checks(words, folder):
    """What else is checked of each script: a check and the library that it loads before the program."""
    if words.allocations:
        yield check_allocations, built_library(folder, "refuse_allocation")
    if words.devices:
        yield check_devices, built_library(folder, "fail_device")


def check_script(name, others, folder):
    """How many faults of a script were tried, and what is wrong with it; None where nothing is."""
    row, faults = Row(name, folder), 0
    wrong = check_row(row)
    for check, library in others:
        if wrong is None:
            count, wrong = check(row, library, folder)
            faults += count
    return faults, wrong


def main():
    words = arguments()
    build()
    passed, failed, faults = 0, 0, 0
    with tempfile.TemporaryDirectory() as folder, concurrent.futures.ThreadPoolExecutor(os.cpu_count()) as pool:
        others = list(checks(words, folder))
        names = words.names or names_of_rows()
        for name, (count, wrong) in zip(names, pool.map(lambda name: check_script(name, others, folder), names)):
            faults += count
            if wrong is None:
                passed += 1
            else:
                failed += 1
                print(f"scripts: {name}: {wrong}")
    if others:
        again = ", ".join(f"{count} {word}" for word, count in sorted(AGAIN.items()))
        print(f"scripts: {faults} faults in turn; given again: {again or 'none'}")
    print(f"scripts: {passed} passed, {failed} failed")
    return 0 if failed == 0 else 1


if __name__ == "__main__":
    sys.exit(main())
