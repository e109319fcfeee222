#!/usr/bin/env python3
"""Runs, by the proved program, the scripts that are too long for files: 10,000 keys that rise or fall, and 100,000 in no order. Every second key
is removed, and all come again the other way round; the answers are those of a sorted list (computed.py). Groups of 21,500 rows, with all queries of
grouped.py three times, and all rows of a large table in order. Then transactions that are aborted, few and many, after which as much memory is taken; and many rows, of which a query
that groups them takes little memory beside that which they have, alone and joined with others. At last the rows of a transaction whose keys were
picked to have one hash, which takes little longer than other keys.
"""
import os
import random
import re
import subprocess
import sys
import tempfile
import time

# computed.py puts another folder first in the path, which has a run.py too
import run
import computed
import grouped

COUNTS = {"rising": 10_000, "falling": 10_000, "mixed": 100_000}
# Numbers of aborted transactions, and how many times the memory of the first number's the second's may be.
FEW_ABORTS, MANY_ABORTS, MOST_TIMES = 20, 400, 1.25
# Numbers of rows that are grouped, and of those of a transaction; and how many kilobytes the groups of all may take. Their columns would take 48 bytes
# for each value.
GROUPED_ROWS, ROWS_OF_A_TRANSACTION, MOST_KILOBYTES = 200_000, 1_000, 5_000
# The number of keys that have one hash, and how many times as long as other keys they may take. The hash multiplies eight bytes of a key by the eight
# after them and these: where those are these, whatever comes before them is lost.
PICKED_KEYS, MOST_TIMES_AS_LONG = 40_000, 10
LOST_AFTER = bytes.fromhex("157c4a7fb979379e")
SUMS = "SELECT COUNT(n), SUM(n), MIN(n), MAX(n) FROM T"
GROUPS = "SELECT n, COUNT(*), SUM(k) FROM T GROUP BY n"
OF_EXPRESSIONS = "SELECT n, COUNT(*), SUM(k * 2 - n) FROM T GROUP BY n"
# By n and then by k, the first of which falls; and by k alone, all rows in reverse.
ORDERED, REVERSED = "SELECT k, n FROM T ORDER BY n DESC, k", "SELECT n, k FROM T ORDER BY k DESC"
# Rows of T below each row of P, where they are joined.
ROWS_BELOW = 200
JOINED_SUMS = "SELECT COUNT(*), SUM(n), MAX(n) FROM P JOIN T ON T.k = P.k"
JOINED_GROUPS = "SELECT m, COUNT(*), SUM(n) FROM P JOIN T ON T.k = P.k GROUP BY m"


def aborted(count):
    """A script of as many transactions of rows of three tables, each of which is aborted, and then of one that is committed."""
    family, chance = computed.Family(), random.Random("aborted")
    rows = computed.of_three(chance, range(1, 21), range(1, 11), range(1, 6))
    for number in range(1, count + 1):
        family.load("load", rows)
        family.script.begin()
        family.script.ask(f"prepare {number} 0", f"prepared {number}")
        family.script.ask(f"abort {number}", "aborted")
        family.script.ask(f"apply {number} 0", "applied")
    family.last = count
    family.load("load", rows)
    family.commit(2 * count)
    for table, more in rows.items():
        family.of[table].update(more)
    family.check(2 * count)
    return family.script


def many_rows(queries):
    """A script of many rows in small transactions, and of queries with their answers."""
    script = computed.Script("CREATE TABLE T (k INT64 NOT NULL, n INT64) PRIMARY KEY (k)\n")
    rows, last = [(key, key * 7919 % 1000) for key in range(GROUPED_ROWS)], 0
    for start in range(0, GROUPED_ROWS, ROWS_OF_A_TRANSACTION):
        part = rows[start : start + ROWS_OF_A_TRANSACTION]
        script.ask("\n".join(["load T *", *(f"{key},{n}" for key, n in part), "end"]), f"loaded {len(part)}")
        script.commit(last + 100, last + 1)
        last += 100
    for query in queries:
        script.rows(last, query, query_rows(query, rows))
    return script


def joined_rows(queries):
    """The same of as many rows, each of which is below a row of another table, and of queries of both."""
    script = computed.Script(
        "CREATE TABLE P (k INT64 NOT NULL, m INT64) PRIMARY KEY (k);\n"
        "CREATE TABLE T (k INT64 NOT NULL, c INT64 NOT NULL, n INT64) PRIMARY KEY (k, c), INTERLEAVE IN PARENT P ON DELETE CASCADE\n"
    )
    parents, last = [(key, key % 7) for key in range(GROUPED_ROWS // ROWS_BELOW)], 0
    rows = [(key, c, (key * ROWS_BELOW + c) * 7919 % 1000) for key, _ in parents for c in range(ROWS_BELOW)]
    of_each = ROWS_OF_A_TRANSACTION // ROWS_BELOW
    for start in range(0, len(parents), of_each):
        for name, part in (("P", parents[start : start + of_each]), ("T", rows[start * ROWS_BELOW : (start + of_each) * ROWS_BELOW])):
            lines = [",".join(map(str, row)) for row in part]
            script.ask("\n".join([f"load {name} *", *lines, "end"]), f"loaded {len(part)}")
        script.commit(last + 100, last + 1)
        last += 100
    for query in queries:
        numbers = {}
        for key, _, n in rows:
            numbers.setdefault(parents[key][1], []).append(n)
        every = [n for of_one in numbers.values() for n in of_one]
        groups = [(m, len(of_one), sum(of_one)) for m, of_one in numbers.items()]
        script.rows(last, query, [(len(every), sum(every), max(every))] if query == JOINED_SUMS else groups)
    return script


def query_rows(query, rows):
    """What a query of these gives."""
    if query == SUMS:
        numbers = [n for _, n in rows]
        return [(len(numbers), sum(numbers), min(numbers), max(numbers))]
    if query == ORDERED:
        return sorted(rows, key=lambda row: (-row[1], row[0]))
    if query == REVERSED:
        return [(n, key) for key, n in reversed(rows)]
    groups = {}
    for key, n in rows:
        groups.setdefault(n, []).append(key if query == GROUPS else key * 2 - n)
    return [(n, len(keys), sum(keys)) for n, keys in groups.items()]


def picked_keys(middle):
    """A script of one transaction whose keys, in no order, differ in six bytes before those of `middle` alone."""
    chance, script = random.Random("picked"), computed.Script("CREATE TABLE T (k BYTES(MAX) NOT NULL) PRIMARY KEY (k)\n")
    fronts = {bytes(chance.randrange(1, 255) for _ in range(6)) for _ in range(PICKED_KEYS)}
    lines = ["\\x" + (front + middle + b"fourteen bytes").hex() for front in chance.sample(sorted(fronts), len(fronts))]
    script.ask("\n".join(["load T *", *lines, "end"]), f"loaded {len(lines)}")
    script.commit(100, 1)
    script.rows(100, "SELECT COUNT(*) FROM T", [(len(lines),)])
    return script


def seconds_of(folder, script):
    """The processor time that the program takes for the script; None where it does not answer it as wanted."""
    before = os.times()
    is_right = answers_of(folder, script) == script.answers
    after = os.times()
    return after.children_user - before.children_user + after.children_system - before.children_system if is_right else None


def answers_of(folder, script):
    """What the program answers to the script."""
    schema, path = os.path.join(folder, "schema"), os.path.join(folder, "script")
    for file, text in ((schema, script.schema), (path, "".join(f"{line}\n" for line in script.lines))):
        with open(file, "w", encoding="utf-8") as out:
            out.write(text)
    ran = subprocess.run([run.PROGRAM, "run", schema, path], capture_output=True, timeout=run.LONGEST, check=True)
    return ran.stdout.decode().splitlines()


def memory_of(folder, script):
    """The most kilobytes of memory that the program has until it has answered the script, which is a named pipe, so that it does not end before
    that is read; None where it does not answer it as wanted."""
    schema, path, answers = (os.path.join(folder, name) for name in ("schema", "pipe", "answers"))
    with open(schema, "w", encoding="utf-8") as out:
        out.write(script.schema)
    if not os.path.exists(path):
        os.mkfifo(path)
    wanted = "".join(f"{answer}\n" for answer in script.answers).encode()
    with open(answers, "wb") as out, subprocess.Popen([run.PROGRAM, "run", schema, path], stdout=out) as process, open(path, "wb") as lines:
        lines.write("".join(f"{line}\n" for line in script.lines).encode())
        lines.flush()
        for _ in range(100 * run.LONGEST):
            if os.path.getsize(answers) >= len(wanted) or process.poll() is not None:
                break
            time.sleep(0.01)
        with open(f"/proc/{process.pid}/status", encoding="utf-8") as status:
            found = re.search(r"VmHWM:\s+(\d+) kB", status.read())
    with open(answers, "rb") as out:
        return int(found.group(1)) if found and out.read() == wanted else None


def scripts():
    """Each script with its title."""
    for name, count in COUNTS.items():
        yield f"{count} {name}", computed.many_keys(name, count)
    yield f"groups of {grouped.MANY_ROWS.count} rows", computed.grouped_rows(grouped.MANY_ROWS, *[grouped.queries(grouped.MANY_ROWS)] * 3)
    yield f"{GROUPED_ROWS} rows in order", many_rows((ORDERED, REVERSED))


def main():
    run.build()
    wrong = 0
    with tempfile.TemporaryDirectory() as folder:
        for title, script in scripts():
            is_right = answers_of(folder, script) == script.answers
            print(f"keys: {title}: {len(script.answers)} answers, {'as wanted' if is_right else 'not as wanted'}")
            wrong += not is_right
        few, many = (memory_of(folder, aborted(count)) for count in (FEW_ABORTS, MANY_ABORTS))
        is_right = few is not None and many is not None and many <= MOST_TIMES * few
        print(f"keys: {FEW_ABORTS} and {MANY_ABORTS} aborted transactions: {few} and {many} KB, {'as wanted' if is_right else 'not as wanted'}")
        wrong += not is_right
        for title, made, asked in (("rows", many_rows, (SUMS, GROUPS, OF_EXPRESSIONS)), ("rows below others", joined_rows, (JOINED_SUMS, JOINED_GROUPS))):
            without, both = (memory_of(folder, made(queries)) for queries in ((), asked))
            is_right = without is not None and both is not None and both <= without + MOST_KILOBYTES
            print(f"keys: {GROUPED_ROWS} {title} without and with their groups: {without} and {both} KB, {'as wanted' if is_right else 'not as wanted'}")
            wrong += not is_right
        others, picked = (seconds_of(folder, picked_keys(middle)) for middle in (bytes(range(1, 9)), LOST_AFTER))
        is_right = others is not None and picked is not None and picked <= MOST_TIMES_AS_LONG * others
        print(f"keys: {PICKED_KEYS} keys in no order, and as many of one hash: {others} and {picked} s, {'as wanted' if is_right else 'not as wanted'}")
        wrong += not is_right
    return int(wrong > 0)


if __name__ == "__main__":
    if sys.argv[1:]:
        print(f"keys.py: takes no words, and was given {' '.join(sys.argv[1:])}", file=sys.stderr)
        sys.exit(2)
    sys.exit(main())
