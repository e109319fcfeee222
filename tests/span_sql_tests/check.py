"""Reruns the reference over all data files and compares: `python3 check.py` prints counts, status 1 where an answer differs.

`python3 check.py write` first gives every block that ends with its text the answer that the reference finds. README.md has the format.
"""
import collections
import glob
import os
import re
import sys

import reference
import tables

HERE = os.path.dirname(os.path.abspath(__file__))


class Part:
    """One block of a file: its lines, its parameters, its text and the wanted answer's lines (none where it has no answer yet)."""

    def __init__(self, lines):
        self.lines = lines
        rest = [line for line in lines if not line.startswith("#")]
        self.params = {}
        while rest and rest[0].startswith("param "):
            _, name, kind, cell = rest.pop(0).split(" ", 3)
            self.params[reference.folded(name)] = kind, tables.read_cell(kind, cell)
        self.text = rest[0] if rest else None
        self.wanted = rest[1:]


def parts(path):
    """The blocks of a file of texts."""
    return [Part(block.split("\n")) for block in open(path, encoding="utf-8").read().strip("\n").split("\n\n")]


def paths():
    """The files of queries, a set each."""
    return sorted(glob.glob(os.path.join(HERE, "*.sql")))


def sets():
    """Of each set of files: its name, its schema's tables, their rows, and the path of its queries."""
    for path in paths():
        stem = path.removesuffix(".sql")
        schema = tables.read_schema(open(stem + ".schema", encoding="utf-8").read())
        lines = open(stem + ".rows", encoding="utf-8").read().splitlines()
        yield os.path.basename(stem), schema, tables.read_rows(schema, lines), path


def found(part, schema, rows):
    """The answer's lines that the reference finds."""
    try:
        _, answer = reference.answer(part.text, schema, rows, part.params)
    except reference.Refused as why:
        return [f"refused {why.number}"]
    records = [tables.record_text(row) for row in answer]
    assert not any(re.search(r"[\r\n]", record) for record in records), "an answer of this format has no line breaks: " + part.text
    return [f"rows {len(records)}"] + records


def main(words):
    if words not in ([], ["write"]):
        print(__doc__, file=sys.stderr)
        return 2
    is_writing, status, counts, seen = words == ["write"], 0, collections.Counter(), set()
    for name, schema, rows, path in sets():
        here = parts(path)
        for part in here:
            if part.text is None:
                continue
            answer = found(part, schema, rows)
            if is_writing and not part.wanted:
                part.lines += answer
                part.wanted = answer
            if part.wanted != answer:
                status = 1
                print(f"{name}: {part.text}\n  wanted {part.wanted}\n  found  {answer}")
            question = (name, part.text, str(part.params))
            if question in seen:
                status = 1
                print(f"{name}: twice: {part.text}")
            seen.add(question)
            counts[name, answer[0] if answer[0].startswith("refused") else "rows"] += 1
        if is_writing:
            open(path, "w", encoding="utf-8").write("\n\n".join("\n".join(part.lines) for part in here) + "\n")
    for key in sorted(counts, key=lambda key: (key[0], key[1].split()[0] != "rows", len(key[1]), key[1])):
        print(f"{key[0]:8} {key[1]:12} {counts[key]:4}")
    kinds = collections.Counter()
    for (_, kind), count in counts.items():
        kinds[kind] += count
    print("all: " + ", ".join(f"{kind} {kinds[kind]}" for kind in sorted(kinds, key=lambda kind: (kind != "rows", len(kind), kind))))
    print(f"{sum(counts.values())} texts, {'all as wanted' if status == 0 else 'NOT all as wanted'}")
    return status


if __name__ == "__main__":
    sys.exit(main(sys.argv[1:]))
