#!/usr/bin/env python3
"""Writes the table of docs/REFUSALS.md from crates/span_value/src/refusal.rt: each refusal's number, name and message.

    tools/refusals.py            writes the table
    tools/refusals.py --check    compares it; status 1 where it differs
"""
import argparse
import os
import re
import sys

TOP = os.path.dirname(os.path.dirname(os.path.abspath(__file__)))
CODE = os.path.join(TOP, "crates", "span_value", "src", "refusal.rt")
PAGE = os.path.join(TOP, "docs", "REFUSALS.md")
BEGIN, END = "<!-- refusals: written by tools/refusals.py -->\n", "<!-- refusals: end -->\n"


def read(path):
    with open(path, encoding="utf-8") as file:
        return file.read()


def answers_of(code, function):
    """What the function answers for each variant: the text or number at the right of its arm."""
    body = re.search(rf"pub fn {function}\(self\).*?match self \{{(.*?)\n        \}}", code, re.S).group(1)
    arms = re.findall(r'Refusal::(\w+) =>\s*\{?\s*("[^"]*"|\d+)', body)
    return {variant: answer.strip('"') for variant, answer in arms}


def table(code):
    """The lines of the table, in the order of the variants."""
    variants = re.findall(r"^    (\w+),$", re.search(r"pub enum Refusal \{(.*?)\n\}", code, re.S).group(1), re.M)
    numbers, names, messages = (answers_of(code, function) for function in ("number", "name", "message"))
    for answers in (numbers, names, messages):
        if list(answers) != variants:
            sys.exit("refusals: a function of Refusal does not name every variant in order")
    rows = ["| No. | Name | What was wrong: what to do |", "|---|---|---|"]
    rows += [f"| {numbers[it]} | {names[it]} | {messages[it]} |" for it in variants]
    return "\n".join(rows) + "\n"


def main():
    reader = argparse.ArgumentParser(description=__doc__.split("\n", maxsplit=1)[0], allow_abbrev=False)
    reader.add_argument("--check", action="store_true", help="compare, and write nothing")
    words = reader.parse_args()
    page = read(PAGE)
    before, rest = page.split(BEGIN, 1)
    _, after = rest.split(END, 1)
    wanted = before + BEGIN + table(read(CODE)) + END + after
    if words.check:
        print(f"refusals: docs/REFUSALS.md is {'what' if page == wanted else 'NOT what'} the code has")
        return int(page != wanted)
    with open(PAGE, "w", encoding="utf-8") as file:
        file.write(wanted)
    return 0


if __name__ == "__main__":
    sys.exit(main())
