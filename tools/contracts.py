#!/usr/bin/env python3
"""Lists the public contracts of the crates, or how they differ from an earlier commit's.

    tools/contracts.py                  each public function with its signature and its clauses, crate by crate
    tools/contracts.py --since COMMIT   those that are gone, new or changed since the commit

A function is compared with the one of the same name in the same crate, else with the one of that name in any crate, whatever its file. White
space is left out. Contracts of the traits' methods are the traits', and not listed.
"""
import argparse
import collections
import re
import subprocess
import sys

HEAD = re.compile(r"^\s*pub(?:\([a-z]+\))?\s+(?:const\s+|unsafe\s+)*fn\s+(\w+)", re.M)
COMMENT = re.compile(r"//[^\n]*")


def git(*words):
    return subprocess.run(["git", *words], check=True, capture_output=True, text=True).stdout


def sources(commit):
    """The path and the text of each source file of the crates, at a commit or, where none is given, as it is now."""
    files = git("ls-tree", "-r", "--name-only", commit).split("\n") if commit else git("ls-files").split("\n")
    for path in files:
        if path.startswith("crates/") and "/src/" in path and path.endswith(".rt"):
            if commit:
                yield path, git("show", f"{commit}:{path}")
            else:
                with open(path, encoding="utf-8") as file:
                    yield path, file.read()


def head_of(text, start):
    """The signature and the clauses of the function that begins there: up to the brace of its body, which is alone in its line where there
    are clauses, and ends the line of the signature where there are none."""
    lines = []
    for line in text[start:].split("\n"):
        bare = COMMENT.sub("", line)
        is_clause = re.search(r"\b(ensures|requires|decreases)\b", bare)
        if re.search(r"\{\s*(\}\s*)?$", bare) and not is_clause:
            lines.append(re.sub(r"\{\s*(\}\s*)?$", "", bare))
            break
        lines.append(bare)
    return " ".join(" ".join(lines).split())


def contracts(commit):
    """The contracts by crate and name: a function's name may be that of methods of several types."""
    found = collections.defaultdict(list)
    for path, text in sources(commit):
        for match in HEAD.finditer(text):
            found[path.split("/")[1], match.group(1)].append(head_of(text, match.start()))
    return {key: sorted(heads) for key, heads in found.items()}


def differences(before, now):
    by_name = collections.defaultdict(list)
    for (crate, name), heads in now.items():
        by_name[name].append((crate, heads))
    seen = set()
    for (crate, name), heads in sorted(before.items()):
        if (crate, name) in now:
            seen.add((crate, name))
            if now[crate, name] != heads:
                yield f"{crate}::{name}: changed", heads, now[crate, name]
            continue
        moved = [(other, those) for other, those in by_name[name] if (other, name) not in before]
        if moved:
            seen.add((moved[0][0], name))
            if moved[0][1] != heads:
                yield f"{crate}::{name}: in {moved[0][0]} now, and changed", heads, moved[0][1]
        else:
            yield f"{crate}::{name}: gone", heads, []
    for (crate, name), heads in sorted(now.items()):
        if (crate, name) not in seen and (crate, name) not in before:
            yield f"{crate}::{name}: new", [], heads


def main():
    reader = argparse.ArgumentParser(description=__doc__.split("\n", maxsplit=1)[0], allow_abbrev=False)
    reader.add_argument("--since", metavar="COMMIT")
    words = reader.parse_args()
    now = contracts(None)
    if words.since is None:
        for (crate, name), heads in sorted(now.items()):
            for head in heads:
                print(f"{crate}: {head}")
        return 0
    for title, was, are in differences(contracts(words.since), now):
        print(title)
        for head in was:
            print("  - " + head)
        for head in are:
            print("  + " + head)
    return 0


if __name__ == "__main__":
    sys.exit(main())
