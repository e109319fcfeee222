#!/usr/bin/env python3
"""Measures the processor time of a command that proves crates, crate by crate, and its whole processor and wall time.

    tools/costs.py COMMAND ..            runs the command and prints the table
    tools/costs.py --write COMMAND ..    and puts the table into docs/PERFORMANCE.md

As in `tools/costs.py --write .ci/run`, in a clean clone. While the command runs, the prover's processes are read from /proc four times a
second: which crate each works on, whether it proves the crate, its tests, or one of its must-fail edits, and its processor time so far. What
a process uses after it was last read is not counted under its crate, only in the whole.
"""
import collections
import os
import re
import resource
import subprocess
import sys
import time

TOP = os.path.dirname(os.path.dirname(os.path.abspath(__file__)))
PAGE = os.path.join(TOP, "docs", "PERFORMANCE.md")
BEGIN, END = "<!-- costs: written by tools/costs.py -->", "<!-- costs: end -->"
PARTS = ("proofs", "builds", "tests", "edits")
TICKS = os.sysconf("SC_CLK_TCK")


def part_of(words, folder):
    """Which part of the gate a process of the prover works for."""
    if "/rt-edit-" in folder:
        return "edits"
    # (a program is compiled from what its check has saved)
    if "--crate-checked" in words:
        return "builds"
    return "tests" if "--test" in words else "proofs"


def parent_of(number):
    """The process that started this one; 0 where it has ended."""
    try:
        with open(f"/proc/{number}/stat", encoding="utf-8") as file:
            return int(file.read().rsplit(")", 1)[1].split()[1])
    except (OSError, IndexError):
        return 0


def is_below(number, top):
    """Whether the process was started by this one, or by one that it started."""
    while number > 1 and number != top:
        number = parent_of(number)
    return number == top


def read_process(number):
    """The crate, the part, and the processor seconds of a process of the prover; None where it is another process, or has ended."""
    try:
        with open(f"/proc/{number}/cmdline", "rb") as file:
            words = file.read().decode(errors="replace").split("\0")
        if os.path.basename(words[0]) != "rattle" or "--crate-name" not in words:
            return None
        crate = words[words.index("--crate-name") + 1]
        folder = os.readlink(f"/proc/{number}/cwd")
        with open(f"/proc/{number}/stat", encoding="utf-8") as file:
            numbers = file.read().rsplit(")", 1)[1].split()
    except OSError:
        return None
    # user and system time of the process itself: the copies that it makes of itself are read on their own
    return crate, part_of(words, folder), sum(int(it) for it in numbers[11:13]) / TICKS


def watch(process):
    """The processor seconds of each crate and part, while the command runs."""
    seen = {}
    while process.poll() is None:
        for number in filter(str.isdigit, os.listdir("/proc")):
            found = read_process(number)
            # Other checks may run on the machine, which are none of the command's.
            if found and is_below(int(number), process.pid):
                crate, part, seconds = found
                seen[number, crate, part] = max(seconds, seen.get((number, crate, part), 0.0))
        time.sleep(0.25)
    costs = collections.defaultdict(lambda: dict.fromkeys(PARTS, 0.0))
    for (_, crate, part), seconds in seen.items():
        costs[crate][part] += seconds
    return costs


def table(costs):
    """The lines of the table: a row for each crate, in seconds, the dearest first."""
    lines = ["| Crate | Proofs | Builds | Tests | Edits | Together |", "|---|---:|---:|---:|---:|---:|"]
    for crate, parts in sorted(costs.items(), key=lambda it: -sum(it[1].values())):
        cells = [f"{parts[part]:.0f}" if parts[part] else "" for part in PARTS]
        lines.append(f"| `{crate}` | " + " | ".join(cells) + f" | {sum(parts.values()):.0f} |")
    whole = [sum(parts[part] for parts in costs.values()) for part in PARTS]
    lines.append("| all crates | " + " | ".join(f"{it:.0f}" for it in whole) + f" | {sum(whole):.0f} |")
    return lines


def commit():
    words = ["git", "log", "-1", "--format=%h of %cs"]
    return subprocess.run(words, cwd=TOP, capture_output=True, text=True, check=True).stdout.strip()


def write(lines):
    with open(PAGE, encoding="utf-8") as file:
        text = file.read()
    if BEGIN not in text or END not in text:
        sys.exit(f"costs: {PAGE} has no place for the table")
    before, rest = text.split(BEGIN, 1)
    after = rest.split(END, 1)[1]
    with open(PAGE, "w", encoding="utf-8") as file:
        file.write(before + BEGIN + "\n" + "\n".join(lines) + "\n" + END + after)


def main(words):
    writes = words[:1] == ["--write"]
    command = words[1:] if writes else words
    if not command or command[0].startswith("-"):
        sys.exit(__doc__)
    start = time.time()
    process = subprocess.Popen(command, cwd=TOP)
    costs = watch(process)
    wall = (time.time() - start) / 60
    used = resource.getrusage(resource.RUSAGE_CHILDREN)
    cpu = (used.ru_utime + used.ru_stime) / 60
    head = [f"`{' '.join(command)}` at {commit()}: {cpu:.0f} minutes of processor time, {wall:.0f} minutes of wall time on"
            f" {len(os.sched_getaffinity(0))} processors. Seconds of processor time, crate by crate:", ""]
    lines = head + table(costs)
    print("\n".join(lines))
    if writes and process.returncode == 0:
        write(lines)
    return process.returncode


if __name__ == "__main__":
    sys.exit(main(sys.argv[1:]))
