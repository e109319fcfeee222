#!/usr/bin/env python3
"""Lists the modules of a crate's proofs that took longest to check.

    tools/slowest.py [--least SECONDS] CRATE ..

It reads when each module was saved in crates/CRATE/out/incremental: a module's time is the time since the one before it was saved. So the
times mean something after a check from nothing with one job, on a machine with nothing beside it:

    rm -r crates/CRATE/out/incremental; cd crates/CRATE; rt check --jobs 1

`NAME.Lts` is the borrow checker's part in the proof of the function NAME. Where that is long, the function most likely drops a tree (a query
or an expression) at several places: give the drop to a function for values of any type, as in span_value/src/owned.rt.
"""
import argparse
import os
import re
import sys

TOP = os.path.dirname(os.path.dirname(os.path.abspath(__file__)))


def arguments():
    reader = argparse.ArgumentParser(description=__doc__.split("\n", maxsplit=1)[0], allow_abbrev=False)
    reader.add_argument("--least", type=float, default=5, metavar="SECONDS", help="the least time that is listed (5)")
    reader.add_argument("crates", nargs="+", metavar="CRATE")
    return reader.parse_args()


def saved_modules(crate):
    """When each module was saved, with its name, in order of time."""
    saved = []
    for folder, _, names in os.walk(os.path.join(TOP, "crates", crate, "out", "incremental")):
        saved += [(os.path.getmtime(os.path.join(folder, name)), name) for name in names if name.endswith(".oantt")]
    return sorted(saved)


def times_of(crate):
    """What each module took, in seconds, with its name."""
    saved = saved_modules(crate)
    if not saved:
        sys.exit(f"slowest: crates/{crate}/out/incremental has no checked module: check the crate first")
    return [(at - before, name) for (before, _), (at, name) in zip(saved, saved[1:])]


def main():
    words = arguments()
    for crate in words.crates:
        times = times_of(crate)
        print(f"{crate}: {sum(time for time, _ in times):.0f} s, {len(times)} modules")
        for time, name in sorted(times, reverse=True):
            if time >= words.least:
                print(f"{time:7.1f}  {re.sub(r'^Rattle-[a-z_]+-|[.]oantt$', '', name)}")


if __name__ == "__main__":
    main()
