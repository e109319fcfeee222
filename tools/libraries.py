#!/usr/bin/env python3
"""Puts the libraries that runs of `rt ci` have proved of the same files on this machine into crates/*/out of this clone, so that a check of a crate,
or `tests/edits.py --built`, proves nothing below it anew.

    tools/libraries.py          those that the kit keeps: some kits keep what `rt ci` proves beside themselves, by the checksums of all that it read
    tools/libraries.py CLONE    those that the last `rt ci` in another clone has built

Nothing is changed or removed where they are taken from. It prints the crates whose libraries are there now, and those whose are not. No verdict
rests on it: `rt ci` itself takes nothing from crates/*/out.
"""
import functools
import hashlib
import importlib.machinery
import importlib.util
import json
import os
import shutil
import sys
import threading

TOP = os.path.dirname(os.path.dirname(os.path.abspath(__file__)))


def with_each_once(work_out):
    """A sum of a crate and all below it that is worked out from the files at each call, and in one call once for each crate."""
    of_thread = threading.local()

    def sum_of_crate(crate):
        found = getattr(of_thread, "found", None)
        if found is None:
            of_thread.found = {}
            try:
                return work_out(crate)
            finally:
                of_thread.found = None
        if crate not in found:
            found[crate] = work_out(crate)
        return found[crate]

    return sum_of_crate


def program():
    """The program `rt`, as a module, in which a crate's sum takes each crate below it once, not once for each path that leads to it."""
    file = os.path.realpath(shutil.which("rt") or sys.exit("libraries: rt is not on the PATH"))
    sys.path.insert(0, os.path.dirname(file))
    loader = importlib.machinery.SourceFileLoader("rt_program", file)
    module = importlib.util.module_from_spec(importlib.util.spec_from_loader("rt_program", loader))
    loader.exec_module(module)
    below = functools.cache(module.rtlib.Crate.below)
    module.rtlib.Crate.below = lambda crate: list(below(crate))
    module.rtlib.Crate.stamp = with_each_once(module.rtlib.Crate.stamp)
    return module


def toolchain():
    """The program `rt`, whose crates are those of `rt ci`; no file of a crate changes here, so each sum is worked out once."""
    module = program()
    module.rtlib.Crate = module.Crate
    module.rtlib.Crate.stamp = functools.cache(module.rtlib.Crate.stamp)
    return module


def crates_of(rt, top):
    """The repository's crates, lowest first."""
    os.chdir(top)
    rt.Crate.allowed = rt.handles_of(top)
    return sorted(rt.rtlib.crates_below(top), key=lambda crate: len(crate.below()))


def is_there(rt, out, files):
    """Whether these files, each with its sum, are in a crate's out/."""
    return all(os.path.isfile(os.path.join(out, path)) and rt.rtlib.sum_of(os.path.join(out, path)) == sum for path, sum in files)


def write_stamp(crate):
    with open(os.path.join(crate.folder, "out", "rlib", "stamp"), "w", encoding="utf-8") as file:
        file.write(crate.stamp())


class KeptByTheKit:
    """What the kit keeps of `rt ci`."""

    def __init__(self, rt, crates):
        if not hasattr(rt, "Kept"):
            sys.exit("libraries: this kit keeps nothing of rt ci: name a clone in which it has run")
        self.rt, self.kept = rt, rt.Kept(crates)

    def files(self, crate):
        """Where the files of the crate's out/ are kept, and these files, each with its sum; None where they are not. Those below were asked for first."""
        place = self.kept.place(crate, False, self.kept.key(crate))
        if not os.path.isdir(place):
            return None
        with open(os.path.join(place, "made.json"), encoding="utf-8") as file:
            files = [tuple(it) for it in json.load(file)["files"]]
        # (as `Kept.is_built` notes it of the files in out/)
        self.kept.rlibs[crate.name] = hashlib.sha256(repr(files).encode()).hexdigest()
        return place, files

    def put(self, crate):
        """Puts what is kept of the crate into its out/, unless it is there; whether it is there then. Copies, so that what is kept stays as it is."""
        out, found = os.path.join(crate.folder, "out"), self.files(crate)
        if found is None:
            return False
        place, files = found
        if not is_there(self.rt, out, files):
            shutil.rmtree(os.path.join(out, "rlib"), ignore_errors=True)
            for number, (path, _) in enumerate(files):
                to = os.path.join(out, path)
                os.makedirs(os.path.dirname(to), exist_ok=True)
                shutil.copyfile(os.path.join(place, str(number)), to)
        if not is_there(self.rt, out, files) or [path for path, _ in files] != self.kept.made(crate, False):
            return False
        if not crate.is_program:
            write_stamp(crate)
        return True


def can_be_kept():
    """Whether the kit keeps what `rt ci` proves, and can on this machine."""
    rt = program()
    return hasattr(rt, "Kept") and rt.Kept([]).at is not None


def put_program(name):
    """Puts a program that `rt ci` has proved and built of the same files on this machine into its out/; whether the kit kept it."""
    if not can_be_kept():
        return False
    here = os.getcwd()
    try:
        rt = toolchain()
        crates = crates_of(rt, TOP)
        wanted = next(crate for crate in crates if crate.name == name)
        source = KeptByTheKit(rt, crates)
        if not all(source.files(crate) for crate in crates if crate in wanted.below()) or not source.put(wanted):
            return False
        for path in source.kept.made(wanted, False):
            os.chmod(os.path.join(wanted.folder, "out", path), 0o755)
        return True
    finally:
        os.chdir(here)


class OfAClone:
    """What `rt ci` has built in another clone. A library that it has built has no stamp; that of a check has one, and is taken by it."""

    def __init__(self, rt, clone):
        here = os.getcwd()
        self.rt, self.crates = rt, {crate.name: crate for crate in crates_of(rt, os.path.abspath(clone))}
        crates_of(rt, here)

    def put(self, crate):
        other = self.crates.get(crate.name)
        if other is None or sum_of_files(self.rt, crate) != sum_of_files(self.rt, other):
            return False
        made, to = os.path.join(other.folder, "out", "rlib"), os.path.join(crate.folder, "out", "rlib")
        stamp = os.path.join(made, "stamp")
        if not os.path.isdir(os.path.join(made, f"{crate.name}.rlib")) or os.path.exists(stamp) and not other.is_built():
            return False
        if not crate.is_built():
            shutil.rmtree(to, ignore_errors=True)
            shutil.copytree(made, to)
            write_stamp(crate)
        return True


def sum_of_files(rt, crate):
    """A sum of the crate's own files and of its line in crates.txt."""
    sum = hashlib.sha256(repr((crate.said, crate.has_c)).encode())
    for path in rt.rtlib.files_of(crate.folder):
        with open(path, "rb") as file:
            sum.update(repr((os.path.relpath(path, crate.folder), file.read())).encode())
    return sum.hexdigest()


def main():
    if len(sys.argv) > 2 or any(word.startswith("-") for word in sys.argv[1:]):
        sys.exit(f"libraries: takes the folder of a clone, or no word, and was given {' '.join(sys.argv[1:])}")
    clone = os.path.abspath(sys.argv[1]) if len(sys.argv) > 1 else None
    if clone == TOP:
        sys.exit("libraries: CLONE is another clone than this one")
    rt = toolchain()
    crates = [crate for crate in crates_of(rt, TOP) if not crate.is_program]
    source = OfAClone(rt, clone) if clone else KeptByTheKit(rt, crates)
    given, absent = [], set()
    for crate in crates:
        # (a library is kept over those below it, as they were built)
        if any(low.name in absent for low in crate.below()) or not source.put(crate):
            absent.add(crate.name)
        else:
            given.append(crate.name)
    print(f"{len(given)} libraries are there; not there: {', '.join(sorted(absent)) or 'none'}")


if __name__ == "__main__":
    main()
