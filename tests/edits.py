#!/usr/bin/env python3
"""Tries the edits of tests/edits: each turns the meaning of a function, and the prover must refuse it.

    tests/edits.py [--jobs N]               every crate's edits
    tests/edits.py [--jobs N] CRATE ..      these crates' alone
    tests/edits.py [--jobs N] --gate        those that gate.txt names, over the libraries that `rt ci` has just built: it has proved the
                                            crates as they are, and nothing but the edited functions is proved again here
    tests/edits.py --built [CRATE ..]       every crate's edits, or these crates', over the libraries that `rt ci` has just built, as with --gate
    tests/edits.py --texts                  tries none: whether each edit can be made, its old text standing in its file once
    --together N                            no more than N edits are tried by one check (12 where no number is given)
    --seconds N                             a check ends after N seconds of processor time, and then gives no verdict
    --minutes N                             no check begins after N minutes
    --left                                  those alone that were not refused yet on the files as they are
    --new                                   those alone that have no verdict yet, on whatever files

Without --gate and --built it works on a copy of the repository and builds the libraries that the crates need. Each edit is tried over what `rt check`
kept of its crate: so prove the crates first (`rt all check`), or every check begins with the proof of all that a function calls. What is found of
each edit is written to tests/edits/verdicts.txt as soon as it is known, and counted in the table of tests/edits/README.md (verdicts.py).

Edits that change the bodies of different functions are tried together, by a check of these functions alone: a function is proved by the
contracts of those that it calls, so that the body of one is nothing to another. An edit of a private constant counts as one of the first
function that names it. With --gate a hole is in place of the proof of every other function of the crate, so that the check takes their
contracts as they are. An edit is refused where its function has no proof, for a goal in its own lines or in a file of its own proof. Where
that shows nothing of an edit it is tried by itself, on the whole crate at last. N checks run at a time, as many as there are processors where
no number is given.

An edit that is refused only because a proof file names what the edit took away says little of the contract: such edits are counted apart. So
are edits without a verdict, whose check was ended by --seconds or not begun for --minutes: they are not refused, and not found to be proved.
"""
import argparse
import concurrent.futures
import contextlib
import copy
import functools
import importlib.machinery
import importlib.util
import os
import re
import shutil
import signal
import subprocess
import sys
import tempfile
import time

sys.dont_write_bytecode = True
import verdicts  # noqa: E402 (after the line above, which keeps it from leaving a folder)

TOP = os.path.dirname(os.path.dirname(os.path.abspath(__file__)))
EDITS = os.path.join(TOP, "tests", "edits")
GATE = os.path.join(EDITS, "gate.txt")
BY_NAMES = "only because a proof file names"
FLAGS = ["--jobs", "1"]
FUNCTION = re.compile(r"^ *(?:pub(?:\([a-z]+\))? )?fn (\w+)", re.M)
# (the parameters of an impl end in a line of its own where they take several)
TYPE = re.compile(r"^(?:impl(?:<[^{\n]*?>)?|>) (?:\S+ for )?(\w+)", re.M)
CONSTANT = re.compile(r"const (\w+): ")
DECLARED = re.compile(r"^(?:pub(?:\([a-z]+\))? )?(?:struct|enum|union) (\w+)", re.M)
CYCLE = re.compile(r"^ *#\[cycle\((\w+)\)\]", re.M)
# A proof that is left out: what the function's statement says is taken as it is.
HOLE = "use {module}.{{statement}}\n\npub {name}_spec : {{M : Type 1}} → statement M\n{name}_spec = ?\n"
# A proof that no longer fits since it names what is gone.
NAMES_GONE = re.compile(r"has no field|is not in scope|has no `|was not admitted")
# Where a report of the prover begins.
PLACE = re.compile(r"(note: )?\S+:\d+:\d+:")
# How many edits are tried together at most, where no number is given.
TOGETHER = 12
# Said of an edit whose check did not begin.
TOO_LATE = "not tried, for --minutes"
# What is said of an edit of which nothing was found: `rt` says the second, where a check could not run.
UNTRIED = (TOO_LATE, "NOT TRIED")
# What is found of an edit: it is refused, or not, or its check gave no verdict.
REFUSED, NOT_REFUSED, NO_VERDICT = "refused", "not refused", "without a verdict"


def arguments():
    reader = argparse.ArgumentParser(description=__doc__.split("\n", maxsplit=1)[0], allow_abbrev=False)
    reader.add_argument("--jobs", type=int, default=os.cpu_count(), help="how many checks run at a time")
    reader.add_argument("--gate", action="store_true", help="the edits of the gate, after rt ci")
    reader.add_argument("--built", action="store_true", help="over the libraries that rt ci has just built")
    reader.add_argument("--texts", action="store_true", help="only whether each edit can be made")
    reader.add_argument("--together", type=int, default=TOGETHER, metavar="N", help="how many edits are tried by one check at most")
    reader.add_argument("--seconds", type=int, metavar="N", help="the processor time after which a check ends without a verdict")
    reader.add_argument("--minutes", type=int, metavar="N", help="the time after which no check begins")
    reader.add_argument("--left", action="store_true", help="those that were not refused yet on the files as they are")
    reader.add_argument("--new", action="store_true", help="those that have no verdict yet, on whatever files")
    reader.add_argument("crates", nargs="*", metavar="CRATE")
    found = reader.parse_args()
    found.ends = time.monotonic() + 60 * found.minutes if found.minutes else None
    if found.gate and (found.crates or found.built or found.left or found.new):
        reader.error("--gate takes no crates, and neither --built nor --left nor --new")
    if found.texts and (found.crates or found.gate or found.built or found.left or found.new):
        reader.error("--texts takes no crates, and no other choice of edits")
    for crate in found.crates:
        if crate not in crates_with_edits():
            reader.error(f"tests/edits has no edits of {crate}")
    return found


def read(path):
    with open(path, encoding="utf-8") as file:
        return file.read()


def crates_with_edits():
    return sorted(name for name in os.listdir(EDITS) if os.path.isdir(os.path.join(EDITS, name)))


def edits_of(crate):
    folder = os.path.join(EDITS, crate)
    return sorted(os.path.join(folder, name) for name in os.listdir(folder) if name.endswith(".edit"))


def edits_of_gate():
    """The edits that gate.txt names, by crate."""
    found = {}
    for line in read(GATE).split():
        crate, name = line.split("/")
        found.setdefault(crate, []).append(os.path.join(EDITS, crate, name + ".edit"))
    return found


def wrong_texts(rt):
    """A line for each edit, of all crates, that cannot be made: as where an old text does not stand in its file, or more than once."""
    tried = ((edit, rt.read_edit(edit, os.path.join(TOP, "crates", crate))[1]) for crate in crates_with_edits() for edit in edits_of(crate))
    return [f"edits: {verdicts.name_of(edit)}: {why}" for edit, why in tried if why]


def toolchain():
    """The program `rt`, as a module: `rt must-fail` proves a crate anew before its first edit, and `must_fail` takes what is kept."""
    file = os.path.realpath(shutil.which("rt") or sys.exit("edits: rt is not on the PATH"))
    loader = importlib.machinery.SourceFileLoader("rt_program", file)
    module = importlib.util.module_from_spec(importlib.util.spec_from_loader("rt_program", loader))
    loader.exec_module(module)
    remember_sums(module)
    return module


def remember_sums(rt):
    """Works the sum of a crate's files and of all below it out once: else that takes minutes for a crate high up, since there is a sum for each
    way that leads down to a crate."""
    work_out = rt.rtlib.Crate.stamp
    rt.rtlib.Crate.stamp = functools.cache(work_out)


class TookTooLong(Exception):
    """A check was ended by --seconds."""


def end_checks_after(rt, seconds):
    """Ends each check of an edit after so much processor time."""
    guarded, checked = rt.rtlib.guarded, rt.checked

    def checked_in_time(*words):
        ran = checked(*words)
        if ran.returncode in (-signal.SIGXCPU, -signal.SIGKILL):
            raise TookTooLong
        return ran

    rt.rtlib.guarded = lambda: [*guarded(), "prlimit", f"--cpu={seconds}:{seconds + 5}"]
    rt.checked = checked_in_time


def copy_of_repository(folder, tried):
    """The files that the repository tracks, copied, with the libraries that were built, and the work that checks of the crates to try have kept."""
    files = subprocess.run(["git", "ls-files", "-z"], cwd=TOP, check=True, capture_output=True).stdout.decode().split("\0")
    for file in filter(None, files):
        to = os.path.join(folder, file)
        os.makedirs(os.path.dirname(to), exist_ok=True)
        shutil.copy2(os.path.join(TOP, file), to)
    for crate in os.listdir(os.path.join(TOP, "crates")):
        for part in ["rlib"] + ["incremental"] * (crate in tried):
            kept = os.path.join(TOP, "crates", crate, "out", part)
            if os.path.isdir(kept):
                shutil.copytree(kept, os.path.join(folder, "crates", crate, "out", part))


def build_libraries(crates):
    """Builds what these crates use, lowest first, where it was not built."""
    needed = {low.name: low for crate in crates for low in crate.below()}
    for low in sorted(needed.values(), key=lambda it: len(it.below())):
        subprocess.run([os.path.join(TOP, "tools", "rt"), "lib"], cwd=low.folder, check=True, stdout=subprocess.DEVNULL)


class Function:
    """A function in the text of a file: its name, with the type that it is a method of, and its first and last line."""

    def __init__(self, text, at):
        heads = list(FUNCTION.finditer(text))
        here = max(number for number, head in enumerate(heads) if head.start() <= at)
        self.start, self.short = heads[here].start(1), heads[here].group(1)
        end = text.rfind("\n\n", 0, heads[here + 1].start()) if here + 1 < len(heads) else len(text)
        self.indent = re.match(" *", heads[here].group()).group()
        types = TYPE.findall(text[: self.start]) if self.indent else []
        self.name = "::".join([*types[-1:], self.short])
        # The prover names the line of what is written above the head, where there is an attribute.
        above = text.rfind("\n\n", 0, self.start)
        self.first, self.last = text.count("\n", 0, above + 1) + 1, text.count("\n", 0, end) + 1
        self.text = text[self.start : end]
        # A function that calls itself is a cycle of its own name.
        itself = rf"\b(self\.|Self::|{types[-1]}::)" if types else r"(?<![.:\w])"
        calls_itself = re.search(rf"{itself}{self.short}\(", self.text.partition("{\n")[2])
        self.cycle = next(iter(CYCLE.findall(text[above + 1 : self.start])), self.short if calls_itself else None)
        # Others may have given their cycle this function's name.
        self.lends_name = not self.cycle and f"#[cycle({self.short})]" in text

    def path(self, crate, file):
        """What the prover calls it: a free function by its whole path, since a method may have its name."""
        if "::" in self.name:
            return self.name
        modules = [it for it in module_of(file).split("/") if it]
        return "::".join([crate.name, *modules, self.name])

    def proof(self, proofs):
        """The name of its proof in the folder of its module's proofs: its own, or that of the cycle of calls that it is in."""
        *types, short = self.name.split("::")
        is_cycle = self.cycle or (not self.lends_name and os.path.isdir(os.path.join(proofs, *types, f"+{short}")))
        return "/".join([*types, f"+{self.cycle or short}" if is_cycle else short])

    def has_in_body(self, text, at):
        """Whether a place that follows the function's head is in its body."""
        before = text[self.start : at]
        return "{\n" in before and f"\n{self.indent}}}\n" not in before

    def place(self, file, parted, name):
        """What the prover names the function by, a regular expression: a free function by its whole path, a method by its type, whose name may
        have that of a trait after it."""
        *types, _ = self.name.split("::")
        if types:
            return rf"(\S+{parted})?{types[-1]}\w*{parted}{name}"
        return parted.join([*filter(None, module_of(file).split("/")), name])

    def goal(self, crate, path, lines):
        """The first goal of the function that the prover leaves open, as it says: one that names nothing that is gone, where there is one. None
        where it has none."""
        open_line = rf"fn {crate.name}::{self.place(path, '::', self.short)}: (no proof|not proved)"
        if not any(re.match(open_line, line) for line in lines):
            return None
        goals = [text for text in reports(lines) if self.has_goal(path, text)]
        by_names = f"({BY_NAMES} what the edit took away) "
        return next((it for it in goals if not NAMES_GONE.search(it)), None) or next((by_names + it for it in goals), None)

    def has_goal(self, path, report):
        """Whether a report of the prover is of a goal in the function's lines, or in a file of its proof."""
        source = re.match(r"note: (\S+?):(\d+):\d+: it is not proved", report)
        if source:
            return source.group(1) == path and self.first <= int(source.group(2)) <= self.last
        place = self.place(path, "/", rf"({self.short}|\+{self.cycle or self.short})")
        return bool(re.match(rf"(\./)?proofs/{place}/\w+\.antt:\d+:\d+: error", report))


def reports(lines):
    """What the prover reports, each in one line: the place of an error or a note, and what the lines below it say."""
    found = []
    for line in lines:
        if PLACE.match(line):
            found.append(line)
        elif found and line.startswith(" "):
            found[-1] += " " + line.strip()
        elif line:
            found.append(line)
    return found


def functions_of(text):
    """The functions of a file."""
    return [Function(text, head.start(1)) for head in FUNCTION.finditer(text)]


def functions_that_name(text, constant):
    """The functions of a file that name a constant."""
    return [it for it in functions_of(text) if re.search(rf"\b{constant}\b", it.text)]


def module_of(path):
    """The module, below the crate, that a file of src/ is."""
    module = path.removeprefix("src/").removesuffix(".rt").removesuffix("/mod")
    return "" if module in ("lib", "main") else module


def modules_of_types(crate):
    """The module in which each type of the crate is declared: the proofs of its methods are there, in whatever file they are."""
    found = {}
    for path in files_below(crate.folder, "src"):
        found.update((name, module_of(path)) for name in DECLARED.findall(read(os.path.join(crate.folder, path))))
    return found


def proofs_of(crate):
    """The proofs of the crate's functions, each by its place below proofs/, with the path of the functions' file and their names."""
    found, declared = {}, modules_of_types(crate)
    for path in files_below(crate.folder, "src"):
        for function in functions_of(read(os.path.join(crate.folder, path))):
            module = declared.get(function.name.split("::")[0], module_of(path))
            proof = function.proof(os.path.join(crate.folder, "proofs", module))
            found.setdefault(os.path.join(module, proof), set()).add((path, function.name))
    return found


def leave_proofs_out(crate, kept):
    """Puts a hole in place of each proof of the crate's functions but of those that are kept, each the path of a file and a name in it."""
    for place, functions in proofs_of(crate).items():
        if functions & kept:
            continue
        folder = os.path.join(crate.folder, "proofs", place)
        os.makedirs(folder, exist_ok=True)
        for name in ("Invariants.antt", "Answers.antt"):
            with contextlib.suppress(FileNotFoundError):
                os.remove(os.path.join(folder, name))
        # (a cycle of calls has its statement beside its proof)
        *modules, name = place.split("/")
        of_function = [] if name.startswith("+") else ["Statement"]
        module = ".".join(["Rattle", crate.name, "proofs", *modules, name, *of_function])
        with open(os.path.join(folder, "Proof.antt"), "w", encoding="utf-8") as file:
            file.write(HOLE.format(module=module, name=name))


def files_below(top, part):
    """The files of a part of a crate, by their paths in the crate."""
    return [os.path.relpath(os.path.join(folder, name), top) for folder, _, names in os.walk(os.path.join(top, part)) for name in names]


class Batch:
    """Edits of a crate that change the bodies of different functions, and the files with all of them made."""

    def __init__(self, crate, most=1):
        self.crate, self.most, self.texts, self.edits, self.changed = crate, most, {}, [], []

    def text(self, path):
        return self.texts.get(path) or read(os.path.join(self.crate.folder, path))

    def add(self, edit):
        """Adds an edit where it changes the body of one function more; whether it does."""
        lines = [line for line in read(edit).split("\n") if line]
        if [line.split(" ")[0] for line in lines] != ["file:", "old:", "new:"] or not lines[0].startswith("file: src/"):
            return False
        path, old, new = (line.partition(" ")[2] for line in lines)
        text = self.text(path)
        function = self.function_of(text, old) if text.count(old) == 1 else None
        is_new = function and all((path, function.name) != (other, it.name) for other, it in self.changed)
        if not is_new or len(self.edits) == self.most:
            return False
        self.texts[path] = text.replace(old, new)
        self.edits.append(edit)
        self.changed.append((path, function))
        return True

    @staticmethod
    def function_of(text, old):
        """The function in whose body a text is, or the first that names the private constant that it declares; None where there is none."""
        at = text.find(old)
        constant = CONSTANT.match(old)
        if constant:
            return next(iter(functions_that_name(text, constant.group(1))), None)
        if not FUNCTION.search(text[: at + len(old)]):
            return None
        function = Function(text, at)
        return function if function.has_in_body(text, at) else None

    def goals(self, rt, kept):
        """Of each edit the goal that its function has open, where it is refused for one; else None. No list where the check was ended."""
        flags = [*FLAGS, *(word for path, it in self.changed for word in ("--only", it.path(self.crate, path)))]
        with contextlib.ExitStack() as stack:
            crate = self.crate if kept else stack.enter_context(self.crate_with_holes(rt))
            try:
                ran = rt.checked(crate, self.texts, flags if kept else [*flags, "--allow-holes"], kept)
            except TookTooLong:
                return None
        lines = ran.stdout.split("\n")
        if ran.returncode != 1 or any(rt.unread(line, self.texts) for line in lines):
            return [None for _ in self.edits]
        return [Function(self.texts[path], self.start(path, it)).goal(self.crate, path, lines) for path, it in self.changed]

    @contextlib.contextmanager
    def crate_with_holes(self, rt):
        """A copy of the crate in which only the functions that are changed have a proof."""
        with tempfile.TemporaryDirectory(prefix="edits-") as folder:
            for part in rt.rtlib.PARTS:
                if os.path.isdir(os.path.join(self.crate.folder, part)):
                    shutil.copytree(os.path.join(self.crate.folder, part), os.path.join(folder, part))
            crate = copy.copy(self.crate)
            crate.folder = folder
            leave_proofs_out(crate, {(path, it.name) for path, it in self.changed})
            yield crate

    def start(self, path, function):
        """Where a function begins in the text with all the edits made."""
        return next(head.start(1) for head in FUNCTION.finditer(self.texts[path]) if Function(self.texts[path], head.start(1)).name == function.name)


def batches_of(crate, edits, most):
    """The edits in batches of at most a number of edits, and those that change anything but a function's body."""
    batches, others = [], []
    for edit in edits:
        if any(batch.add(edit) for batch in batches):
            continue
        batch = Batch(crate, most)
        if batch.add(edit):
            batches.append(batch)
        else:
            others.append(edit)
    return batches, others


def try_alone(rt, crate, edit, kept):
    """What is found of an edit, and what is said of it: by a check of its function, and then of the whole crate."""
    batch = Batch(crate)
    goals = batch.goals(rt, kept) if batch.add(edit) else [None]
    if goals is None:
        return no_verdict(crate, edit, "its check took too long")
    if goals[0]:
        return refused(crate, edit, goals[0])
    try:
        kind, said = rt.must_fail(crate, edit, FLAGS, kept)
    except TookTooLong:
        return no_verdict(crate, edit, "the check of its crate took too long")
    return REFUSED if is_refusal(rt, kind) else NOT_REFUSED, said


def is_refusal(rt, kind):
    """Whether `rt` says that an edit is refused: by a word of its own, or, in a kit that has none, by the truth value."""
    return kind is True or kind in (getattr(rt, "REFUSED", True), getattr(rt, "AT_LIMIT", True))


def refused(crate, edit, goal):
    return REFUSED, f"{crate.name}/{os.path.basename(edit)}: refused, as it must be: {goal[:160]}"


def no_verdict(crate, edit, why):
    return NO_VERDICT, f"{crate.name}/{os.path.basename(edit)}: without a verdict: {why}"


def try_batch(rt, batch, kept):
    """Of each edit of a batch what is found, and what is said of it."""
    goals = batch.goals(rt, kept)
    if goals is None and len(batch.edits) == 1:
        return [no_verdict(batch.crate, batch.edits[0], "its check took too long")]
    goals = goals or [None for _ in batch.edits]
    pairs = zip(batch.edits, goals)
    return [refused(batch.crate, edit, goal) if goal else try_alone(rt, batch.crate, edit, kept) for edit, goal in pairs]


def try_over(rt, crate, call, is_kept):
    """What a call finds of edits, over a copy of what is kept of the crate, if anything is. Writes it."""
    with tempfile.TemporaryDirectory(prefix="edits-") as kept:
        of_crate = os.path.join(crate.folder, "out", "incremental")
        if is_kept and os.path.isdir(of_crate):
            shutil.copytree(of_crate, kept, dirs_exist_ok=True)
        tried = call(kept if is_kept else None)
    for _, text in tried:
        print(text, flush=True)
    return tried


def commit_here():
    """The commit of the repository, with a mark where files differ from it."""
    words = ["git", "describe", "--always", "--dirty"]
    return subprocess.run(words, cwd=TOP, check=True, capture_output=True, text=True).stdout.strip()


def verdict_of(found, text):
    """The verdict that is recorded, of what was found of an edit and said of it."""
    if found == REFUSED:
        return verdicts.BY_NAMES if BY_NAMES in text else verdicts.REFUSED
    return verdicts.NO_VERDICT if found == NO_VERDICT else verdicts.NOT_REFUSED


def write_verdicts(edits, tried, commit):
    """Records what was found of some edits, where they were tried."""
    verdicts.record([(edit, verdict_of(*one)) for edit, one in zip(edits, tried) if not any(words in one[1] for words in UNTRIED)], commit)
    verdicts.write_table({crate: edits_of(crate) for crate in crates_with_edits()})


def calls_of(rt, crate, edits, words):
    """What tries the edits of a crate: calls, each with its edits."""
    batches, others = batches_of(crate, edits, words.together)
    calls = [(it.edits, lambda kept, it=it: try_batch(rt, it, kept)) for it in batches]
    calls += [([it], lambda kept, it=it: [try_alone(rt, crate, it, kept)]) for it in others]
    return [(edits, lambda kept, edits=edits, call=call: call(kept) if is_time(words) else too_late(crate, edits)) for edits, call in calls]


def is_time(words):
    return words.ends is None or time.monotonic() < words.ends


def too_late(crate, edits):
    return [no_verdict(crate, edit, TOO_LATE) for edit in edits]


def try_all(rt, crates, edits, words, is_kept, commit):
    """Tries the edits of these crates, and returns what was found of each crate's. It is recorded where a commit is given. is_kept: over what
    checks of the crates kept, and not over their libraries alone."""
    tried = {it.name: [] for it in crates}
    with concurrent.futures.ThreadPoolExecutor(words.jobs) as pool:
        running = {}
        for crate in crates:
            calls = calls_of(rt, crate, edits[crate.name], words)
            running.update({pool.submit(try_over, rt, crate, call, is_kept): (crate.name, its) for its, call in calls})
        for future in concurrent.futures.as_completed(running):
            name, its = running[future]
            tried[name] += future.result()
            if commit:
                write_verdicts(its, future.result(), commit)
    return tried


def unproved(rt, crates, jobs):
    """The crates that are not proved over what is kept of them: an edit of one would be refused whatever it says."""
    with concurrent.futures.ThreadPoolExecutor(jobs) as pool:
        calls = [lambda kept, it=it: [(not rt.checked(it, {}, FLAGS, kept).returncode, f"edits: {it.name} without edits")] for it in crates]
        found = pool.map(lambda one: try_over(rt, *one, True), zip(crates, calls))
        return [crate.name for crate, tried in zip(crates, found) if not tried[0][0]]


def is_out_of_date(crate):
    """Whether the library that is there is one of other files of the crate, as after `rt ci` in a clone in which something was built before:
    then it may have other contracts. (`rt ci` writes no stamp beside those that it builds.)"""
    stamp = os.path.join(crate.folder, "out", "rlib", "stamp")
    return os.path.exists(stamp) and read(stamp).strip() != crate.stamp()


def main():
    words, rt = arguments(), toolchain()
    if words.texts:
        wrong = wrong_texts(rt)
        print("\n".join(wrong or ["edits: each can be made"]))
        return int(bool(wrong))
    rt.rtlib.guarded()
    edits = edits_of_gate() if words.gate else {it: edits_of(it) for it in words.crates or crates_with_edits()}
    if words.left or words.new:
        edits = {crate: verdicts.left(its, words.new) for crate, its in edits.items()}
    if not any(edits.values()):
        sys.exit("edits: there are none to try")
    if words.seconds:
        end_checks_after(rt, words.seconds)
    is_kept = not words.gate and not words.built
    with tempfile.TemporaryDirectory() as folder:
        if is_kept:
            copy_of_repository(folder, edits)
        top = folder if is_kept else TOP
        os.chdir(top)
        crates = sorted((it for it in rt.rtlib.crates_below(top) if it.name in edits), key=lambda it: -len(it.below()))
        if is_kept:
            build_libraries(crates)
            lacking = unproved(rt, crates, words.jobs)
        else:
            lacking = sorted({low.name for crate in crates for low in crate.below() if is_out_of_date(low)})
        if lacking:
            sys.exit(f"edits: not proved as they are: {', '.join(lacking)}")
        tried = try_all(rt, crates, edits, words, is_kept, None if words.gate else commit_here())
        os.chdir(TOP)
    found = [one for it in tried.values() for one, _ in it]
    without = f", {found.count(NO_VERDICT)} {NO_VERDICT}" if NO_VERDICT in found else ""
    print(f"edits: {found.count(REFUSED)} of {sum(map(len, edits.values()))} refused{without}")
    return int(found.count(REFUSED) < sum(map(len, edits.values())))


if __name__ == "__main__":
    sys.exit(main())
