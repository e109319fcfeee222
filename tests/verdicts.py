"""What was found of each edit of tests/edits, one line an edit in tests/edits/verdicts.txt, and the table of it in tests/edits/README.md.

A line has the edit, a sum of its text and of the code of the files that it changes, the date, the commit and the verdict. Where the sum is that of
the files as they are, the verdict holds of them; a contract that is in another file may have changed since.
"""
import collections
import datetime
import hashlib
import os
import re
import threading

TOP = os.path.dirname(os.path.dirname(os.path.abspath(__file__)))
EDITS = os.path.join(TOP, "tests", "edits")
PAGE = os.path.join(EDITS, "README.md")
RECORD = os.path.join(EDITS, "verdicts.txt")
BEGIN, END = "<!-- verdicts: written by tests/edits.py -->", "<!-- verdicts: end -->"
HEAD = ["| Crate | Edits | Refused | By names | Refused before a file changed | Not refused | Without a verdict |", "|---|" + "---:|" * 6]
REFUSED, BY_NAMES, NOT_REFUSED, NO_VERDICT = "refused", "refused-by-names", "not-refused", "no-verdict"
LOCK = threading.Lock()
Verdict = collections.namedtuple("Verdict", "sum date commit found")


# A text between quotation marks, a character between such marks, a comment, white space, or another character.
WORDS = re.compile(r'"(?:\\.|[^"\\])*"|\'(?:\\.|[^\'\\])\'|//[^\n]*|\s+|.')


def read(path):
    with open(path, encoding="utf-8") as file:
        return file.read()


def name_of(edit):
    """An edit's name, as `span_value/text_cut`."""
    folder, name = os.path.split(edit)
    return f"{os.path.basename(folder)}/{name.removesuffix('.edit')}"


def code_of(text):
    """A text of code without comments, white space and commas before a closing bracket: what the layout of a file does not change."""
    kept = "".join(word for word in WORDS.findall(text) if not word.startswith("//") and not word.isspace())
    return re.sub(r",(?=[)\]}])", "", kept)


def sum_of(edit):
    """A sum of an edit's text and of the code of the files that it changes, as they are in the repository."""
    text, crate = read(edit), os.path.basename(os.path.dirname(edit))
    files = sorted(set(re.findall(r"^file: (\S+)", text, re.M)))
    changed = [os.path.join(TOP, "crates", crate, file) for file in files]
    texts = [text, *(read(file) for file in changed if os.path.isfile(file))]
    return hashlib.sha256("\0".join(map(code_of, texts)).encode()).hexdigest()[:12]


def recorded():
    """The verdict of each edit that has one."""
    if not os.path.isfile(RECORD):
        return {}
    rows = (line.split(" ") for line in read(RECORD).splitlines())
    return {name: Verdict(*rest) for name, *rest in rows}


def is_current(edit, verdicts):
    """Whether the edit was refused on the files as they are."""
    verdict = verdicts.get(name_of(edit))
    return verdict is not None and verdict.sum == sum_of(edit) and verdict.found in (REFUSED, BY_NAMES)


def left(edits, is_new):
    """Those of some edits that were not refused on the files as they are; or those that have no verdict at all."""
    verdicts = recorded()
    if is_new:
        return [edit for edit in edits if name_of(edit) not in verdicts]
    return [edit for edit in edits if not is_current(edit, verdicts)]


def record(found, commit):
    """Writes what was found of some edits: pairs of an edit and a verdict."""
    with LOCK:
        verdicts, day = recorded(), str(datetime.date.today())
        verdicts.update({name_of(edit): Verdict(sum_of(edit), day, commit, verdict) for edit, verdict in found})
        there = {name for name in verdicts if os.path.isfile(os.path.join(EDITS, name + ".edit"))}
        with open(RECORD, "w", encoding="utf-8") as file:
            file.writelines(" ".join((name, *verdicts[name])) + "\n" for name in sorted(there))


def row(crate, edits, verdicts):
    """A crate's row of the table."""
    current = [verdicts[name_of(edit)].found for edit in edits if is_current(edit, verdicts)]
    before = [edit for edit in edits if not is_current(edit, verdicts) and name_of(edit) in verdicts]
    earlier = sum(verdicts[name_of(edit)].found in (REFUSED, BY_NAMES) for edit in before)
    not_refused = sum(verdicts[name_of(edit)].found == NOT_REFUSED for edit in before)
    counts = (len(edits), len(current), current.count(BY_NAMES), earlier, not_refused, len(edits) - len(current) - earlier - not_refused)
    return f"| `{crate}` | " + " | ".join(str(count) if count else "" for count in counts) + " |", counts


def write_table(edits):
    """Writes the table of all crates: `edits` has the edits of each."""
    with LOCK:
        verdicts = recorded()
        rows = [row(crate, edits[crate], verdicts) for crate in sorted(edits)]
        whole = [sum(of_column) for of_column in zip(*(counts for _, counts in rows))]
        last = "| all crates | " + " | ".join(str(count) if count else "" for count in whole) + " |"
        before, rest = read(PAGE).split(BEGIN, 1)
        after = rest.split(END, 1)[1]
        with open(PAGE, "w", encoding="utf-8") as file:
            file.write("\n".join([before + BEGIN, *HEAD, *(line for line, _ in rows), last, END + after]))
