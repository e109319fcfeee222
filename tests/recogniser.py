"""Judges texts by the grammar as docs/SQL.md has it: a second opinion on what the parsers answer.

It reads the grammar and the reserved words out of docs/SQL.md, cuts a text into tokens by regular expressions, and follows all the
ways at once in which the grammar can go on: each way is the row of what is still to come. No way left at a token is 3 there, no way
left but one past the 32nd opening is 4 there, and the end is 3 where no way is done. Nothing in it follows the parsers, which read
with one token ahead and one function a rule.

    recogniser.py statement | schema  judges standard input: the number, 0 where it is taken, and the byte where it is

tests/span_text_tests compares the program with it.
"""
import os
import re
import sys

TOP = os.path.join(os.path.dirname(os.path.abspath(__file__)), "..")
LONGEST_TEXT, LONGEST_WORD, GREATEST, DEEPEST = 65536, 128, 2**63 - 1, 32
MOST_TABLES, MOST_COLUMNS, MOST_LEVELS, GREATEST_LENGTH = 64, 64, 7, 1048576


# The language as docs/SQL.md says it.

class Part:
    """What a row is made of beside names and words: ways to choose from, a row any number of times, or an opening and what it encloses."""

    def __init__(self, kind, token, rows):
        self.kind, self.token, self.rows = kind, token, rows


def grammar_of(page):
    """Each rule's choice of rows, by the rule's name."""
    lines = " ".join(page.split("```")[1].split("\n"))
    rules = re.split(r"(\w+) += ", lines)
    return {name: choice(re.findall(r'"[^"]+"|\w+|[][{}()|]', body)) for name, body in zip(rules[1::2], rules[2::2])}


def choice(words):
    """What there is up to a closing bracket or the end, which is taken off the words: alternatives, each a row of parts."""
    rows, row = [], []
    while words:
        word = words.pop(0)
        if word in ("]", "}", ")"):
            break
        if word == "|":
            rows, row = rows + [row], []
        elif word == "[":
            row.append(Part("either", None, [[], [choice(words)]]))
        elif word == "{":
            row.append(Part("many", None, [[choice(words)]]))
        elif word == "(":
            row.append(choice(words))
        else:
            row.append(word)
    return Part("either", None, [nested(row) for row in rows + [row]])


def nested(row):
    """A row in which each opening holds what it encloses: a parenthesis up to its end, CASE, NOT and a minus all that follows."""
    for at, part in enumerate(row):
        following = row[at + 1] if at + 1 < len(row) else None
        if part == '"("':
            end = row.index('")"', at) + 1
            return row[:at] + [Part("open", part, [nested(row[at + 1:end])])] + nested(row[end:])
        if part == "CASE" or (part, following) in (("NOT", "neg"), ('"-"', "unary")):
            return row[:at] + [Part("open", part, [nested(row[at + 1:])])]
    return row


PAGE = open(os.path.join(TOP, "docs", "SQL.md"), encoding="utf-8").read()
GRAMMAR = grammar_of(PAGE)
RESERVED = re.search(r"Reserved words, in any case: ([A-Z\s]+)\.", PAGE).group(1).split()


# Tokens.

ESCAPE, CODED, UNICODE = r"\\[\\'\"nrt]", r"\\x[0-7][0-9a-fA-F]", r"\\u(?![dD][89a-fA-F])[0-9a-fA-F]{4}"
ANY_BYTE = r"\\x[0-9a-fA-F]{2}"
TOKEN = re.compile("|".join([
    r"(?P<blank>[ \t\r\n]+|--[^\n]*)",
    rf"(?P<string>'(?:[^'\\\n]|{ESCAPE}|{CODED}|{UNICODE})*'|\"(?:[^\"\\\n]|{ESCAPE}|{CODED}|{UNICODE})*\")",
    rf"(?P<bytes>[bB](?:'(?:[^'\\\n\x80-\xff]|{ESCAPE}|{ANY_BYTE})*'|\"(?:[^\"\\\n\x80-\xff]|{ESCAPE}|{ANY_BYTE})*\"))",
    r"(?P<word>(?![bB]['\"])[A-Za-z_][A-Za-z0-9_]*)",
    r"(?P<parameter>@[A-Za-z_][A-Za-z0-9_]*)",
    r"(?P<int>[0-9]+(?![A-Za-z0-9_]))",
    r"(?P<sign><>|!=|<=|>=|\|\||[(),.;*+\-=<>])",
]).encode("latin-1"))


class Refused(Exception):
    """A number and the byte where it is."""


def is_bad(kind, spelling):
    """Whether a token that is shaped well is none after all."""
    if kind == "int":
        return int(spelling) > GREATEST
    if kind == "parameter":
        return len(spelling) > 1 + LONGEST_WORD or spelling[1:].upper() in RESERVED
    return kind == "word" and len(spelling) > LONGEST_WORD


def tokens(text):
    """The tokens of a text of bytes: the kind, the spelling and the place of each."""
    if len(text) > LONGEST_TEXT:
        raise Refused(1, LONGEST_TEXT)
    found, at = [], 0
    while at < len(text):
        token = TOKEN.match(text, at)
        if not token or is_bad(token.lastgroup, token.group().decode()):
            raise Refused(2, at)
        if token.lastgroup != "blank":
            found.append((token.lastgroup, token.group().decode(), at))
        at = token.end()
    return found


# The grammar. A way is a row of what is still to come, each part with the number of openings around it: (depth, part, the rest).

def leading(ways):
    """The ways with a token in front, and the one that is done, of all that these ways can be."""
    found, left = set(), list(ways)
    while left:
        way = left.pop()
        depth, part, rest = way if way else (0, None, None)
        if part in GRAMMAR:
            left.append((depth, GRAMMAR[part], rest))
        elif isinstance(part, Part) and part.kind == "either":
            left += [later(depth, row, rest) for row in part.rows]
        elif isinstance(part, Part) and part.kind == "many":
            left += [rest, later(depth, part.rows[0], way)]
        else:
            found.add(way)
    return found


def later(depth, row, rest):
    """The way of a row, with a number of openings around it, and then the rest."""
    for part in reversed(row):
        rest = (depth, part, rest)
    return rest


def fits(part, kind, spelling):
    """Whether a token is this one of the grammar's: a sign, a word, or a kind."""
    if part.startswith('"'):
        return kind == "sign" and spelling == part.strip('"')
    if part == "name":
        return kind == "word" and spelling.upper() not in RESERVED
    return kind == "word" and spelling.upper() == part if part.isupper() else kind == part


def recognise(goal, text):
    """Raises what a text is refused for, if it isn't a text of the goal, and gives its tokens."""
    found = tokens(text)
    ways = leading([(0, goal, None)])
    for kind, spelling, place in found:
        nexts, is_too_deep = [], False
        for depth, part, rest in ways - {None}:
            opens = isinstance(part, Part)
            if not fits(part.token if opens else part, kind, spelling):
                continue
            if not opens:
                nexts.append(rest)
            elif depth < DEEPEST:
                nexts.append(later(depth + 1, part.rows[0], rest))
            else:
                is_too_deep = True
        if not nexts:
            raise Refused(4 if is_too_deep else 3, place)
        ways = leading(nexts)
    if None not in ways:
        raise Refused(3, len(text))
    return found


# The rules of schemas, over the tokens of a schema text, with single blanks between them and in small letters.

def table_of(words):
    name, rest = re.fullmatch(r"create table (\w+) \( (.*)", words).groups()
    columns, key, parent = re.fullmatch(r"(.*?) \) primary key \( (.*?) \)(?: , interleave in parent (\w+).*)?", rest).groups()
    columns = [re.fullmatch(r"(\w+) (.*?)(?: not null)?", column).groups() for column in columns.split(" , ")]
    columns = [(column, re.sub(r"\d+(?= \))", lambda number: str(int(number.group())), kind)) for column, kind in columns]
    key = [(column.split()[0], column.endswith(" desc")) for column in key.split(" , ")]
    return name, columns, key, parent


def table_fault(table, before):
    """The first rule that a table breaks: a number, or 0."""
    name, columns, key, parent = table
    kinds, names = dict(columns), [column for column, _ in columns]
    lengths = [int(number) for _, kind in columns for number in re.findall(r"\( (\d+)", kind)]
    if len(before) == MOST_TABLES or len(columns) > MOST_COLUMNS:
        return 33
    if name in before:
        return 30
    if len(set(names)) < len(names) or len(dict(key)) < len(key) or not set(dict(key)) <= set(names):
        return 35
    if not all(1 <= length <= GREATEST_LENGTH for length in lengths):
        return 35
    if parent is None:
        before[name] = (1, [(column, desc, kinds[column]) for column, desc in key])
        return 0
    if parent not in before:
        return 31
    level, wanted = before[parent]
    typed = [(column, desc, kinds[column]) for column, desc in key]
    if len(typed) <= len(wanted) or typed[:len(wanted)] != wanted:
        return 32
    before[name] = (level + 1, typed)
    return 34 if level == MOST_LEVELS else 0


def judge(goal, text):
    """The number that a text is answered, 0 where it is taken, and the byte where that is, 0 where it is nowhere."""
    try:
        found = recognise(goal, text)
    except Refused as why:
        return why.args
    if goal == "statement":
        return 0, 0
    words, before = " ".join(spelling.lower() for _, spelling, _ in found), {}
    faults = [table_fault(table_of(one), before) for one in words.removesuffix(" ;").split(" ; ")]
    return next((fault for fault in faults if fault), 0), 0


def main(words):
    if words in (["statement"], ["schema"]):
        print(*judge(words[0], sys.stdin.buffer.read()))
        return 0
    print(__doc__, file=sys.stderr)
    return 2


if __name__ == "__main__":
    sys.exit(main(sys.argv[1:]))
