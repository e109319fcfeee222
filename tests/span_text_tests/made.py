"""Texts that are made by rules, whose answers tests/recogniser.py finds from the grammar in docs/SQL.md."""
import os
import re
import sys

import texts

sys.path.insert(0, os.path.join(os.path.dirname(os.path.abspath(__file__)), ".."))
import recogniser

# Tokens that take the place of others: of each kind, and what begins or ends a part of the grammar.
OTHERS = ["x", "9", "'s'", "b'b'", "@p", "(", ")", ",", ".", ";", "*", "-", "=", "||", "SELECT", "FROM", "AS", "NOT", "CASE", "END", "NULL", "IF", "offset", ""]
# Quotes, the letter of bytes before them or not.
QUOTES = [("'", "'"), ('"', '"'), ("B'", "'"), ('b"', '"')]


def beginnings(text):
    """Each beginning of a text."""
    return [text[:length] for length in range(len(text) + 1)]


def around_words(pairs):
    """Each reserved word, and a name, between these words."""
    return [before + word + after for before, after in pairs for word in [*recogniser.RESERVED, "bEtWeEn", "name"]]


def exchanged(text):
    """A text with each of its tokens taken out, or another in its place."""
    words = re.findall(r"'[^']*'|\w+|@\w+|<>|\|\||[^\s\w]", text)
    return [" ".join([*words[:at], other, *words[at + 1:]]) for at in range(len(words)) for other in OTHERS]


def of_literals(spelling):
    """Texts with a literal of this after a backslash, in quotes of each kind."""
    return [f"SELECT {opening}\\{spelling}{closing} FROM t" for opening, closing in QUOTES]


def escapes():
    """Each character of ASCII after a backslash and as a digit of a code, but for the end of a line; each code of two digits."""
    characters = [chr(byte) for byte in range(128) if byte != 10]
    spellings = [shape.format(character) for character in characters for shape in ("{}", "x0{}", "x{}0", "u00{}0")]
    spellings += [f"x{byte:02x}" for byte in range(256)]
    return [text for spelling in spellings for text in of_literals(spelling)]


def surrogates():
    """Each code of a surrogate."""
    return [f"SELECT '\\u{code:04X}' FROM t" for code in range(0xd800, 0xe000)]


def queries():
    """All such texts of queries, of one line each."""
    found = beginnings(texts.JOIN) + around_words(texts.AROUND) + escapes() + surrogates()
    for text in texts.READ:
        found += exchanged(text)
    return [text for text in found if "\n" not in text]


def schemas():
    """All such texts of schemas."""
    return beginnings(texts.USERS) + around_words(texts.AROUND_IN_SCHEMAS)
