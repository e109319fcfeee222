#!/usr/bin/env python3
"""Writes the grammar of docs/SQL.md, rule by rule and over plain tokens, and how each part of span_grammar's grammar follows from it.

    tools/grammar_written.py            writes the files
    tools/grammar_written.py --check    writes nothing, and names the files that are not what would be written; status 1 where there are any

Both are files of span_grammar_laws. Nothing rests on this tool: what it writes is proved as if it were written by hand.
"""
import functools
import sys

sys.dont_write_bytecode = True

import generated
import grammar as source
from generated import lines, module
from grammar import is_kind, snake, sort_term, text_of

# What docs/SQL.md writes and tools/grammar.py names otherwise: the expression of an opening, as it is read.
AS_READ = {'"-" unary': '"-" signed'}


# ---- the rules, as terms: (constructor, operand ..); ("Rule", name) is another rule

def chain(constructor, terms):
    """Terms in a row, as pairs to the right."""
    *firsts, found = terms
    for term in reversed(firsts):
        found = (constructor, term, found)
    return found


class Written:
    """The rules of docs/SQL.md, each as a term, and what is after each opening."""

    def __init__(self, page, grammar):
        self.grammar, self.texts = grammar, source.read_rules(page)
        self.places, self.rules = {}, {}
        places = {name.text: name.place for name in source.NAMES if name.place}
        self.place_names = {self.texts.get(text, text): place for text, place in places.items()}
        for name, text in self.texts.items():
            self.rules[name] = self.term(source.nest(name, source.parse(name, text)))

    def term(self, node):
        """An expression as a term."""
        if isinstance(node, str):
            return ("Rule", node) if node in self.texts else ("One", self.grammar.sort_of(node))
        if node.kind == "opening":
            place = self.place_names[AS_READ.get(text_of(node), text_of(node))]
            self.places[place] = self.term(node.items[1])
            return ("Open", self.grammar.sort_of(node.items[0]), place)
        if node.kind == "repeat":
            return ("Many", self.term(node.items[0]))
        if node.kind == "option":
            return chain("Or", [self.term(one) for one in source.alternatives_of(node.items[0])] + [("Empty",)])
        return chain("Then" if is_kind(node, "row") else "Or", [self.term(one) for one in node.items])

    def order(self):
        """The rules after those that they name."""
        found = {}

        def visit(name):
            for other in rules_in(self.rules[name]):
                visit(other)
            found[name] = None

        for name in self.rules:
            visit(name)
        return list(found)


def rules_in(term):
    """The rules that a term names."""
    if term[0] == "Rule":
        return [term[1]]
    return [name for operand in term[1:] if isinstance(operand, tuple) and term[0] in ("Then", "Or", "Many") for name in rules_in(operand)]


def written(name):
    return f"written_{name}"


def term_text(term, is_argument=False):
    """A term in antt."""
    kind, *operands = term
    if kind == "Rule":
        return written(operands[0])
    if kind == "Empty":
        return kind
    texts = {
        "One": lambda: [sort_term(operands[0])], "Open": lambda: [sort_term(operands[0]), f"place.{operands[1]}"],
    }.get(kind, lambda: [term_text(one, True) for one in operands])()
    text = " ".join([kind] + texts)
    return f"({text})" if is_argument else text


# ---- which part of span_grammar's grammar follows from a term, and how

DOT, STAR, NAME, SEMICOLON = ("One", ("Sign", "Dot")), ("One", ("Sign", "Star")), ("One", ("Name", None)), ("One", ("Sign", "Semicolon"))


class Derivations:
    """For each rule, and for what is after each opening: how its part follows, and what that unfolds."""

    def __init__(self, rules):
        self.written, self.grammar = rules, rules.grammar
        self.parts = {name: self.grammar.names[name] for name in rules.rules if name in self.grammar.names}

    def opened(self, term):
        """A term that is no name of a rule, and the rules that were opened for it."""
        opened = frozenset()
        while term[0] == "Rule":
            opened |= {written(term[1])}
            term = self.written.rules[term[1]]
        return term, opened

    @functools.cache
    def derive(self, term, part, is_whole=False, is_moved=False):
        """How a part follows from a term, and the names that this unfolds; None where it does not."""
        if term[0] == "Rule" and not is_whole and self.parts.get(term[1]) == part:
            return f"{term[1]}_alike", frozenset()
        term, opened = self.opened(term)
        if part not in self.grammar.tokens:
            opened |= {f"{snake(part)}_rule"}
        found = self.structural(term, part) or (None if is_moved else self.rewritten(term, part))
        return found and (found[0], found[1] | opened)

    def structural(self, term, part):
        """The same where term and part are of one form."""
        shape, operands = self.grammar.shape(part)
        special = self.special(term, shape, operands)
        if special or term[0] != shape:
            return special
        if shape == "One":
            return (f"alike_one {sort_term(operands[0])} refl", frozenset()) if term[1] == operands[0] else None
        if shape == "Open":
            is_same = term[1:] == tuple(operands)
            return (f"alike_open {sort_term(operands[0])} place.{operands[1]} refl refl", frozenset()) if is_same else None
        if shape == "Empty":
            return "alike_empty", frozenset()
        found = [self.derive(one, operand) for one, operand in zip(term[1:], operands)]
        if None in found:
            return None
        return " ".join([f"alike_{shape.lower()}"] + [f"({text})" for text, _ in found]), frozenset().union(*(names for _, names in found))

    def special(self, term, shape, operands):
        """What is a class of its own in the grammar that is read."""
        tokens = [self.grammar.tokens.get(one) for one in operands] if shape == "Then" else [None]
        if term == SEMICOLON and shape == "One" and operands[0][0] == "AnySemicolon":
            return "alike_any_semicolon", frozenset()
        if term == ("Then", DOT, NAME) and tokens == [DOT[1], NAME[1]]:
            return "alike_qualifier", frozenset()
        if term == ("Then", NAME, ("Then", DOT, STAR)) and tokens[0] == ("AllOf", None):
            return "alike_all_of", frozenset({f"{snake(operands[1])}_rule"})
        if term[0] == "Then" and term[1] == SEMICOLON and tokens[0] == ("Separator", None):
            text, names = self.derive(term[2], operands[1])
            return f"alike_separator ({text}) refl", names | self.opened(term[2])[1]
        return None

    def rewritten(self, term, part):
        """The same after one step that leaves the written rule's trees their marks."""
        for lemma, pattern, result in STEPS:
            for found, opened in self.matches(pattern, term):
                known = self.derive(filled(result, found), part, True, True)
                if known:
                    arguments = " ".join(term_text(found[one], True) for one in pattern_names(pattern))
                    return f"alike_by ({lemma} written_inside {arguments}) ({known[0]})", known[1] | opened
        return None

    def matches(self, pattern, term):
        """The terms that a pattern's letters are, and the rules that are opened to see it: none or one."""
        if isinstance(pattern, str):
            return [({pattern: term}, frozenset())]
        term, opened = self.opened(term)
        if term[0] != pattern[0]:
            return []
        found = {}
        for one, operand in zip(pattern[1:], term[1:]):
            for letters, names in self.matches(one, operand) or [(None, None)]:
                if letters is None or any(found.get(letter, value) != value for letter, value in letters.items()):
                    return []
                found, opened = {**found, **letters}, opened | names
        return [(found, opened)]


def filled(pattern, letters):
    return letters[pattern] if isinstance(pattern, str) else (pattern[0],) + tuple(filled(one, letters) for one in pattern[1:])


def pattern_names(pattern):
    """The letters of a pattern, each once, as they come."""
    if isinstance(pattern, str):
        return [pattern]
    return list(dict.fromkeys(name for one in pattern[1:] for name in pattern_names(one)))


# Lemmas of proofs/Languages.antt: the written rule, and one whose trees have the same marks.
STEPS = [
    ("then_assoc", ("Then", "a", ("Then", "b", "c")), ("Then", ("Then", "a", "b"), "c")),
    ("then_assoc_four", ("Then", "a", ("Then", "b", ("Then", "c", ("Then", "e", "r")))),
     ("Then", ("Then", "a", ("Then", "b", ("Then", "c", "e"))), "r")),
    ("option_first", ("Then", ("Or", "a", ("Empty",)), "b"), ("Or", ("Then", "a", "b"), "b")),
    ("or_option", ("Or", ("Then", ("Or", "a", ("Empty",)), "b"), "c"), ("Or", ("Then", "a", "b"), ("Or", "b", "c"))),
    ("three_taken_out", ("Or", ("Then", "m", "a"), ("Or", ("Then", "m", "b"), ("Or", ("Then", "m", "c"), "r"))),
     ("Or", ("Then", "m", ("Or", "a", ("Or", "b", "c"))), "r")),
    ("first_taken_out", ("Or", ("Then", "n", "q"), ("Or", ("Then", ("Or", "n", "i"), "g"), "r")),
     ("Or", ("Then", "n", ("Or", "g", "q")), ("Or", ("Then", "i", "g"), "r"))),
    ("or_swap", ("Or", "a", ("Or", "b", "c")), ("Or", "b", ("Or", "a", "c"))),
]

VARIANTS = """use Rattle.span_lexer.specs.declared.token.Word.TheVariants as word
use Rattle.span_lexer.specs.declared.token.Sign.TheVariants as sign
use Rattle.span_grammar.specs.declared.class.Sort.TheVariants as sort
use Rattle.span_grammar.specs.declared.class.Context.TheVariants as context
use Rattle.span_grammar.specs.declared.grammar.Place.{Place}
use Rattle.span_grammar.specs.declared.grammar.Place.TheVariants as place
use Rattle.span_grammar.specs.Rules.{Rule, Empty, One, Then, Or, Many, Open}
"""


def written_antt(rules):
    """specs/Written.antt: the rules."""
    body = lines(f"""-- {name} = {rules.texts[name]}
unfoldable pub {written(name)} : Rule
{written(name)} = {term_text(rules.rules[name])}""" for name in rules.order())
    return module("The grammar of docs/SQL.md, rule by rule. A row is Then, a choice Or, what may be left out a choice with nothing, "
                  "what repeats Many;\n-- Open is a token that counts as an opening, with what is after it, one deeper.", VARIANTS, body + """
-- what is after an opening
abbrev pub written_inside : Place → Rule
""" + lines(f"written_inside place.{place} = {term_text(rules.places[place])}" for place, _ in rules.grammar.places.items()))


def alikes_antt(rules):
    """proofs/Parts.antt: each part of the grammar that is read follows from the rule of docs/SQL.md."""
    derivations, body, unfolded = Derivations(rules), "", set()

    def add(name, of, found):
        text, names = found or source.stop(f"docs/SQL.md: no part of span_grammar's grammar follows from {name}")
        unfolded.update(names)
        unfolding = f"unfolding {' '.join(sorted(names))}\n" if names else ""
        return f"pub {name}_alike : Alike {of}\n{unfolding}{name}_alike = {text}\n\n"

    for name in rules.order():
        # a schema's last semicolon depends on the end of the text: proofs/Roots.antt has it
        if name in derivations.parts and name != "schema":
            part = derivations.parts[name]
            body += add(name, f"{written(name)} {snake(part)}_rule", derivations.derive(("Rule", name), part, True))
    for place, part in rules.grammar.places.items():
        body += add(snake(place), f"(written_inside place.{place}) {snake(part)}_rule", derivations.derive(rules.places[place], part))
    read = ", ".join(sorted(name for name in unfolded | {f"{snake(part)}_rule" for part in derivations.parts.values()} if name.endswith("_rule")))
    ours = ", ".join(written(name) for name in rules.rules)
    return module("Each part of the grammar that is read follows from the rule of docs/SQL.md.", """
use Rattle.std.proofs.Common.{refl}
""" + VARIANTS + f"""use Rattle.span_grammar.specs.Grammar.{{inside, {read}}}
use Rattle.span_grammar_laws.specs.Written.{{written_inside, {ours}}}
use Rattle.span_grammar_laws.proofs.Languages.{{{', '.join(lemma for lemma, _, _ in STEPS)}}}
use Rattle.span_grammar_laws.proofs.Alike.{{Alike, alike_empty, alike_one, alike_then, alike_or, alike_many, alike_open, alike_by, alike_qualifier, alike_all_of, alike_any_semicolon, alike_separator}}
""", body + """pub places_alike : (p : Place) → Alike (written_inside p) (inside p)
""" + lines(f"places_alike place.{place} = {snake(place)}_alike" for place in rules.grammar.places))


def text_of_files():
    """The text of each file under its path."""
    with open(source.PAGE, encoding="utf-8") as file:
        page = file.read()
    rules = Written(page, source.Grammar(page))
    return {
        "crates/span_grammar_laws/specs/Written.antt": written_antt(rules),
        "crates/span_grammar_laws/proofs/Parts.antt": alikes_antt(rules),
    }


if __name__ == "__main__":
    sys.exit(generated.main("tools/grammar_written.py", text_of_files))
