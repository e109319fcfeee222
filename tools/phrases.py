"""How the parsers put phrases together, and the lemma that a phrase reads as the grammar's rule of a part.

A phrase is a parser of span_primary's specs/Phrases.antt. A definition there is made of phrases as the part is made of parts: what is said here
must fit the shape of the part, or the tool stops.
"""
import re
from collections import namedtuple

from grammar import sort_term, stop

Phrase = namedtuple("Phrase", "kind arguments")


def word(name):
    return sort_term(("Word", name))


def sign(name):
    return sort_term(("Sign", name))


def context(name):
    return sort_term(("Context", name))


# the phrases

def token(sort):
    """One token of a sort."""
    return Phrase("token", (sort,))


def nothing(value):
    """No token, and a value."""
    return Phrase("nothing", (value,))


def apply(function, phrase):
    """A function of what a phrase reads."""
    return Phrase("apply", (function, phrase))


def constant(value, sort):
    """One token of a sort, and a value."""
    return apply(f"(λ t. {value})", token(sort))


def then(first, name, second):
    """A phrase, whose value is called so in the one that follows."""
    return Phrase("then", (first, name, second))


def after(first, *others):
    """Phrases in a row, of which the last has the value."""
    return then(first, "_", after(*others)) if others else first


def either(*phrases):
    """The first of some phrases that can begin with the token that comes."""
    return phrases[0] if len(phrases) == 1 else Phrase("either", (phrases[0], either(*phrases[1:])))


def option(phrase):
    """A phrase or nothing."""
    return either(apply("Some", phrase), nothing("None"))


def each(phrase):
    """A phrase any number of times."""
    return Phrase("each", (phrase,))


def opening(phrase):
    """An opening token, and a phrase one deeper."""
    return Phrase("opening", (phrase,))


def beside(value, phrase):
    """A value that was read before, and what a phrase reads."""
    return Phrase("beside", (value, phrase))


def proved(definition, proof, name=None):
    """A phrase that has a name, and the proof that it reads as its part's rule. The name is a lemma's, or a sort's for one token."""
    return Phrase("proved", (definition, proof, name))


# Definitions whose lemma is not called as they are.
LEMMAS = {
    "call_or_column": "named", "qualified_column": "qualified", "comparison_test": "compared", "negatable_test": "deniable",
    "signed_primary": "signed", "negated_predicate": "negated", "block_body": "block_shown", "order_and_limit": "ordered",
    "key_and_parent": "keyed", "primary_key": "with_key",
}


def reference(name, applied="", given=""):
    """A definition, applied so, and its lemma."""
    return proved(f"{name} {applied}".strip(), f"{LEMMAS.get(name, name)}_good {given}".strip(), name)


# what is written of them

SHAPES = {"token": "One", "nothing": "Empty", "then": "Then", "either": "Or", "each": "Many", "opening": "Open"}


class Writer:
    """Writes phrases and their lemmas, over the parts of the grammar."""

    def __init__(self, grammar):
        self.grammar = grammar
        self.part_of = {}  # the part that the lemma on each definition speaks of

    def misfit(self, part, reader):
        """Stops: the tables do not fit the grammar."""
        stop(f"the part {part} is not read by {reader}: docs/SQL.md has changed, and so must the tables of tools/grammar_phrases.py")

    def require_known(self, part, name):
        """Stops where a definition that has a lemma, or a sort of tokens, is not of this part."""
        is_sort = name is not None and "sort." in name
        found = sort_term(self.grammar.tokens[part]) if is_sort and part in self.grammar.tokens else part
        if found != (name if is_sort else self.part_of.get(name, part)):
            self.misfit(part, name)

    def operands(self, kind, part, sort=None):
        """The operands of a part, whose shape must be a phrase's of this kind."""
        if part not in self.grammar.parts and part not in self.grammar.tokens:
            self.misfit(part, "anything, since there is none")
        shape, operands = self.grammar.shape(part)
        if shape != SHAPES[kind] or (sort and sort_term(operands[0]) != sort):
            self.misfit(part, f"{kind} {sort or ''}".strip())
        return operands

    def definition(self, phrase, part, depth):
        """A phrase that reads a part, with a number of openings left."""
        kind, arguments = phrase
        if kind in ("token", "nothing"):
            return f"({kind} {arguments[0]})"
        if kind == "proved":
            return f"({arguments[0]})"
        if kind == "apply":
            return f"({arguments[0]} <$> {self.definition(arguments[1], part, depth)})"
        if kind == "beside":
            return f"(pair_with {arguments[0]} {self.definition(arguments[1], part, depth)})"
        operands = self.operands(kind, part)
        if kind == "opening":
            inside = self.definition(arguments[0], self.grammar.places[operands[1]], depth)
            return f"(opening {depth} {sort_term(operands[0])} {inside})"
        texts = [self.definition(one, of, depth) for one, of in zip(arguments[::2] if kind == "then" else arguments, operands)]
        if kind == "then":
            return f"({texts[0]} >>= (λ {arguments[1]}. {texts[1]}))"
        return f"({kind} {self.grammar.part_term(operands[0])} {' '.join(texts)})"

    def proof(self, phrase, part, depth):
        """That a phrase reads a part as the grammar's rule of it, with a number of openings left."""
        kind, arguments = phrase
        if kind == "proved":
            self.require_known(part, arguments[2])
            return f"({arguments[1]})"
        if kind in ("apply", "beside"):
            lemma, (value, inner) = {"apply": "map_good", "beside": "beside_good"}[kind], arguments
            return f"({lemma} {value} {self.definition(inner, part, depth)} {self.proof(inner, part, depth)})"
        operands = self.operands(kind, part, arguments[0] if kind == "token" else None)
        if kind in ("token", "nothing"):
            return f"({kind}_good {depth} {arguments[0]})"
        if kind == "opening":
            inside, sort = self.grammar.places[operands[1]], sort_term(operands[0])
            return (f"(open_good {depth} part.{part} {sort} place.{operands[1]} refl {self.definition(arguments[0], inside, depth)} "
                    f"(λ m e. {self.proof(arguments[0], inside, 'm')}))")
        phrases = arguments[::2] if kind == "then" else arguments
        texts = [self.definition(*both, depth) for both in zip(phrases, operands)] + [self.proof(*both, depth) for both in zip(phrases, operands)]
        if kind == "then":
            texts[1::2] = [f"(λ {arguments[1]}. {text})" for text in texts[1::2]]
        lemma = {"then": "then_good", "either": "or_good", "each": "many_good"}[kind]
        return " ".join([f"({lemma} {depth} part.{part}"] + [self.grammar.part_term(one) for one in operands] + ["refl"] + texts) + ")"

    def lemma(self, applied, name, part, phrase, arguments="", of=None, indent="  "):
        """The lemma that a definition, which is this phrase applied so, reads as the rule of the part. It is `of`, or else `name`."""
        self.part_of[name] = part
        of, name = of or name, LEMMAS.get(name, name)
        names = " ".join(re.findall(r"\((\w+) :", arguments))
        definition = " ".join(filter(None, [of, applied, names]))
        rule = f"{arguments} → " if arguments else ""
        return f"""{indent}pub {name}_good : {rule}Good n (rule_of part.{part}) ({definition})
{indent}unfolding {of} shape_of part_inside
{indent}{' '.join(filter(None, [name + '_good', names]))} = {self.proof(phrase, part, 'n')[1:-1]}

"""

    def lemmas(self, applied, rows, indent="  "):
        """The lemmas of some definitions that are applied in the same way."""
        return "".join(self.lemma(applied, *row, indent=indent) for row in rows)
