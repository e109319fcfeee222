#!/usr/bin/env python3
"""Writes span_grammar's tables of the grammar, and what is proved of them part by part, from the grammar in docs/SQL.md.

    tools/grammar_tables.py            writes the files
    tools/grammar_tables.py --check    writes nothing, and names the files that are not what would be written; status 1 where there are any

tools/grammar.py reads the grammar. Nothing rests on these tools: what they write is proved as if it were written by hand.
"""
import sys

sys.dont_write_bytecode = True

import generated
import grammar as source
from generated import lines, module
from grammar import snake, sort_term
from grammar_sets import Sets


# Parts that begin with tokens of several sorts, and that readers ask for again and again.
ASKED = ("TermMore", "SumMore", "Compared", "MaybeNotTest", "Expression", "List", "Join")


# ---- how parts and sorts of tokens are written

def rust_sort(sort):
    kind, argument = sort
    return f"Sort::{kind}({kind}::{argument})" if argument else f"Sort::{kind}"


VARIANTS = """use Rattle.span_lexer.specs.declared.token.Word.TheVariants as word
use Rattle.span_lexer.specs.declared.token.Sign.TheVariants as sign
use Rattle.span_grammar.specs.declared.class.Sort.TheVariants as sort
use Rattle.span_grammar.specs.declared.class.Context.TheVariants as context
use Rattle.span_grammar.specs.declared.grammar.Part.{Part}
use Rattle.span_grammar.specs.declared.grammar.Part.TheVariants as part
use Rattle.span_grammar.specs.declared.grammar.Place.{Place}
use Rattle.span_grammar.specs.declared.grammar.Place.TheVariants as place
"""

SHAPE = """use Rattle.span_grammar.specs.declared.grammar.Shape.{Shape}
use Rattle.span_grammar.specs.declared.grammar.Shape.TheVariants as shape
"""

CLASSES = """use Rattle.span_grammar.specs.declared.class.Class.{Class}
use Rattle.span_grammar.specs.declared.class.Lexeme.{Lexeme}
use Rattle.span_grammar.specs.declared.class.Class.TheVariants as class
use Rattle.span_grammar.specs.declared.class.Sort.{Sort}
"""


class Tables:
    """The parts of the grammar, and how they are written in Rust and in antt."""

    def __init__(self):
        self.grammar = source.read_grammar()
        self.sets = Sets(self.grammar)
        self.parts, self.order = list(self.grammar.parts.values()), self.grammar.order
        self.inside = self.grammar.places.items()

    # a part as Rust, as a term, as a rule, and by the lemma that is called so

    def token(self, name):
        """A token's sort as a term, or None for another part."""
        return sort_term(self.grammar.tokens[name]) if name in self.grammar.tokens else None

    def rust_part(self, name):
        return f"Part::Token({rust_sort(self.grammar.tokens[name])})" if self.token(name) else f"Part::{name}"

    def rule(self, name):
        return f"(One {self.token(name)})" if self.token(name) else snake(name) + "_rule"

    def rules(self):
        return ", ".join(self.rule(part.name) for part in self.order)

    def all_called(self, ending, parts=None):
        return ", ".join(f"{snake(part.name)}_{ending}" for part in parts or self.order)

    def shape(self, part, head, of_part, of_sort, place):
        """A part's shape, as the functions that are given write the parts, the sorts and the places in it."""
        if part.shape == "Open":
            return [head + part.shape, of_sort(part.operands[0]), place + part.operands[1]]
        return [head + part.shape] + [of_part(operand) for operand in part.operands]

    def shape_term(self, part):
        return " ".join(self.shape(part, "shape.", self.grammar.part_term, sort_term, "place."))

    def rule_term(self, part):
        return " ".join(self.shape(part, "", self.rule, sort_term, "place."))

    def rust_shape(self, part):
        head, *operands = self.shape(part, "Shape::", self.rust_part, rust_sort, "Place::")
        return f"{head}({', '.join(operands)})" if operands else head

    def is_begun(self, name):
        """Whether what a part begins with is written down: tokens of one sort, or of those that are asked for."""
        return len(self.sets.first_sorts(name)) < 2 or name in ASKED

    def begun(self):
        """The parts of which it is written down what they begin with."""
        return [part for part in self.parts if self.is_begun(part.name)]

    def lemma(self, name, ending):
        """What is called as a part, and of a token the same of the sort: of every part there is one such."""
        return f"one_{ending} {self.token(name)}" if self.token(name) else f"{snake(name)}_{ending}"


# ---- src

def by_letter(words):
    """The words as Rust by their first letters in lower case, in their order."""
    letters = dict.fromkeys(word[0].lower() for word in words)
    return [(letter, [f"Context::{word}" for word in words if word[0].lower() == letter]) for letter in letters]


def class_rt(t):
    """src/class.rt: the classes of tokens."""
    contexts = t.grammar.contexts
    return r"""//! Classes of tokens: what the grammar asks of a token.
//!
//! A name that is a word of the grammar in its place, as OFFSET, has a class of its own; so has a name before `.` and `*`, and
//! a semicolon at the end of a text. With that, one token decides how reading goes on.
ghost use Rattle.std.specs.Prelude.{◌≡◌};
ghost use Rattle.span_grammar.specs.Contexts as contexts;
ghost use Rattle.span_grammar.specs.Contexts.{words_with};
ghost use Rattle.span_grammar.specs.declared.class.TheConstants.{CONTEXTS};

use span_lexer::token::{Sign, Token, Word};

/// A word that is a name, and a word of the grammar where that asks for it.
#[derive(Clone, Copy, Debug, PartialEq, Eq)]
pub enum Context {
""" + lines(f"    {word}," for word in contexts) + CLASSES_RT + f"""
/// The words that are names and words of the grammar.
pub const CONTEXTS: [Context; {len(contexts)}] = [
""" + lines(f"    Context::{word}," for word in contexts) + """];

/// These words are those that the definitions list.
pub fn contexts_are_stated()
    ensures { CONTEXTS ≡ contexts.context_words }
{}

/// Those of these words that begin with a letter in lower case.
#[tactic(auto, unfolding(crate::specs::Contexts::words_with))]
pub(crate) fn words_with(letter: u8) -> &'static [Context]
    ensures { result.now ≡ words_with letter contexts.context_words }
{
    match letter {
""" + lines(f"        b'{letter}' => &[{', '.join(words)}]," for letter, words in by_letter(contexts)) + """        _ => &[],
    }
}

impl Context {
    /// The word in lower case.
    pub fn spelling(self) -> &'static str
        ensures { result.now ≡ contexts.word self }
    {
        match self {
""" + lines(f'            Context::{word} => "{word.lower()}",' for word in contexts) + """        }
    }
}
"""


CLASSES_RT = """}

/// The class of a token.
#[derive(Clone, Copy, Debug, PartialEq, Eq)]
pub enum Class {
    Word(Word),
    Name,
    Context(Context),
    /// A name before `.` and `*`.
    AllOf,
    Parameter,
    Int,
    Str,
    Bytes,
    Sign(Sign),
    /// A semicolon after which the text ends.
    LastSemicolon,
}

/// A token with its class.
#[derive(Clone, Copy, Debug, PartialEq, Eq)]
pub struct Lexeme {
    pub class: Class,
    pub token: Token,
}

/// What a rule asks of one token.
#[derive(Clone, Copy, Debug, PartialEq, Eq)]
pub enum Sort {
    Word(Word),
    /// Any name, also one that is a word of the grammar elsewhere.
    Name,
    Context(Context),
    AllOf,
    Parameter,
    Int,
    Str,
    Bytes,
    Sign(Sign),
    /// A semicolon after which the text goes on.
    Separator,
    LastSemicolon,
    AnySemicolon,
}
"""


def grammar_rt(t):
    """src/grammar.rt: the parts and their shapes."""
    documented = lines((f"    /// `{part.comment}`\n" if part.comment else "") + f"    {part.name}," for part in t.parts)
    return """//! The grammar, part by part.
ghost use Rattle.std.specs.Prelude.{◌≡◌};
ghost use Rattle.span_grammar.specs.Shapes.{shape_of, part_inside};

use super::class::{Context, Sort};
use span_lexer::token::{Sign, Word};

/// A part of the grammar.
#[derive(Clone, Copy)]
pub enum Part {
    /// One token.
    Token(Sort),
""" + documented + """}

/// Where the grammar goes on after an opening, one deeper.
#[derive(Clone, Copy)]
pub enum Place {
""" + lines(f"    {place}," for place, _ in t.inside) + SHAPE_RT + lines(
        f"        Place::{place} => Part::{part}," for place, part in t.inside) + """    }
}

/// How a part is made of others.
#[tactic(auto, unfolding(crate::specs::Shapes::shape_of))]
pub(crate) fn shape_of(part: Part) -> Shape
    ensures { result ≡ shape_of part }
{
    match part {
        Part::Token(sort) => Shape::One(sort),
""" + lines(f"        Part::{part.name} => {t.rust_shape(part)}," for part in t.parts) + """    }
}
"""


def beginning_rt(t):
    """src/beginning.rt: what parts begin with."""
    def test(name):
        return " || ".join(f"is_class({rust_sort(sort)}, class)" for sort in t.sets.first_sorts(name)) or "false"

    # of parts that begin alike the first has the function
    sorts = {t.sets.first_sorts(name): name for name in reversed(ASKED)}

    def answer(name):
        return f"begins_{snake(sorts[t.sets.first_sorts(name)])}(class)" if name in ASKED else test(name)

    return """//! What the parts of the grammar begin with that readers ask for: a token of one sort, or one of few.
ghost use Rattle.std.specs.Prelude.{◌≡◌};
ghost use Rattle.span_grammar.specs.declared.grammar.Part.TheVariants as part;
ghost use Rattle.span_grammar.specs.Beginnings.{begins_with};

use super::class::{Class, Context, Sort};
use super::grammar::Part;
use super::reader::{begins_by_parts, is_class};
use span_lexer::token::{Sign, Word};

""" + lines(f"""#[tactic(auto, unfolding(crate::specs::Beginnings::begins_with))]
fn begins_{snake(name)}(class: Class) -> bool
    ensures {{ result ≡ begins_with part.{name} class }}
{{
    {test(name)}
}}
""" for name in ASKED if name in sorts.values()) + """/// Whether a part may begin with a token of a class.
#[inline(always)]
#[tactic(auto, unfolding(crate::specs::Beginnings::begins_with))]
pub(crate) fn begins(part: Part, class: Class) -> bool
    ensures { result ≡ begins_with part class }
{
    match part {
        Part::Token(sort) => is_class(sort, class),
""" + lines(f"        Part::{part.name} => {answer(part.name)}," for part in t.begun()) + """        _ => begins_by_parts(part, class),
    }
}
"""


SHAPE_RT = """}

/// How a part is made of others.
#[derive(Clone, Copy)]
pub enum Shape {
    /// Nothing.
    Empty,
    /// One token.
    One(Sort),
    /// A part, and one after it.
    Then(Part, Part),
    /// The first part where it can begin with the token that comes, else the second.
    Or(Part, Part),
    /// A part any number of times.
    Many(Part),
    /// An opening token, and what is at the place after it, one deeper.
    Open(Sort, Place),
}

/// What may be at a place.
#[tactic(auto, unfolding(crate::specs::Shapes::part_inside))]
pub(crate) fn part_inside(place: Place) -> Part
    ensures { result ≡ part_inside place }
{
    match place {
"""


# ---- specs

def shapes_antt(t):
    """specs/Shapes.antt: the shapes of the parts."""
    return module("How each part of the grammar is made of others.", VARIANTS + SHAPE, """unfoldable pub shape_of : Part → Shape
shape_of (part.Token s) = shape.One s
""" + lines(f"shape_of part.{part.name} = {t.shape_term(part)}" for part in t.parts) + """
-- what is after an opening
unfoldable pub part_inside : Place → Part
""" + lines(f"part_inside place.{place} = part.{part}" for place, part in t.inside))


def grammar_antt(t):
    """specs/Grammar.antt: the rules of the parts."""
    body = ""
    for part in t.order:
        rule = t.rule(part.name)
        body += f"-- {part.comment}\n" if part.comment else ""
        body += f"unfoldable pub {rule} : Rule\n{rule} = {t.rule_term(part)}\n"
    return module("The grammar of queries and of schema texts, as rules. What is commented is in the grammar's own words.", VARIANTS + """
use Rattle.span_grammar.specs.Rules.{Rule, Empty, One, Then, Or, Many, Open}""", body + """unfoldable pub rule_of : Part → Rule
rule_of (part.Token s) = One s
""" + lines(f"rule_of part.{part.name} = {t.rule(part.name)}" for part in t.parts) + """
-- what is after an opening
abbrev pub inside : Place → Rule
""" + lines(f"inside place.{place} = {t.rule(part)}" for place, part in t.inside))


def contexts_antt(t):
    """specs/Contexts.antt: the words that are names elsewhere."""
    return module("How the words are spelled that are names and words of the grammar.", """
use Rattle.std.specs.Prelude.{◌==◌, ℕ, List, ◌∷◌, [], codes, Option, Some, None, if◌then◌else◌}
use Rattle.std.specs.Str.{bytes_eq, str_to_ascii_lowercase}
use Rattle.span_lexer.specs.Characters.{begins}
use Rattle.span_grammar.specs.declared.class.Context.{Context}
use Rattle.span_grammar.specs.declared.class.Context.TheVariants as context
""", "abbrev pub word : Context → List ℕ\n" + lines(f'word context.{word} = codes "{word.lower()}"' for word in t.grammar.contexts) + """
-- all of them
abbrev pub context_words : List Context
context_words = """ + " ∷ ".join(f"context.{word}" for word in t.grammar.contexts) + """ ∷ []

-- the first of some words that the bytes spell in any case
unfoldable pub matching_word : List Context → List ℕ → Option Context
matching_word [] bytes = None
matching_word (v ∷ vs) bytes = if bytes_eq (str_to_ascii_lowercase bytes) (word v) then Some v else matching_word vs bytes

abbrev pub context_word : List ℕ → Option Context
context_word bytes = matching_word context_words bytes

-- those of some words that begin with a letter in lower case
unfoldable pub words_with : ℕ → List Context → List Context
words_with letter [] = []
words_with letter (v ∷ vs) = if begins (λ c. c == letter) (word v) then v ∷ words_with letter vs else words_with letter vs
""")


def beginnings_antt(t):
    """specs/Beginnings.antt: what parts begin with."""
    return module("What the parts begin with that readers ask for: tokens of one sort, or of few.", VARIANTS + CLASSES + """
use Rattle.std.specs.Prelude.{Bool, false, ◌||◌}
use Rattle.span_grammar.specs.Rules.{is_class, first, of_class}
use Rattle.span_grammar.specs.Grammar.{rule_of}
""", """unfoldable pub begins_with : Part → Class → Bool
begins_with (part.Token s) c = is_class s c
""" + lines(
        f"begins_with part.{part.name} c = {begun_test(t, part.name)}" for part in t.begun()
    ) + "begins_with p c = first (rule_of p) (of_class c)\n")


def begun_test(t, name):
    """Whether a part begins with a token of the class c, as a term."""
    if t.token(name):
        return f"is_class {t.token(name)} c"
    shape, operands = t.grammar.shape(name)
    if shape == "Open":
        return f"is_class {sort_term(operands[0])} c"
    tests = [begun_test(t, one) for one in first_operands(t, name)]
    return f"({tests[0]}) || ({tests[1]})" if len(tests) == 2 else "".join(tests) or "false"


def first_operands(t, name):
    """Those parts of a part with which it may begin."""
    shape, operands = t.grammar.shape(name)
    if shape == "Then" and not t.sets.may_be_nothing(operands[0]):
        return operands[:1]
    return [one for one in operands if t.sets.first_sorts(one)]


# ---- proofs: parts and rules

def shaped_antt(t):
    """proofs/Shaped.antt: shapes and rules agree."""
    return module("Each part is shaped as the grammar's rule of it.", """
use Rattle.std.proofs.Common.{◌≡◌, refl}
""" + VARIANTS + SHAPE + f"""
use Rattle.span_grammar.specs.Rules.{{Rule, Empty, One, Then, Or, Many, Open}}
use Rattle.span_grammar.specs.Shapes.{{shape_of, part_inside}}
use Rattle.span_grammar.specs.Grammar.{{rule_of, inside, {t.rules()}}}
""", """abbrev pub IsShaped : Rule → Shape → Type 0
IsShaped r shape.Empty = r ≡ Empty
IsShaped r (shape.One s) = r ≡ One s
IsShaped r (shape.Then a b) = r ≡ Then (rule_of a) (rule_of b)
IsShaped r (shape.Or a b) = r ≡ Or (rule_of a) (rule_of b)
IsShaped r (shape.Many a) = r ≡ Many (rule_of a)
IsShaped r (shape.Open s p) = r ≡ Open s p

""" + lines(f"""{snake(part.name)}_is : {t.rule(part.name)} ≡ {t.rule_term(part)}
unfolding {t.rule(part.name)}
{snake(part.name)}_is = refl""" for part in t.parts) + """pub shaped : (p : Part) → IsShaped (rule_of p) (shape_of p)
unfolding shape_of rule_of
shaped (part.Token s) = refl
""" + lines(f"shaped part.{part.name} = {snake(part.name)}_is" for part in t.parts) + """
pub inside_is : (p : Place) → rule_of (part_inside p) ≡ inside p
unfolding part_inside rule_of
""" + lines(f"inside_is place.{place} = refl" for place, _ in t.inside))


def ranks_antt(t):
    """proofs/Ranks.antt: no part is made of itself but through an opening."""
    proofs = {"Then": "(lit< tt, lit< tt)", "Or": "(lit< tt, lit< tt)", "Many": "lit< tt"}
    return module("How high a part is above those that it is made of.", """
use Rattle.std.proofs.Common.{ℕ, ◌<◌, lit<}
""" + VARIANTS + SHAPE + """
use Rattle.span_grammar.specs.Shapes.{shape_of}
""", """unfoldable pub rank : Part → ℕ
rank (part.Token s) = 0
""" + lines(f"rank part.{part.name} = {t.sets.rank(part.name)}" for part in t.order) + """
abbrev pub IsAbove : ℕ → Shape → Type 0
IsAbove n shape.Empty = Unit {0}
IsAbove n (shape.One s) = Unit {0}
IsAbove n (shape.Then a b) = (rank a < n) × (rank b < n)
IsAbove n (shape.Or a b) = (rank a < n) × (rank b < n)
IsAbove n (shape.Many a) = rank a < n
IsAbove n (shape.Open s p) = Unit {0}

pub above : (p : Part) → IsAbove (rank p) (shape_of p)
unfolding rank shape_of
above (part.Token s) = tt
""" + lines(f"above part.{part.name} = {proofs.get(part.shape, 'tt')}" for part in t.order) + """
pub rank_small : (p : Part) → rank p < 100
unfolding rank
rank_small (part.Token s) = lit< tt
""" + lines(f"rank_small part.{part.name} = lit< tt" for part in t.order))


# ---- proofs: trees of each part

def imports_of_trees(t):
    """What the proofs about trees import, as far as they use it."""
    return """
use Rattle.std.proofs.Common.{◌≡◌, ◌∙◌, Bool, true, false, refl, ap}
use Rattle.std.specs.Prelude.{◌||◌, ◌&&◌}
""" + VARIANTS + CLASSES + f"""
use Rattle.span_grammar.specs.Rules.{{One, Tree, Nothing, Leaf, Pair, Left, Right, End, Nest, is_of, is_class, of_class, is_nullable}}
use Rattle.span_grammar.specs.Grammar.{{rule_of, inside, {t.rules()}}}
use Rattle.span_grammar.proofs.Sound.{{Has, Ends}}
"""


def having_antt(t):
    """proofs/Having.antt: a tree of each part."""
    imports = """
use denote.Enum.Bare.{true_same}
use Rattle.span_lexer.specs.contracts.token.Word.{the_type as word_type}
use Rattle.span_lexer.specs.contracts.token.Sign.{the_type as sign_type}
use Rattle.span_grammar.specs.contracts.class.Context.{the_type as context_type}
""" + imports_of_trees(t)
    done = {}
    for part in t.order:
        add_tree(t, part, done)
    return module("Each rule has a tree.", imports, SAMPLES + lines(
        f"""pub {snake(name)}_has : Has inside {t.rule(name)}
unfolding {t.rule(name)}
{snake(name)}_has = {body}""" for name, body in done.items()) + """pub inside_has : (p : Place) → Has inside (inside p)
""" + lines(f"inside_has place.{place} = {snake(part)}_has" for place, part in t.inside))


def add_tree(t, part, done):
    """Adds how a least tree of a part is made, after those that it is made of."""
    name, shape, operands, _ = part
    if name in done:
        return
    if shape == "Then":
        needed = operands
        body = f"let x = {t.lemma(operands[0], 'has')} in let y = {t.lemma(operands[1], 'has')} in (Pair x.0 y.0, (x.1, y.1))"
    elif shape == "Or":
        is_left = t.sets.sizes[operands[0]] < t.sets.sizes[operands[1]]
        needed = operands[:1] if is_left else operands[1:]
        body = f"let x = {t.lemma(needed[0], 'has')} in ({'Left' if is_left else 'Right'} x.0, x.1)"
    elif shape == "Open":
        needed = [t.grammar.places[operands[1]]]
        body = f"let x = {t.lemma(needed[0], 'has')} in let t = one_of {sort_term(operands[0])} in (Nest t.0 x.0, (t.1, x.1))"
    else:
        needed, body = [], "(End, tt)" if shape == "Many" else "(Nothing, tt)"
    done[name] = None
    for one in needed:
        if not t.token(one):
            add_tree(t, t.grammar.parts[one], done)
    del done[name]
    done[name] = body


SAMPLES = """-- a token of the sort
abbrev sample_class : Sort → Class
sample_class (sort.Word w) = class.Word w
sample_class sort.Name = class.Name
sample_class (sort.Context w) = class.Context w
sample_class sort.AllOf = class.AllOf
sample_class sort.Parameter = class.Parameter
sample_class sort.Int = class.Int
sample_class sort.Str = class.Str
sample_class sort.Bytes = class.Bytes
sample_class (sort.Sign s) = class.Sign s
sample_class sort.Separator = class.Sign sign.Semicolon
sample_class sort.LastSemicolon = class.LastSemicolon
sample_class sort.AnySemicolon = class.LastSemicolon

abbrev sample : Sort → Lexeme
sample s = of_class (sample_class s)

sample_is : (s : Sort) → is_of s (sample s) ≡ true
unfolding is_class
sample_is (sort.Word w) = true_same word_type w w refl
sample_is sort.Name = refl
sample_is (sort.Context w) = true_same context_type w w refl
sample_is sort.AllOf = refl
sample_is sort.Parameter = refl
sample_is sort.Int = refl
sample_is sort.Str = refl
sample_is sort.Bytes = refl
sample_is (sort.Sign s) = true_same sign_type s s refl
sample_is sort.Separator = refl
sample_is sort.LastSemicolon = refl
sample_is sort.AnySemicolon = refl

pub one_of : (s : Sort) → (t : Lexeme) × (is_of s t ≡ true)
one_of s = (sample s, sample_is s)

pub one_has : (s : Sort) → Has inside (One s)
one_has s = (Leaf (sample s), sample_is s)

"""


def ending_antt(t):
    """proofs/Ending.antt: what was begun can be ended."""
    def proof(part):
        a, b = part.operands[0] if part.operands else None, part.operands[-1] if part.operands else None
        return {
            "Then": lambda: f"({t.lemma(a, 'ends')}, {t.lemma(b, 'ends')}, {t.lemma(b, 'has')})",
            "Or": lambda: f"({t.lemma(a, 'ends')}, {t.lemma(b, 'ends')})",
            "Many": lambda: t.lemma(a, "ends"),
            "Empty": lambda: "tt",
            "Open": lambda: f"(one_of {sort_term(a)}, inside_has place.{b})",
        }[part.shape]()

    return module("What was begun can be ended: each rule's parts have trees.", imports_of_trees(t) + f"""
use Rattle.span_grammar.proofs.Having.{{one_of, one_has, inside_has, {t.all_called('has')}}}
""", """one_ends : (s : Sort) → Ends inside (One s)
one_ends s = one_of s

""" + lines(f"""pub {snake(part.name)}_ends : Ends inside {t.rule(part.name)}
unfolding {t.rule(part.name)}
{snake(part.name)}_ends = {proof(part)}""" for part in t.order) + """pub ends : (p : Part) → Ends inside (rule_of p)
unfolding rule_of
ends (part.Token s) = one_ends s
""" + lines(f"ends part.{part.name} = {snake(part.name)}_ends" for part in t.order) + """
pub inside_ends : (p : Place) → Ends inside (inside p)
""" + lines(f"inside_ends place.{place} = {snake(part)}_ends" for place, part in t.inside))


# ---- proofs: what may be nothing

def nothings_antt(t):
    """proofs/Nothings.antt: which parts may be nothing."""
    def proof(part):
        if part.shape not in ("Then", "Or"):
            return "refl"
        (a, b), operator = part.operands, "&&" if part.shape == "Then" else "||"
        if t.token(a):
            return "refl" if part.shape == "Then" else nothing(t, b)
        found = f"ap (λ (v : Bool). v {operator} is_nullable {t.rule(b)}) {nothing(t, a)}"
        # the second part counts where the first does not decide
        return f"{found} ∙ {nothing(t, b)}" if t.sets.may_be_nothing(a) == (part.shape == "Then") else found

    return module("Which rules may be nothing.", imports_of_trees(t), lines(
        f"""pub {snake(part.name)}_nothing : is_nullable {t.rule(part.name)} ≡ {boolean(t.sets.may_be_nothing(part.name))}
unfolding {t.rule(part.name)}
{snake(part.name)}_nothing = {proof(part)}""" for part in t.order))


def nothing(t, name):
    """The proof of whether a part may be nothing."""
    return "refl" if t.token(name) else f"{snake(name)}_nothing"


def boolean(value):
    return "true" if value else "false"


def begun_antt(t):
    """proofs/Begun.antt: the parts begin with what is written down."""
    needed = set()
    for part in t.begun():
        need_beginning(t, part.name, needed)

    def begins(name):
        return "refl" if t.token(name) else f"{snake(name)}_begun c"

    def proof(part):
        if part.shape in ("Empty", "Open"):
            return "refl"
        a, b = part.operands[0], part.operands[-1]
        if part.shape == "Many":
            return begins(a)
        if part.shape == "Or":
            return f"{'either' if t.sets.first_sorts(b) else 'alone'} {tests(part)} ({begins(a)}) ({begins(b)})"
        if t.sets.may_be_nothing(a):
            return f"through {tests(part)} ({nothing(t, a)}) ({begins(a)}) ({begins(b)})"
        return f"passed {tests(part)} ({nothing(t, a)}) ({begins(a)})"

    def tests(part):
        a, b = part.operands
        words = [f"(first {t.rule(a)} (of_class c))", f"(first {t.rule(b)} (of_class c))"]
        return " ".join(words[:1] + ([f"(is_nullable {t.rule(a)})"] if part.shape == "Then" else []) + words[1:])

    def answer(part):
        return f"sym ({snake(part.name)}_begun c)" if t.is_begun(part.name) else "refl"

    return module("The parts begin with what is written down.", imports_of_trees(t) + f"""
use Rattle.span_grammar.specs.Rules.{{first}}
use Rattle.span_grammar.specs.Beginnings.{{begins_with}}
use Rattle.std.proofs.Common.{{sym}}
use Rattle.span_grammar.proofs.Nothings.{{{t.all_called('nothing')}}}
""", BEGINNING + lines(f"""{snake(part.name)}_begun : (c : Class) → first {t.rule(part.name)} (of_class c) ≡ ({begun_test(t, part.name)})
unfolding {t.rule(part.name)}
{snake(part.name)}_begun c = {proof(part)}""" for part in t.order if part.name in needed) + """
pub begins_as : (p : Part) (c : Class) → begins_with p c ≡ first (rule_of p) (of_class c)
unfolding begins_with rule_of
begins_as (part.Token s) c = refl
""" + lines(f"begins_as part.{part.name} c = {answer(part)}" for part in t.order))


BEGINNING = """either : (x y : Bool) {v w : Bool} → x ≡ v → y ≡ w → (x || y) ≡ (v || w)
either x y {v} {w} a b = ap (λ i. i || y) a ∙ ap (λ i. v || i) b

none : (x : Bool) → (x || false) ≡ x
none true = refl
none false = refl

alone : (x y : Bool) {v : Bool} → x ≡ v → y ≡ false → (x || y) ≡ v
alone x y {v} a b = either x y a b ∙ none v

-- of a row, whose first part may not be nothing, or may
passed : (x n y : Bool) {v : Bool} → n ≡ false → x ≡ v → (x || (n && y)) ≡ v
passed x n y a b = alone x (n && y) b (ap (λ i. i && y) a)

through : (x n y : Bool) {v w : Bool} → n ≡ true → x ≡ v → y ≡ w → (x || (n && y)) ≡ (v || w)
through x n y a b d = either x (n && y) b (ap (λ i. i && y) a ∙ d)

"""


def need_beginning(t, name, needed):
    """Adds a part, and those that it begins with."""
    if t.token(name) or name in needed:
        return
    needed.add(name)
    shape, operands = t.grammar.shape(name)
    for one in () if shape == "Open" else operands if shape == "Or" else first_operands(t, name):
        need_beginning(t, one, needed)


def repeated_antt(t):
    """proofs/Repeated.antt: what is repeated is never nothing."""
    repeated = [part for part in t.order if part.shape == "Many"]
    others = [part for part in t.order if part.shape != "Many"]
    lemmas = sorted({f"{snake(part.operands[0])}_nothing" for part in repeated})
    return module("What a part repeats is never nothing.", """
use Rattle.std.proofs.Common.{◌≡◌, false, sym, subst}
""" + VARIANTS + SHAPE + f"""
use Rattle.span_grammar.specs.Rules.{{is_nullable}}
use Rattle.span_grammar.specs.Shapes.{{shape_of}}
use Rattle.span_grammar.specs.Grammar.{{rule_of}}
use Rattle.span_grammar.proofs.Nothings.{{{', '.join(lemmas)}}}
""", """abbrev Repeats : Shape → Type 0
Repeats (shape.Many a) = is_nullable (rule_of a) ≡ false
Repeats _ = Unit {0}

repeats : (p : Part) → Repeats (shape_of p)
unfolding shape_of rule_of
""" + lines(f"repeats part.{part.name} = {snake(part.operands[0])}_nothing" for part in repeated)
        + lines(f"repeats part.{part.name} = tt" for part in others) + """repeats (part.Token s) = tt

pub repeated_full : (p a : Part) → shape.Many a ≡ shape_of p → is_nullable (rule_of a) ≡ false
repeated_full p a h = subst Repeats (sym h) (repeats p)
""")


# ---- proofs: the tokens with which parts begin and go on, by number

def numbers(t, classes):
    """The numbers of some classes of tokens, as a list."""
    return "".join(f"{number} ∷ " for number in sorted(t.sets.number[one] for one in classes)) + "[]"


def tables_antt(t):
    """proofs/Tables.antt: the classes of tokens by number."""
    number = t.sets.number
    plain = ["AllOf", "Parameter", "Int", "Str", "Bytes"]

    def codes(kind, words):
        return lines(f"{kind.lower()}_code {kind.lower()}.{word} = {number[kind, word]}" for word in words)

    def sorts(names):
        return lines(f"sort_codes sort.{name} = {numbers(t, t.sets.of_sort((name, None)))}" for name in names)

    return module("The classes of tokens by number, and those that go on after a place.", """
use Rattle.std.proofs.Common.{ℕ, List, [], ◌∷◌}
""" + VARIANTS + CLASSES.replace("use Rattle.span_grammar.specs.declared.class.Lexeme.{Lexeme}\n", "") + """
use Rattle.span_lexer.specs.declared.token.Word.{Word}
use Rattle.span_lexer.specs.declared.token.Sign.{Sign}
use Rattle.span_grammar.specs.declared.class.Context.{Context}
""", "abbrev pub word_code : Word → ℕ\n" + codes("Word", t.grammar.words) + """
abbrev pub context_code : Context → ℕ
""" + codes("Context", t.grammar.contexts) + """
abbrev pub sign_code : Sign → ℕ
""" + codes("Sign", t.grammar.signs) + f"""
abbrev pub code : Class → ℕ
code (class.Word w) = word_code w
code class.Name = {number["Name", None]}
code (class.Context w) = context_code w
""" + lines(f"code class.{name} = {number[name, None]}" for name in plain) + f"""code (class.Sign s) = sign_code s
code class.LastSemicolon = {number["LastSemicolon", None]}

abbrev pub sort_codes : Sort → List ℕ
sort_codes (sort.Word w) = word_code w ∷ []
""" + sorts(["Name"]) + "sort_codes (sort.Context w) = context_code w ∷ []\n" + sorts(plain) + """sort_codes (sort.Sign s) = sign_code s ∷ []
""" + sorts(["Separator", "LastSemicolon", "AnySemicolon"]) + """
-- what goes on where a tree of what is after an opening could end
abbrev pub place_codes : Place → List ℕ
""" + lines(f"place_codes place.{place} = {numbers(t, t.sets.inside[place])}" for place, _ in t.inside))


def firsts_antt(t):
    """proofs/Firsts.antt: with which tokens each part begins."""
    return lists(t, "The tokens with which each part begins, by number.", "first", t.sets.first)


def goings_antt(t):
    """proofs/Goings.antt: with which tokens each part goes on."""
    return lists(t, "The tokens with which a tree of each part may go on where it could end, by number.", "goes", t.sets.goes_on)


def lists(t, title, ending, classes_of):
    """A file with a list of numbers for each part."""
    return module(title, "use Rattle.std.proofs.Common.{ℕ, List, [], ◌∷◌}\n", lines(
        f"""abbrev pub {snake(part.name)}_{ending} : List ℕ
{snake(part.name)}_{ending} = {numbers(t, classes_of(part.name))}""" for part in t.order))


def facts_antt(t):
    """proofs/Facts.antt: one token decides each choice."""
    return module("One token decides every choice of the grammar.", """
use Rattle.std.proofs.Common.{true, false, refl, ℕ, List, []}
""" + VARIANTS + f"""
use Rattle.span_grammar.specs.Grammar.{{inside, {t.rules()}}}
use Rattle.span_grammar.specs.Rules.{{One}}
use Rattle.span_grammar.proofs.Tables.{{sort_codes, place_codes}}
use Rattle.span_grammar.proofs.Firsts.{{{t.all_called('first')}}}
use Rattle.span_grammar.proofs.Goings.{{{t.all_called('goes')}}}
use Rattle.span_grammar.proofs.Nothings.{{{t.all_called('nothing')}}}
use Rattle.span_grammar.proofs.Apart.{{Facts, one_facts, empty_facts, then_facts, or_facts, many_facts, open_facts}}
""", lines(f"""pub {snake(part.name)}_facts : Facts {t.rule(part.name)} {snake(part.name)}_first {snake(part.name)}_goes
unfolding {t.rule(part.name)}
{snake(part.name)}_facts = {fact(t, part)}""" for part in t.order) + """abbrev inside_first : Place → List ℕ
""" + lines(f"inside_first place.{place} = {snake(part)}_first" for place, part in t.inside) + """
pub inside_facts : (p : Place) → Facts (inside p) (inside_first p) (place_codes p)
""" + lines(f"inside_facts place.{place} = {snake(part)}_facts" for place, part in t.inside))


def fact(t, part):
    """The proof that one token decides how a part is read."""
    def sets(name):
        return f"(sort_codes {t.token(name)}) []" if t.token(name) else f"{snake(name)}_first {snake(name)}_goes"

    def facts(name):
        return f"(one_facts {t.token(name)})" if t.token(name) else f"{snake(name)}_facts"

    own = f"{snake(part.name)}_first {snake(part.name)}_goes"
    if part.shape in ("Then", "Or"):
        a, b = part.operands
        may_be = [boolean(t.sets.may_be_nothing(one)) for one in (part.operands if part.shape == "Then" else [b])]
        return " ".join([f"{part.shape.lower()}_facts", t.rule(a), t.rule(b), sets(a), sets(b), own] + may_be
                        + [nothing(t, a), nothing(t, b), facts(a), facts(b), "refl"])
    if part.shape == "Many":
        a = part.operands[0]
        return f"many_facts {t.rule(a)} {sets(a)} {snake(part.name)}_goes {nothing(t, a)} {facts(a)} refl"
    return "empty_facts" if part.shape == "Empty" else f"open_facts {sort_term(part.operands[0])} place.{part.operands[1]}"


# ---- proofs: the words that are names elsewhere

def spelled_antt(t):
    """proofs/Spelled.antt: looking up a word that is a name elsewhere."""
    return module("Looking a word up that is a name and a word of the grammar.", """
use Rattle.std.proofs.Common.{◌≡◌, ◌≢◌, ◌==◌, ℕ, ◌+◌, ◌<◌, ◌≤◌, List, [], ◌∷◌, length, drop, get_or, Option, Some, None, false, if◌then◌else◌, refl, sym, ap, subst, true≢false, ◌∙◌, arith}
use Rattle.std.proofs.lemmas.Grind.{common_steps}
use Rattle.std.specs.Char.{to_ascii_lowercase}
use Rattle.std.specs.Cmp.{nat_eq_equiv}
use Rattle.std.specs.Str.{bytes_eq, str_to_ascii_lowercase}
use Rattle.std.proofs.lemmas.List.{drop_more}
use Rattle.std.proofs.lemmas.Bool.{cond-true, cond-false}
use Rattle.span_grammar.specs.declared.class.Context.{Context}
use Rattle.span_grammar.specs.declared.class.Context.TheVariants as context
use Rattle.span_lexer.specs.Characters.{begins}
use Rattle.span_lexer.proofs.Words.{choose, equal_texts, not_equal_texts}
use Rattle.span_grammar.specs.Contexts.{word, matching_word, context_words, words_with}
""", "in_lower_case : (v : Context) → str_to_ascii_lowercase (word v) ≡ word v\n" + lines(
        f"in_lower_case context.{word} = refl" for word in t.grammar.contexts) + LOOKING_UP)


LOOKING_UP = """
-- one look at a word
pub spelled_here : (v : Context) (vs : List Context) (bytes : List ℕ) → str_to_ascii_lowercase bytes ≡ str_to_ascii_lowercase (word v) → matching_word (v ∷ vs) bytes ≡ Some v
unfolding matching_word
spelled_here v vs bytes e = cond-true (bytes_eq (str_to_ascii_lowercase bytes) (word v)) _ _ (equal_texts _ _ (e ∙ in_lower_case v))

pub spelled_later : (v : Context) (vs : List Context) (bytes : List ℕ) → str_to_ascii_lowercase bytes ≢ str_to_ascii_lowercase (word v) → matching_word (v ∷ vs) bytes ≡ matching_word vs bytes
unfolding matching_word
spelled_later v vs bytes n = cond-false (bytes_eq (str_to_ascii_lowercase bytes) (word v)) _ _ (not_equal_texts _ _ (λ e. n (e ∙ sym (in_lower_case v))))

pub spelled_nowhere : (bytes : List ℕ) → matching_word [] bytes ≡ None
unfolding matching_word
spelled_nowhere bytes = refl

pub word_found : (words : List Context) (bytes : List ℕ) (at : ℕ) (d : Context) → matching_word (drop at words) bytes ≡ matching_word words bytes → at < length words
    → str_to_ascii_lowercase bytes ≡ str_to_ascii_lowercase (word (get_or words at d)) → matching_word words bytes ≡ Some (get_or words at d)
word_found words bytes at d h l e = sym h ∙ ap (λ (v : List Context). matching_word v bytes) (drop_more words at d l) ∙ spelled_here (get_or words at d) (drop (at + 1) words) bytes e

pub word_passed : (words : List Context) (bytes : List ℕ) (at : ℕ) (d : Context) → matching_word (drop at words) bytes ≡ matching_word words bytes → at < length words
    → str_to_ascii_lowercase bytes ≢ str_to_ascii_lowercase (word (get_or words at d)) → matching_word (drop (at + 1) words) bytes ≡ matching_word words bytes
word_passed words bytes at d h l n = sym (spelled_later (get_or words at d) (drop (at + 1) words) bytes n) ∙ ap (λ (v : List Context). matching_word v bytes) (sym (drop_more words at d l)) ∙ h

pub words_over : (words : List Context) (bytes : List ℕ) (at : ℕ) → matching_word (drop at words) bytes ≡ matching_word words bytes → length words ≤ at → matching_word words bytes ≡ None
words_over words bytes at h l = sym h ∙ ap (λ (v : List Context). matching_word v bytes) (let e : drop at words ≡ [] = grind (arith, common_steps) in e) ∙ spelled_nowhere bytes

-- ---- a word by its first letter

not_begun : (v : Context) (b : ℕ) (bs : List ℕ) → begins (λ c. c == to_ascii_lowercase b) (word v) ≡ false → str_to_ascii_lowercase (b ∷ bs) ≢ str_to_ascii_lowercase (word v)
not_begun v b bs f e =
    true≢false (sym (nat_eq_equiv.refl (to_ascii_lowercase b)) ∙ ap (λ (w : List ℕ). begins (λ c. c == to_ascii_lowercase b) w) (e ∙ in_lower_case v) ∙ f)

by_letter : (vs : List Context) (b : ℕ) (bs : List ℕ) → matching_word (words_with (to_ascii_lowercase b) vs) (b ∷ bs) ≡ matching_word vs (b ∷ bs)
unfolding matching_word words_with
by_letter [] b bs = refl
by_letter (v ∷ vs) b bs =
    choose (λ ws. matching_word ws (b ∷ bs) ≡ matching_word (v ∷ vs) (b ∷ bs)) (begins (λ c. c == to_ascii_lowercase b) (word v)) (v ∷ words_with (to_ascii_lowercase b) vs) (words_with (to_ascii_lowercase b) vs)
    (λ t. ap (λ (r : Option Context). if bytes_eq (str_to_ascii_lowercase (b ∷ bs)) (word v) then Some v else r) (by_letter vs b bs))
    (λ f. by_letter vs b bs ∙ sym (spelled_later v vs (b ∷ bs) (not_begun v b bs f)))

pub word_by_letter : (bytes bs : List ℕ) (b : ℕ) (ws : List Context) → bytes ≡ b ∷ bs → ws ≡ words_with (to_ascii_lowercase b) context_words → matching_word ws bytes ≡ matching_word context_words bytes
word_by_letter bytes bs b ws e h = subst (λ (t : List ℕ). matching_word ws t ≡ matching_word context_words t) (sym e) (ap (λ (w : List Context). matching_word w (b ∷ bs)) h ∙ by_letter context_words b bs)

pub no_word_empty : (bytes : List ℕ) → length bytes ≡ 0 → matching_word context_words bytes ≡ None
unfolding matching_word
no_word_empty [] e = refl
no_word_empty (b ∷ bs) e = absurd (omega (arith, e))
"""


# ---- the files

FILES = {
    "src/class.rt": class_rt, "src/grammar.rt": grammar_rt, "src/beginning.rt": beginning_rt,
    "specs/Grammar.antt": grammar_antt, "specs/Shapes.antt": shapes_antt, "specs/Contexts.antt": contexts_antt,
    "specs/Beginnings.antt": beginnings_antt,
    "proofs/Shaped.antt": shaped_antt, "proofs/Having.antt": having_antt, "proofs/Ending.antt": ending_antt,
    "proofs/Nothings.antt": nothings_antt, "proofs/Ranks.antt": ranks_antt, "proofs/Tables.antt": tables_antt,
    "proofs/Firsts.antt": firsts_antt, "proofs/Goings.antt": goings_antt, "proofs/Facts.antt": facts_antt,
    "proofs/Repeated.antt": repeated_antt, "proofs/Spelled.antt": spelled_antt, "proofs/Begun.antt": begun_antt,
}


def text_of_files():
    """The text of each file under its path."""
    tables = Tables()
    return {f"crates/span_grammar/{path}": text(tables) for path, text in FILES.items()}


if __name__ == "__main__":
    sys.exit(generated.main("tools/grammar_tables.py", text_of_files))
