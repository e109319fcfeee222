#!/usr/bin/env python3
"""Writes what span_primary, span_parser and span_schematext prove of their phrases, part by part, from the grammar in docs/SQL.md.

    tools/grammar_phrases.py            writes the files
    tools/grammar_phrases.py --check    writes nothing, and names the files that are not what would be written; status 1 where there are any

The tables below say how each definition of specs/Expressions.antt, specs/Queries.antt and specs/Declarations.antt is put together: its name,
its part of the grammar, and its phrases. They must fit the parts that tools/grammar.py reads. Nothing rests on these tools: what they write
is proved as if it were written by hand.
"""
import sys

sys.dont_write_bytecode = True

import generated
import grammar as source
from generated import lines, lines_of
from phrases import (Writer, after, apply, beside, constant, context, each, either, nothing, opening, option, proved, reference, sign, then,
                    token, word)

def module(title, imports, body):
    """A file of antt: what it is, its imports, and its text."""
    return f"-- {title}\n{lines(lines_of(imports))}\n{body}"


TOKENS = """
use Rattle.span_lexer.specs.declared.token.Word.TheVariants as word
use Rattle.span_lexer.specs.declared.token.Sign.TheVariants as sign
"""

PARTS = """
use Rattle.span_grammar.specs.declared.class.Sort.TheVariants as sort
use Rattle.span_grammar.specs.declared.grammar.Part.TheVariants as part
use Rattle.span_grammar.specs.declared.grammar.Place.TheVariants as place
"""

RULES = """
use Rattle.span_grammar.specs.Shapes.{shape_of, part_inside}
use Rattle.span_grammar.specs.Grammar.{rule_of}
use Rattle.span_primary.specs.Phrases.{Phrase, token, nothing, ◌<$>◌, ◌>>=◌, either, each, pair_with, opening}
"""

GOOD = """
use Rattle.span_primary.proofs.Good.{Good, token_good, nothing_good, map_good, then_good, or_good, many_good, beside_good, open_good}
"""

NAME = "sort.Name"


def spelling(sort):
    """What a token of a sort is spelled."""
    return proved(f"spelling text {sort}", f"spelling_good text n {sort}", sort)


def closing(phrase):
    """A phrase, and a parenthesis that closes."""
    return then(phrase, "x", proved("close_parenthesis x", "closing_good m x"))


def first_and(first, more):
    """A phrase, and one any number of times: the list of both."""
    return then(first, "first", apply("(λ more. first ∷ more)", each(more)))


def in_text(name):
    """A definition over the text."""
    return reference(name, "text")


# ---- expressions: span_primary's proofs/Expressing.antt and proofs/Shrinking.antt

EXPRESSIONS = """
use Rattle.std.proofs.Common.{◌≡◌, ℕ, zero, suc, true, false, List, [], ◌∷◌, refl, subst, arith, Some, None}
""" + TOKENS + """
use Rattle.span_grammar.specs.declared.class.Sort.{Sort}
""" + PARTS + """
use Rattle.span_trees.specs.declared.operator.PredicateTest.TheVariants as predicate_test
use Rattle.span_trees.specs.declared.tree.Spelling.{Spelling}
use Rattle.span_trees.specs.declared.tree.Operator.TheVariants as operator
use Rattle.span_trees.specs.declared.tree.ComparisonOperator.TheVariants as how
use Rattle.span_trees.specs.declared.tree.Expr.{Expr}
use Rattle.span_trees.specs.declared.tree.Expr.TheVariants as e
use Rattle.span_trees.specs.declared.tree.Link.{roll-Link}
""" + RULES + """
use Rattle.span_trees.specs.Operations.{chain_of, conjunction_of, disjunction_of, apply_test}
use Rattle.span_primary.specs.Expressions.{span_of, spelling_of, spelling, close_parenthesis, arm_of, then_value, integer_of, qualifier,
    column_of, qualified_column, column, direction, term_sign, sum_sign, comparison,
    maybe_not, null_words, list_more, list, when, case_operand, case_else, case_end, case_arms, case_of, in_case, argument_list, Inner,
    parenthesis, arguments, members, case, negation, opposite, after_name, call_or_column, if_call, compound, word_literal, other_primary,
    primary, unary, other_unary, signed_primary, term_more, term, sum_more, sum, comparison_test, is_null, like, high_end, between, within,
    negatable_test, maybe_not_test, predicate_rest, predicate, negated_predicate, conjunction_more, conjunction, expression_more, expression, after}
""" + GOOD


def expressing_antt(writer):
    """span_primary's proofs/Expressing.antt."""
    return module("Expressions are read as the grammar's theory reads them, and built.", EXPRESSIONS, SPELLING + columns(writer)
                  + "module _ (n : ℕ) where\n" + signs(writer) + INSIDE + insides(writer) + DEEP + openings(writer)
                  + primaries(writer) + operators(writer) + predicates(writer) + junctions(writer) + DEPTHS)


SPELLING = """-- ---- columns and signs

pub spelling_good : (text : List ℕ) (n : ℕ) (s : Sort) → Good n (rule_of (part.Token s)) (spelling text s)
unfolding spelling
spelling_good text n s = map_good (spelling_of text) (token s) (token_good n s)

pub closing_good : {A : Type 0} (n : ℕ) (x : A) → Good n (rule_of (part.Token (sort.Sign sign.Close))) (close_parenthesis x)
unfolding close_parenthesis
closing_good n x = map_good (λ t. x) (token (sort.Sign sign.Close)) (token_good n (sort.Sign sign.Close))

module _ (text : List ℕ) (n : ℕ) where
"""


def columns(writer):
    """The columns of a table."""
    qualified, first = apply("(column_of first)", option(in_text("qualifier"))), "(first : Spelling)"
    return writer.lemmas("text", [
        ("qualifier", "Qualifier", after(token(sign("Dot")), spelling(NAME))),
        ("qualified_column", "MaybeQualifier", qualified, first),
        ("qualified_name", "AfterNameFromQualifier", qualified, first, "qualified_column"),
        ("column", "Column", then(spelling(NAME), "first", reference("qualified_column", "text first", "first"))),
    ])


COMPARISONS = [
    ("Equal", "Equal"), ("NotEqual", "LessGreater"), ("NotEqual", "BangEqual"), ("Less", "Less"), ("AtMost", "LessEqual"),
    ("Greater", "Greater"), ("AtLeast", "GreaterEqual"),
]


def signs(writer):
    """Directions, operators and comparisons, and NOT."""
    return writer.lemmas("", [
        ("direction", "Direction", either(constant("false", word("Asc")), constant("true", word("Desc")), nothing("false"))),
        ("term_sign", "TermSign", either(constant("operator.Times", sign("Star")), constant("operator.Concat", sign("Concat")))),
        ("sum_sign", "SumSign", either(constant("operator.Plus", sign("Plus")), constant("operator.Minus", sign("Minus")))),
        ("comparison", "Comparison", either(*[constant(f"how.{how}", sign(one)) for how, one in COMPARISONS])),
        ("maybe_not", "MaybeNot", either(constant("true", word("Not")), nothing("false"))),
        ("null_words", "IsNull", after(token(word("Is")), then(reference("maybe_not"), "is_not", constant("is_not", word("Null"))))),
    ])


INSIDE = """-- ---- what is inside an opening

module _ (n : ℕ) (p : Phrase Expr) (gp : Good n (rule_of part.Expression) p) where
"""


def insides(writer):
    """What follows the opening of a call, a list or CASE."""
    expression = proved("p", "gp")

    def of(name):
        return reference(name, "p")

    return writer.lemmas("p", [
        ("list_more", "ListMore", after(token(sign("Comma")), expression)),
        ("list", "List", then(expression, "first", apply("(λ all. all.0 ∷ all.1)", beside("first", each(of("list_more")))))),
        ("then_value", "WhenFromWordThen", after(token(word("Then")), expression)),
        ("when", "When", after(token(word("When")), then(expression, "condition", apply("arm_of", beside("condition", of("then_value")))))),
        ("case_else", "CaseElse", option(after(token(word("Else")), expression))),
        ("case_operand", "CaseOperand", option(expression)),
        ("case_end", "InCaseFromCaseElse",
         then(of("case_else"), "otherwise", apply("(λ both. both.0)", beside("otherwise", token(word("End")))))),
        ("case_arms", "InCaseFromWhen",
         then(of("when"), "arm", then(beside("arm", each(of("when"))), "all", beside("(all.0 ∷ all.1)", of("case_end"))))),
        ("in_case", "InCase", then(of("case_operand"), "operand", apply("case_of", beside("operand", of("case_arms"))))),
        ("argument_list", "ArgumentList",
         either(constant("e.CallStar name", sign("Star")), apply("(e.Call name)", of("list")), nothing("(e.Call name [])")), "(name : Spelling)"),
    ])


DEEP = """-- ---- expressions

-- what is one opening deeper is read so, where there is one left
pub record Deep (n : ℕ) (inner : Inner) : Type 0 where
  pub expression : (m : ℕ) → n ≡ suc m → Good m (rule_of part.Expression) inner.expression
  pub negated_predicate : (m : ℕ) → n ≡ suc m → Good m (rule_of part.Negated) inner.negated_predicate
  pub signed_primary : (m : ℕ) → n ≡ suc m → Good m (rule_of part.Signed) inner.signed_primary

module _ (text : List ℕ) (n : ℕ) (inner : Inner) (deep : Deep n inner) where
"""

EXPRESSION = "text n inner"


def expr(name, given=""):
    """A definition of expressions."""
    return reference(name, f"{EXPRESSION} {given}".strip(), given)


def openings(writer):
    """What begins with an opening, or with the name of a call."""
    def deep(name):
        return proved(f"inner.{name}", f"deep.{name} m e")

    def inside(name, given=""):
        return proved(f"{name} inner.expression{given}", f"{name}_good m inner.expression (deep.expression m e){given}")

    name = "(name : Spelling)"
    return writer.lemmas(EXPRESSION, [
        ("parenthesis", "Parenthesis", opening(closing(deep("expression")))),
        ("arguments", "Arguments", opening(closing(inside("argument_list", " name"))), name),
        ("members", "Members", opening(closing(inside("list")))),
        ("case", "Case", opening(inside("in_case"))),
        ("negation", "Negation", apply("e.Not", opening(deep("negated_predicate")))),
        ("opposite", "Opposite", opening(deep("signed_primary"))),
        ("after_name", "AfterName",
         either(expr("arguments", "name"), apply("e.Column", proved("qualified_column text name", "qualified_name_good text n name"))), name),
        ("call_or_column", "Named", then(spelling(NAME), "name", expr("after_name", "name"))),
        ("if_call", "IfCall", then(spelling(word("If")), "name", expr("arguments", "name"))),
    ])


def primaries(writer):
    """Literals, and what the grammar calls prim and unary."""
    def literal(value, name):
        return constant(f"e.{value} (span_of t.token)", word(name))

    return writer.lemmas(EXPRESSION, [
        ("compound", "PrimaryFromNamed", either(*map(expr, ["call_or_column", "if_call", "case", "parenthesis"]))),
        ("word_literal", "PrimaryFromWordTrue",
         either(literal("Truth true", "True"), literal("Truth false", "False"), literal("Null", "Null"),
                apply("e.Parameter", spelling("sort.Parameter")), expr("compound"))),
        ("other_primary", "PrimaryFromAString",
         either(apply("e.Str", spelling("sort.Str")), apply("e.Bytes", spelling("sort.Bytes")), expr("word_literal"))),
        ("primary", "Primary", either(constant("e.Integer (integer_of false t)", "sort.Int"), expr("other_primary"))),
        ("unary", "Unary", either(expr("opposite"), expr("primary"))),
        ("other_unary", "OtherUnary", either(expr("opposite"), expr("other_primary"))),
        ("signed_primary", "Signed", either(constant("e.Integer (integer_of true t)", "sort.Int"), apply("e.Negative", expr("other_unary")))),
    ])


def operators(writer):
    """Operands with operators between them."""
    def rows(name, operand, part):
        link = "(λ x. roll-Link (record { operator = o; operand = x }))"
        return [
            (f"{name}_more", f"{part}More", then(reference(f"{name}_sign", "", "n"), "o", apply(link, expr(operand)))),
            (name, part, chain(operand, "chain_of", f"{name}_more")),
        ]

    return writer.lemmas(EXPRESSION, rows("term", "unary", "Term") + rows("sum", "term", "Sum"))


def chain(operand, function, more):
    """An operand and more of them, joined by a function."""
    return then(expr(operand), "first", apply(f"(λ all. {function} all.0 all.1)", beside("first", each(expr(more)))))


def predicates(writer):
    """What follows an operand in a predicate."""
    return writer.lemmas(EXPRESSION, [
        ("comparison_test", "Compared", then(reference("comparison", "", "n"), "c", apply("(λ x. (false, predicate_test.Compared c x))", expr("sum")))),
        ("is_null", "IsNull", apply("(λ is_not. (is_not, predicate_test.IsNull))", reference("null_words", "", "n"))),
        ("like", "Like", after(token(word("Like")), apply("predicate_test.Like", spelling("sort.Str")))),
        ("high_end", "BetweenFromWordAnd", after(token(word("And")), expr("sum"))),
        ("between", "Between", after(token(word("Between")), then(
            expr("sum"), "low", apply("(λ ends. predicate_test.Between ends.0 ends.1)", beside("low", expr("high_end")))))),
        ("within", "Within", after(token(word("In")), apply("predicate_test.In", expr("members")))),
        ("negatable_test", "Test", either(expr("like"), expr("between"), expr("within"))),
        ("maybe_not_test", "MaybeNotTest",
         then(reference("maybe_not", "", "n"), "is_not", apply("(λ question. (is_not, question))", expr("negatable_test")))),
        ("predicate_rest", "PredicateRest",
         either(expr("comparison_test"), expr("is_null"), expr("maybe_not_test"), nothing("(false, predicate_test.Nothing)"))),
        ("predicate", "Predicate",
         then(expr("sum"), "x", apply("(λ both. apply_test both.0 both.1)", beside("x", expr("predicate_rest"))))),
    ])


def junctions(writer):
    """NOT, AND and OR."""
    return writer.lemmas(EXPRESSION, [
        ("negated_predicate", "Negated", either(expr("negation"), expr("predicate"))),
        ("conjunction_more", "ConjunctionMore", after(token(word("And")), expr("negated_predicate"))),
        ("conjunction", "Conjunction", chain("negated_predicate", "conjunction_of", "conjunction_more")),
        ("expression_more", "ExpressionMore", after(token(word("Or")), expr("conjunction"))),
        ("expression", "Expression", chain("conjunction", "disjunction_of", "expression_more")),
    ])


DEPTHS = """-- ---- at each number of openings

before : (n m : ℕ) → suc n ≡ suc m → n ≡ m
before n m h = omega (arith, h)

pub deep : (text : List ℕ) (n : ℕ) → Deep n (after text n)
unfolding after
deep text zero = record { expression = λ m h. absurd cc; negated_predicate = λ m h. absurd cc; signed_primary = λ m h. absurd cc }
deep text (suc n) =
    let inner = after text n in
    let all = deep text n in
    record {
      expression = λ m h. subst (λ (k : ℕ). Good k (rule_of part.Expression) (expression text n inner)) (before n m h) (expression_good text n inner all);
      negated_predicate = λ m h. subst (λ (k : ℕ). Good k (rule_of part.Negated) (negated_predicate text n inner)) (before n m h) (negated_good text n inner all);
      signed_primary = λ m h. subst (λ (k : ℕ). Good k (rule_of part.Signed) (signed_primary text n inner)) (before n m h) (signed_good text n inner all);
    }
"""

LOOPS = """
use Rattle.span_grammar.proofs.Repeated.{repeated_full}
use Rattle.span_primary.proofs.Loops.{Shrinks, each_more, each_end, each_err, each_falls}
use Rattle.span_primary.proofs.Shrinking.{shrinking}
"""


def shrinking_antt(writer):
    """span_primary's proofs/Shrinking.antt."""
    chains = [("term", "Term"), ("sum", "Sum"), ("conjunction", "Conjunction"), ("expression", "Expression")]
    body = SHRINKING
    for name, part in chains:
        body += shrinks(writer, f"{name}_more", f"{part}Rest", "text n (after text n)", "text n (after text n) (deep text n)")
    for name, rest in [("list_more", "ListRest"), ("when", "WhenRest")]:
        body += shrinks_inside(writer, name, rest)
    return module("What is read any number of times takes a token each time.", """
use Rattle.std.proofs.Common.{◌≡◌, ℕ, zero, suc, ◌<◌, ◌≤◌, false, List, Result, refl, sym, ap, ◌∙◌, arith, Ok}
use Rattle.span_primary.specs.declared.fault.SyntaxError.{SyntaxError}
use Rattle.span_grammar.specs.declared.class.Lexeme.{Lexeme}
use Rattle.span_grammar.specs.declared.grammar.Part.{Part}
use Rattle.span_grammar.specs.declared.grammar.Part.TheVariants as part
use Rattle.span_grammar.specs.Rules.{Answer, Read, Wrong, Deep, Tree, most_openings, is_nullable, parse}
use Rattle.span_grammar.specs.Shapes.{shape_of}
use Rattle.span_grammar.specs.Grammar.{inside, rule_of}
use Rattle.span_primary.specs.Phrases.{Phrase, ReadResult, to_read_result}
use Rattle.span_primary.specs.Expressions.{after, list_more, when, term_more, sum_more, conjunction_more, expression_more}
use Rattle.span_primary.proofs.Good.{Good}
use Rattle.span_grammar.proofs.Repeated.{repeated_full}
use Rattle.span_grammar.proofs.Steps.{shrinks}
use Rattle.span_primary.proofs.Loops.{Shrinks, each_more, each_end, each_err, each_falls}
use Rattle.span_primary.proofs.Expressing.{deep, list_more_good, when_good, term_more_good, sum_more_good, conjunction_more_good, expression_more_good}
""", body + loop_steps([f"{name}_more" for name, _ in chains] + ["list_more", "when"]))


SHRINKING = """ok_is : {X : Type 0} (a b : X) → (let o : Result X SyntaxError = Ok a in o) ≡ Ok b → a ≡ b
ok_is a b h = cc

rest_is : {A : Type 0} (v w : A) (j k : List Lexeme) → (let o : ReadResult A = Ok (v, j) in o) ≡ Ok (w, k) → j ≡ k
rest_is {A = A} v w j k h = ap (λ (p : A × List Lexeme). p.1) (ok_is (v, j) (w, k) h)

read_at : {A : Type 0} (of : Tree → A) (v : A) (k : List Lexeme) (s : Answer) → to_read_result of s ≡ Ok (v, k) → (t : Tree) × (s ≡ Read t k)
unfolding to_read_result
read_at of v k (Read t j) h = (t, ap (Read t) (rest_is (of t) v j k h))
read_at of v k (Wrong j) h = absurd cc
read_at of v k (Deep j) h = absurd cc

pub shrinking : {A : Type 0} (n : ℕ) (p a : Part) (x : Phrase A) → is_nullable (rule_of a) ≡ false → n ≤ most_openings → Good n (rule_of a) x → Shrinks x.read
shrinking n p a x full le g = record { falls = λ ts k v h. let r = read_at x.of v k (parse inside n (rule_of a) ts) (sym (g.is ts) ∙ h) in shrinks n a full le ts k r.0 r.1 }

"""


def shrinks(writer, name, rest, applied, given, has_depth=True):
    """That a definition, which is read any number of times for the part `rest`, takes a token each time."""
    (part,), definition = writer.operands("each", rest), f"{name} {applied}"
    bound, arguments, depth, proof = (" (n : ℕ) → n ≤ most_openings", "text n le", "n", "le") if has_depth else ("", "text", "0", "(omega arith)")
    return f"""pub {name}_shrinks : (text : List ℕ){bound} → Shrinks ({definition}).read
unfolding shape_of
{name}_shrinks {arguments} = shrinking {depth} part.{rest} part.{part} ({definition}) (repeated_full part.{rest} part.{part} refl) {proof} ({name}_good {given})

"""


def shrinks_inside(writer, name, rest):
    """The same for a definition over the expressions that are one opening deeper."""
    part, = writer.operands("each", rest)
    return f"""pub {name}_shrinks : (text : List ℕ) (n : ℕ) → 0 < n → n ≤ most_openings → Shrinks ({name} (after text n).expression).read
unfolding shape_of
{name}_shrinks text zero z le = absurd (omega arith)
{name}_shrinks text (suc n) z le =
    let x = {name} (after text (suc n)).expression in
    shrinking n part.{rest} part.{part} x (repeated_full part.{rest} part.{part} refl) (omega arith) ({name}_good n (after text (suc n)).expression ((deep text (suc n)).expression n refl))

"""


def loop_steps(names):
    """The lemmas that the loops over these definitions are proved with."""
    lemmas = ["each_more", "each_end", "each_err", "each_falls"] + [f"{name}_shrinks" for name in names]
    return f"pub ruleset loop_steps = ({', '.join(lemmas)})\n"


# ---- queries: span_parser's proofs/Querying.antt and proofs/Falling.antt

QUERIES = """
use Rattle.std.proofs.Common.{◌≡◌, ℕ, zero, suc, true, false, List, [], ◌∷◌, refl, subst, arith, Some, None}
""" + TOKENS + """
use Rattle.span_grammar.specs.declared.class.Context.TheVariants as context
""" + PARTS + """
use Rattle.span_grammar.specs.declared.grammar.Shape.TheVariants as shape
use Rattle.span_parser.specs.declared.tree.Output.{Output}
use Rattle.span_parser.specs.declared.tree.Output.TheVariants as output_item
use Rattle.span_parser.specs.declared.tree.SortColumn.TheVariants as by
use Rattle.span_parser.specs.declared.tree.Item.{Item}
use Rattle.span_parser.specs.declared.tree.Item.TheVariants as source
use Rattle.span_parser.specs.declared.tree.Join.{Join}
use Rattle.span_parser.specs.declared.tree.Block.{Block}
use Rattle.span_parser.specs.declared.tree.Query.{Query}
""" + RULES.replace(", opening}", "}") + """
use Rattle.span_primary.specs.Expressions.{value_of, integer_of, spelling, close_parenthesis, column, direction, after, expression}
use Rattle.span_parser.specs.Queries.{as_name, alias, required_alias, sort_column, sort_key, sort_key_more, sort_keys, order_by,
    maybe_order_by, skip, maybe_skip, limit_clause, maybe_limit, quantifier, column_more, columns, group_by, maybe_group_by, all_of_table,
    maybe_outer, left_join, inner_join, join_kind, maybe_semicolon, where_clause, maybe_where, having, maybe_having, output_expression,
    output, output_more, outputs, subquery, named_item, derived_item, item, join_of, block_of, query_of, join_on, join, block_groups,
    block_filter, order_and_limit, unions, block_joins, block_from, block_body, block, union_more, query, nested_query, statement}
""" + GOOD + """
use Rattle.span_primary.proofs.Expressing.{spelling_good, closing_good, column_good, direction_good, expression_good, deep}
"""


def querying_antt(writer):
    """span_parser's proofs/Querying.antt."""
    statement = then(proved("query text n (nested_query text n)", "query_good text n (nested_query text n) (λ m e. query_deep text n m e)"),
                     "q", apply("(λ both. both.0)", beside("q", reference("maybe_semicolon", "", "n"))))
    return module("Queries are read as the grammar's theory reads them, and built.", QUERIES, "module _ (n : ℕ) where\n"
                  + query_words(writer) + "module _ (text : List ℕ) (n : ℕ) where\n" + query_names(writer) + query_lists(writer)
                  + query_clauses(writer) + SUBQUERIES + query_items(writer) + query_blocks(writer) + QUERY_DEPTHS
                  + writer.proof(statement, "Statement", "n")[1:-1] + "\n")


def query_words(writer):
    """What consists of words and numbers alone."""
    limit = then(token("sort.Int"), "rows", apply("(λ skip. record { rows = value_of rows.token.kind; skip = skip })", reference("maybe_skip")))
    return writer.lemmas("", [
        ("quantifier", "MaybeQuantifier", either(constant("false", word("All")), constant("true", word("Distinct")), nothing("false"))),
        ("maybe_outer", "MaybeOuter", either(constant("true", word("Outer")), nothing("false"))),
        ("skip", "Skip", after(token(context("Offset")), constant("value_of t.token.kind", "sort.Int"))),
        ("maybe_skip", "MaybeSkip", either(reference("skip"), nothing("0"))),
        ("limit_clause", "Limit", after(token(word("Limit")), limit)),
        ("maybe_limit", "MaybeLimit", option(reference("limit_clause"))),
        ("inner_join", "InnerJoin", after(token(word("Inner")), constant("false", word("Join")))),
        ("left_join", "LeftJoin", after(token(word("Left")), reference("maybe_outer"), constant("true", word("Join")))),
        ("join_kind", "JoinKind", either(reference("inner_join"), constant("false", word("Join")), reference("left_join"))),
        ("maybe_semicolon", "MaybeSemicolon", either(constant("true", "sort.AnySemicolon"), nothing("false"))),
    ])


def query_names(writer):
    """Aliases, and the columns of ORDER BY."""
    return writer.lemmas("text", [
        ("as_name", "AsName", after(token(word("As")), spelling(NAME))),
        ("alias", "Alias", either(apply("Some", in_text("as_name")), option(spelling(NAME)))),
        ("required_alias", "RequiredAlias", either(in_text("as_name"), spelling(NAME))),
        ("sort_column", "SortColumn",
         either(apply("by.Name", spelling(NAME)), constant("by.Place (integer_of false t)", "sort.Int"))),
        ("sort_key", "SortKey", then(in_text("sort_column"), "column", apply(
            "(λ is_descending. record { column = column; is_descending = is_descending })", reference("direction", "", "n")))),
    ])


def query_lists(writer):
    """ORDER BY and GROUP BY, and all columns of a table."""
    column = proved("column text", "column_good text n")
    return writer.lemmas("text", [
        ("sort_key_more", "SortKeyMore", after(token(sign("Comma")), in_text("sort_key"))),
        ("sort_keys", "OrderByFromSortKey", first_and(in_text("sort_key"), in_text("sort_key_more"))),
        ("order_by", "OrderBy", after(token(word("Order")), token(word("By")), in_text("sort_keys"))),
        ("maybe_order_by", "MaybeOrderBy", either(in_text("order_by"), nothing("[]"))),
        ("column_more", "ColumnMore", after(token(sign("Comma")), column)),
        ("columns", "GroupByFromColumn", first_and(column, in_text("column_more"))),
        ("group_by", "GroupBy", after(token(word("Group")), token(word("By")), in_text("columns"))),
        ("maybe_group_by", "MaybeGroupBy", either(in_text("group_by"), nothing("[]"))),
        ("all_of_table", "AllOfTable",
         then(spelling("sort.AllOf"), "name", after(token(sign("Dot")), constant("output_item.AllOf name", sign("Star"))))),
    ])


def query_clauses(writer):
    """What has expressions: the select list, WHERE, HAVING and ON."""
    expression = proved("expression text n (after text n)", "expression_good text n (after text n) (deep text n)")

    def of(name):
        return reference(name, "text n")

    return writer.lemmas("text n", [
        ("where_clause", "Where", after(token(word("Where")), expression)),
        ("maybe_where", "MaybeWhere", option(of("where_clause"))),
        ("having", "Having", after(token(word("Having")), expression)),
        ("maybe_having", "MaybeHaving", option(of("having"))),
        ("output_expression", "OutputExpression",
         then(expression, "value", apply("(λ both. output_item.Value both.0 both.1)", beside("value", in_text("alias"))))),
        ("output", "Output", either(constant("output_item.All", sign("Star")), in_text("all_of_table"), of("output_expression"))),
        ("output_more", "OutputMore", after(token(sign("Comma")), of("output"))),
        ("outputs", "Outputs", then(of("output"), "first", apply("(λ all. all.0 ∷ all.1)", beside("first", each(of("output_more")))))),
        ("join_on", "JoinFromWordOn", after(token(word("On")), expression)),
        ("block_groups", "BlockFromMaybeGroupBy", then(in_text("maybe_group_by"), "groups", beside("groups", of("maybe_having")))),
        ("block_filter", "BlockFromMaybeWhere", then(of("maybe_where"), "filter", beside("filter", of("block_groups")))),
    ])


SUBQUERIES = """  -- what is a query one opening deeper is read so, where there is one left
  module _ (inner : Phrase Query) (good_inside : (m : ℕ) → n ≡ suc m → Good m (rule_of part.Query) inner) where
"""


def query_items(writer):
    """The items of FROM and their joins."""
    join = then(reference("join_kind", "", "n"), "is_left", then(expr("item"), "joined", apply(
        "(λ both. join_of is_left both.0 both.1)", beside("joined", reference("join_on", "text n")))))
    return writer.lemmas(EXPRESSION, [
        ("subquery", "Subquery", opening(closing(proved("inner", "good_inside m e")))),
        ("named_item", "NamedItem", then(spelling(NAME), "name", apply("(source.Table name)", in_text("alias")))),
        ("derived_item", "DerivedItem",
         then(expr("subquery"), "query", apply("(λ both. source.Derived both.0 both.1)", beside("query", in_text("required_alias"))))),
        ("item", "Item", either(expr("named_item"), expr("derived_item"))),
        ("join", "Join", join),
    ], indent="    ")


def query_blocks(writer):
    """Blocks, unions and whole queries."""
    outputs = then(reference("outputs", "text n"), "output_list", apply("(block_of is_distinct)", beside("output_list", expr("block_from"))))
    blocks = writer.lemmas(EXPRESSION, [
        ("block_joins", "BlockFromJoins", then(each(expr("join")), "joins", beside("joins", reference("block_filter", "text n")))),
        ("block_from", "BlockFromWordFrom", after(token(word("From")), then(expr("item"), "from", beside("from", expr("block_joins"))))),
        ("block_body", "BlockFromMaybeQuantifier", then(reference("quantifier", "", "n"), "is_distinct", outputs)),
        ("block", "Block", after(token(word("Select")), expr("block_body"))),
        ("union_more", "UnionMore", after(token(word("Union")), token(word("All")), expr("block"))),
    ], indent="    ")
    ordered = then(in_text("maybe_order_by"), "order", beside("order", reference("maybe_limit", "", "n")))
    return blocks + writer.lemma("text", "order_and_limit", "QueryFromMaybeOrderBy", ordered, indent="    ") + writer.lemmas(EXPRESSION, [
        ("unions", "QueryFromUnionRest", then(each(expr("union_more")), "others", beside("others", in_text("order_and_limit")))),
        ("query", "Query", then(expr("block"), "first", apply("query_of", beside("first", expr("unions"))))),
    ], indent="    ")


QUERY_DEPTHS = """before : (n m : ℕ) → suc n ≡ suc m → n ≡ m
before n m h = omega (arith, h)

pub query_deep : (text : List ℕ) (n m : ℕ) → n ≡ suc m → Good m (rule_of part.Query) (nested_query text n)
unfolding nested_query
query_deep text zero m h = absurd cc
query_deep text (suc n) m h = subst (λ (k : ℕ). Good k (rule_of part.Query) (query text n (nested_query text n))) (before n m h) (query_good text n (nested_query text n) (λ k e. query_deep text n k e))

pub statement_good : (text : List ℕ) (n : ℕ) → Good n (rule_of part.Statement) (statement text n)
unfolding statement shape_of
statement_good text n = """


def falling_antt(writer):
    """span_parser's proofs/Falling.antt."""
    query = "text n (nested_query text n)"
    deep = f"{query} (λ m e. query_deep text n m e)"
    body = "".join([
        shrinks(writer, "sort_key_more", "SortKeyRest", "text", "text 0", False),
        shrinks(writer, "column_more", "ColumnRest", "text", "text 0", False),
        shrinks(writer, "output_more", "OutputRest", "text n", "text n"),
        shrinks(writer, "join", "Joins", query, deep),
        shrinks(writer, "union_more", "UnionRest", query, deep),
    ])
    return module("What a query has any number of times takes a token each time.", """
use Rattle.std.proofs.Common.{ℕ, ◌≤◌, List, refl, arith}
use Rattle.span_grammar.specs.declared.grammar.Part.TheVariants as part
use Rattle.span_grammar.specs.Rules.{most_openings}
use Rattle.span_grammar.specs.Shapes.{shape_of}
use Rattle.span_parser.specs.Queries.{sort_key_more, column_more, output_more, join, union_more, nested_query}
""" + LOOPS + """
use Rattle.span_parser.proofs.Querying.{sort_key_more_good, column_more_good, output_more_good, join_good, union_more_good, query_deep}
""", body + loop_steps(["sort_key_more", "column_more", "output_more", "join", "union_more"]))


# ---- schemas: span_schematext's proofs/Declaring.antt, proofs/Lasting.antt and three folders of proofs/declaration

DECLARATIONS = """
use Rattle.std.proofs.Common.{◌≡◌, ℕ, suc, ◌-◌, true, false, List, ◌∷◌, refl, subst, arith, Some, None}
""" + TOKENS + """
use Rattle.span_value.specs.declared.value.ColumnType.TheVariants as kind
use Rattle.span_schema.specs.declared.table.Table.{Table}
use Rattle.span_schema.specs.declared.table.Column.{Column}
use Rattle.span_schema.specs.declared.table.KeyColumn.{KeyColumn}
use Rattle.span_schema.specs.declared.table.Parent.{Parent}
use Rattle.span_grammar.specs.declared.class.Context.TheVariants as context
""" + PARTS + """
use Rattle.span_grammar.specs.declared.grammar.Shape.TheVariants as shape
""" + RULES.replace("Phrase, ", "").replace(", pair_with, opening}", "}") + """
use Rattle.span_primary.specs.Expressions.{direction}
""" + GOOD.replace(" beside_good,", "") + """
use Rattle.span_primary.proofs.Expressing.{direction_good}
use Rattle.span_schematext.specs.Declarations.{name_of, name, at_most, no_bound, length_bound, in_length, long_kind, long_of, not_null,
    maybe_not_null, no_action, action, on_delete, maybe_on_delete, maybe_last_semicolon, parent, in_parent, interleave, maybe_interleave,
    key_column, key_column_more, in_key_columns, length_parenthesis, long_type, column_type, table_column, table_column_more,
    in_table_columns, key_columns, table_columns, key_and_parent, primary_key, named_table, table, table_more, tables}
"""

DECLARED_NAME = """module _ (text : List ℕ) (n : ℕ) where
  pub name_good : Good n (rule_of (part.Token sort.Name)) (name text)
  unfolding name
  name_good = map_good (name_of text) (token sort.Name) (token_good n sort.Name)

"""

DECLARED_DEPTHS = """before : (n m : ℕ) → n ≡ suc m → m ≡ n - 1
before n m h = omega (arith, h)

module _ (text : List ℕ) (n : ℕ) where
"""

IN_COLUMNS = """  in_columns : (m : ℕ) → n ≡ suc m → Good m (rule_of part.InTableColumns) (in_table_columns text (n - 1))
  in_columns m e = subst (λ (k : ℕ). Good m (rule_of part.InTableColumns) (in_table_columns text k)) (before n m e) (in_table_columns_good text m)

"""


def declaring_antt(writer):
    """span_schematext's proofs/Declaring.antt."""
    return module("Declarations are read as the grammar's theory reads them, and built.", DECLARATIONS,
                  "module _ (n : ℕ) where\n" + schema_words(writer) + "module _ (n : ℕ) where\n" + column_types(writer) + DECLARED_NAME
                  + parents_and_keys(writer) + "module _ (text : List ℕ) (n : ℕ) where\n" + table_columns(writer)
                  + DECLARED_DEPTHS + tables(writer))


def schema_words(writer):
    """What consists of words and numbers alone."""
    return writer.lemmas("", [
        ("length_bound", "LengthBound", either(apply("at_most", token("sort.Int")), apply("no_bound", token(context("Max"))))),
        ("in_length", "InLength", then(reference("length_bound"), "most", constant("most", sign("Close")))),
        ("long_kind", "LongKind", either(constant("true", context("String")), constant("false", context("Bytes")))),
        ("not_null", "NotNull", after(token(word("Not")), constant("true", word("Null")))),
        ("maybe_not_null", "MaybeNotNull", either(reference("not_null"), nothing("false"))),
        ("no_action", "NoAction", after(token(context("No")), constant("false", context("Action")))),
        ("action", "Action", either(constant("true", context("Cascade")), reference("no_action"))),
        ("on_delete", "OnDelete", after(token(word("On")), token(context("Delete")), reference("action"))),
        ("maybe_on_delete", "MaybeOnDelete", either(reference("on_delete"), nothing("false"))),
        ("maybe_last_semicolon", "MaybeLastSemicolon", either(constant("true", "sort.LastSemicolon"), nothing("false"))),
    ])


def column_types(writer):
    """The types of columns."""
    return writer.lemmas("n", [
        ("length_parenthesis", "LengthParenthesis", opening(reference("in_length", "", "m"))),
        ("long_type", "LongType",
         then(reference("long_kind", "", "n"), "is_string", apply("(long_of is_string)", reference("length_parenthesis", "n")))),
        ("column_type", "Type",
         either(constant("kind.Int", context("Int64")), constant("kind.Bool", context("Bool")), reference("long_type", "n"))),
    ])


def list_in_parentheses(first, more):
    """A list of one or more, and the parenthesis that closes."""
    return then(first, "first", then(each(more), "more", constant("first ∷ more", sign("Close"))))


def parents_and_keys(writer):
    """INTERLEAVE IN PARENT and the columns of a key."""
    cascade = apply("(λ cascade. record { name = above; cascade = cascade })", reference("maybe_on_delete", "", "n"))
    order = apply("(λ desc. record { name = column; desc = desc })", reference("direction", "", "n"))
    return writer.lemmas("text", [
        ("parent", "InterleaveFromAName", then(in_text("name"), "above", cascade)),
        ("in_parent", "InterleaveFromWordIn", after(token(word("In")), token(context("Parent")), in_text("parent"))),
        ("interleave", "Interleave", after(token(sign("Comma")), token(context("Interleave")), in_text("in_parent"))),
        ("maybe_interleave", "MaybeInterleave", option(in_text("interleave"))),
        ("key_column", "KeyColumn", then(in_text("name"), "column", order)),
        ("key_column_more", "KeyColumnMore", after(token(sign("Comma")), in_text("key_column"))),
        ("in_key_columns", "InKeyColumns", list_in_parentheses(in_text("key_column"), in_text("key_column_more"))),
    ])


TABLE_NAME = proved("name text", "name_good text n")


def table_columns(writer):
    """The columns of a table, with their types."""
    column = apply("(λ is_not_null. record { name = column; kind = type_of; not_null = is_not_null })", reference("maybe_not_null", "", "n"))
    return writer.lemmas("text n", [
        ("table_column", "TableColumn", then(TABLE_NAME, "column", then(reference("column_type", "n", "n"), "type_of", column))),
        ("table_column_more", "TableColumnMore", after(token(sign("Comma")), reference("table_column", "text n"))),
        ("in_table_columns", "InTableColumns", list_in_parentheses(reference("table_column", "text n"), reference("table_column_more", "text n"))),
    ])


def tables(writer):
    """Tables, and the whole schema."""
    def of(name, given=""):
        return reference(name, f"text n {given}".strip(), given)

    columns = "(table : List ℕ) → (columns : List Column)"
    table = "(λ above. record { name = table; columns = columns; key = key; parent = above })"
    keys = opening(proved("in_key_columns text", "in_key_columns_good text m"))
    return writer.lemmas("text n", [("key_columns", "KeyColumns", keys)]) + IN_COLUMNS + writer.lemmas("text n", [
        ("table_columns", "TableColumns", opening(proved("in_table_columns text (n - 1)", "in_columns m e"))),
        ("key_and_parent", "TableFromKeyColumns",
         then(of("key_columns"), "key", apply(table, proved("maybe_interleave text", "maybe_interleave_good text n"))), columns),
        ("primary_key", "TableFromWordPrimary",
         after(token(context("Primary")), token(context("Key")), of("key_and_parent", "table columns")), columns),
        ("named_table", "TableFromAName",
         then(TABLE_NAME, "table", then(of("table_columns"), "columns", of("primary_key", "table columns")))),
        ("table", "Table", after(token(word("Create")), token(context("Table")), of("named_table"))),
        ("table_more", "TableMore", after(token("sort.Separator"), of("table"))),
        ("tables", "Schema", then(of("table"), "first", then(
            each(of("table_more")), "more", apply("(λ u. first ∷ more)", reference("maybe_last_semicolon", "", "n"))))),
    ])


def lasting_antt(writer):
    """span_schematext's proofs/Lasting.antt."""
    body = "".join([
        shrinks(writer, "key_column_more", "KeyColumnRest", "text", "text 0", False),
        shrinks(writer, "table_column_more", "TableColumnRest", "text n", "text n"),
        shrinks(writer, "table_more", "TableRest", "text n", "text n"),
    ])
    return module("What a schema has any number of times takes a token each time.", """
use Rattle.std.proofs.Common.{ℕ, ◌≤◌, List, refl, arith}
use Rattle.span_grammar.specs.declared.grammar.Part.TheVariants as part
use Rattle.span_grammar.specs.Rules.{most_openings}
use Rattle.span_grammar.specs.Shapes.{shape_of}
use Rattle.span_schematext.specs.Declarations.{key_column_more, table_column_more, table_more}
""" + LOOPS + """
use Rattle.span_schematext.proofs.Declaring.{key_column_more_good, table_column_more_good, table_more_good}
""", body + loop_steps(["key_column_more", "table_column_more", "table_more"]))


# the loops of span_schematext: the definition that is repeated, its part, and whether it has the number of openings that are left
LOOPS_OF_SCHEMAS = [("key_column", "KeyColumn", False), ("table_column", "TableColumn", True), ("table", "Table", True)]


def invariants_antt(name, part, has_depth):
    """What holds at each turn of a loop that reads a list, and what gets smaller."""
    now, before = ("l.text l.left", "l.fn.text l.fn.left") if has_depth else ("l.text", "l.fn.text")
    return f"""use Rattle.std.proofs.Common.{{◌≡◌, [], length}}
use Rattle.span_grammar.specs.declared.grammar.Part.TheVariants as part
use Rattle.span_primary.specs.Phrases.{{each_read}}
use Rattle.span_schematext.specs.Declarations.{{{name}_more}}
use Rattle.span_schematext.proofs.declaration.{name}_rest.Given as goal

abbrev pub invariant-loop-alloc : goal.invariant-loop-alloc
invariant-loop-alloc l = each_read ({name}_more {now}).read part.{part}More l.found l.tokens.now ≡ each_read ({name}_more {before}).read part.{part}More [] l.fn.tokens.now

abbrev pub decreases-loop-alloc : goal.decreases-loop-alloc
decreases-loop-alloc l = length l.tokens.now
"""


def answers_antt(name, _, has_depth):
    """That a turn of the loop makes what is left smaller."""
    given = "c.args.text.now c.args.left c.requires" if has_depth else "c.args.text.now"
    return f"""use Rattle.span_schematext.proofs.Lasting.{{{name}_more_shrinks}}
use Rattle.span_schematext.proofs.declaration.{name}_rest.Goals as goal

pub loop-alloc-smaller : goal.loop-alloc-smaller
loop-alloc-smaller c = ({name}_more_shrinks {given}).falls c.loop-alloc.tokens.now c.{name}_more.new.tokens.now c.in_ok-next.next c.in_ok-next.ensures
"""


# ---- the files

FILES = {
    "span_primary/proofs/Expressing.antt": expressing_antt, "span_primary/proofs/Shrinking.antt": shrinking_antt,
    "span_parser/proofs/Querying.antt": querying_antt, "span_parser/proofs/Falling.antt": falling_antt,
    "span_schematext/proofs/Declaring.antt": declaring_antt, "span_schematext/proofs/Lasting.antt": lasting_antt,
}


def text_of_files():
    """The text of each file under its path."""
    writer = Writer(source.read_grammar())
    texts = {f"crates/{path}": text(writer) for path, text in FILES.items()}
    for loop in LOOPS_OF_SCHEMAS:
        folder = f"crates/span_schematext/proofs/declaration/{loop[0]}_rest"
        texts[f"{folder}/Invariants.antt"] = invariants_antt(*loop)
        texts[f"{folder}/Answers.antt"] = answers_antt(*loop)
    return texts


if __name__ == "__main__":
    sys.exit(generated.main("tools/grammar_phrases.py", text_of_files))
