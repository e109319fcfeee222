"""The grammar of docs/SQL.md, cut into the parts that span_grammar reads by: each one token, or made of at most two other parts.

The rules are read from docs/SQL.md. They are rewritten a little, so that one token decides each choice (`rewrite`), and then each
expression in them becomes a part. NAMES below says how each part is called: an expression that has no name there, or a name whose
expression docs/SQL.md does not have, is an error. tools/grammar_tables.py and tools/grammar_phrases.py write files from what is found.
"""
import os
import re
import sys
from collections import namedtuple

TOP = os.path.dirname(os.path.dirname(os.path.abspath(__file__)))
PAGE = os.path.join(TOP, "docs", "SQL.md")

# How the signs of docs/SQL.md are called in span_lexer.
SIGNS = {
    "(": "Open", ")": "Close", ",": "Comma", ".": "Dot", ";": "Semicolon", "*": "Star", "+": "Plus", "-": "Minus", "=": "Equal",
    "<>": "LessGreater", "!=": "BangEqual", "<": "Less", "<=": "LessEqual", ">": "Greater", ">=": "GreaterEqual", "||": "Concat",
}

# How the other tokens are called: their sort in span_grammar, and the name of the part that they are.
TOKENS = {
    "name": ("Name", "AName"), "int": ("Int", "AnInteger"), "string": ("Str", "AString"), "bytes": ("Bytes", "ABytes"),
    "parameter": ("Parameter", "AParameter"), "name_of_all": ("AllOf", "AllOf"), "any_semicolon": ("AnySemicolon", "Semicolon"),
    "separator": ("Separator", "Separator"), "last_semicolon": ("LastSemicolon", "LastSemicolon"),
}

# Tokens that what follows them distinguishes from others of their kind: in which rule, what it has, and what is read in its place.
TOKEN_VARIANTS = [
    ("statement", '";"', "any_semicolon"),
    ("out", 'name "." "*"', 'name_of_all "." "*"'),
    ("schema", '{";" table}', "{separator table}"),
    ("schema", '[";"]', "[last_semicolon]"),
]

# Rules whose alternatives are taken into another rule, since several of them begin with one token: the rule, and the rules taken in.
INLINED = {"prim": ["col", "call"]}

# What begins with a word that may be left out, and is read as two alternatives: one with the word, one without.
EXPANDED = ["[AS] name", "[INNER] JOIN"]

# What opens beside a parenthesis: the rule, and the token. All that follows the token in its row is one deeper.
OPENINGS = [("case", "CASE"), ("neg", "NOT"), ("unary", '"-"')]

Name = namedtuple("Name", "part text comment place", defaults=("", None))

# Comments: the name of the rule or the expression as it is in NAMES, or the whole rule as docs/SQL.md has it.
TEXT, RULE = "its text", "its rule"

# The parts in the order in which they are written: each with its name, and the rule or the expression that it is, and a comment.
# What has a place opens: the place is how that which follows the opening is called, one deeper.
NAMES = [Name(*row) for row in [
    # expressions
    ("Nothing", "", "nothing"),
    ("Parenthesis", '"(" expr ")"', TEXT, "InParenthesis"),
    ("Arguments", '"(" ["*" | expr {"," expr}] ")"', TEXT, "InArguments"),
    ("Members", '"(" expr {"," expr} ")"', TEXT, "InMembers"),
    ("Subquery", '"(" query ")"', TEXT, "InSubquery"),
    ("Case", "case", RULE, "InCase"),
    ("Negation", "NOT neg", TEXT, "InNegation"),
    ("Opposite", '"-" signed', '"-" unary', "InOpposite"),
    ("Qualifier", '"." name', TEXT),
    ("AfterName", '["(" ["*" | expr {"," expr}] ")" | "." name]', "what makes a name a call or a column of a table"),
    ("Named", 'name ["(" ["*" | expr {"," expr}] ")" | "." name]', "call | col, with a name first"),
    ("IfCall", 'IF "(" ["*" | expr {"," expr}] ")"', 'IF "(" .. ")"'),
    ("Primary", "prim", TEXT),
    ("Unary", "unary", RULE),
    ("OtherUnary", "other_unary", "unary, and no integer"),
    ("Signed", "signed", "unary, which differs for an integer"),
    ("TermSign", '"*" | "||"'),
    ("TermMore", '("*" | "||") unary'),
    ("TermRest", '{("*" | "||") unary}'),
    ("Term", "term", RULE),
    ("SumSign", '"+" | "-"'),
    ("SumMore", '("+" | "-") term'),
    ("SumRest", '{("+" | "-") term}'),
    ("Sum", "sum", RULE),
    ("Comparison", "cmp", TEXT),
    ("Compared", "cmp sum", TEXT),
    ("MaybeNot", "[NOT]"),
    ("IsNull", "IS [NOT] NULL", TEXT),
    ("Like", "LIKE string", TEXT),
    ("Between", "BETWEEN sum AND sum", TEXT),
    ("Within", 'IN "(" expr {"," expr} ")"', TEXT),
    ("Test", 'LIKE string | BETWEEN sum AND sum | IN "(" expr {"," expr} ")"'),
    ("MaybeNotTest", '[NOT] (LIKE string | BETWEEN sum AND sum | IN "(" expr {"," expr} ")")',
     "[NOT] LIKE ..  | [NOT] BETWEEN .. | [NOT] IN .."),
    ("PredicateRest", '[cmp sum | IS [NOT] NULL | [NOT] (LIKE string | BETWEEN sum AND sum | IN "(" expr {"," expr} ")")]'),
    ("Predicate", "pred", TEXT),
    ("Negated", "neg", RULE),
    ("ConjunctionMore", "AND neg"),
    ("ConjunctionRest", "{AND neg}"),
    ("Conjunction", "conj", RULE),
    ("ExpressionMore", "OR conj"),
    ("ExpressionRest", "{OR conj}"),
    ("Expression", "expr", RULE),
    ("ListMore", '"," expr'),
    ("ListRest", '{"," expr}'),
    ("List", 'expr {"," expr}', TEXT),
    # what follows an opening
    ("InParenthesis", 'expr ")"'),
    ("ArgumentList", '["*" | expr {"," expr}]'),
    ("InArguments", '["*" | expr {"," expr}] ")"'),
    ("InMembers", 'expr {"," expr} ")"'),
    ("When", "WHEN expr THEN expr"),
    ("WhenRest", "{WHEN expr THEN expr}"),
    ("CaseOperand", "[expr]"),
    ("Else", "ELSE expr"),
    ("CaseElse", "[ELSE expr]"),
    ("InCase", "[expr] WHEN expr THEN expr {WHEN expr THEN expr} [ELSE expr] END"),
    # queries
    ("AsName", "AS name"),
    ("Alias", "[AS name | name]", "[[AS] name]"),
    ("AllOfTable", 'name_of_all "." "*"', 'name "." "*"'),
    ("OutputExpression", "expr [AS name | name]"),
    ("Output", "out", TEXT),
    ("OutputMore", '"," out'),
    ("OutputRest", '{"," out}'),
    ("Outputs", 'out {"," out}'),
    ("RequiredAlias", "AS name | name", "[AS] name"),
    ("NamedItem", "name [AS name | name]", "name [[AS] name]"),
    ("DerivedItem", '"(" query ")" (AS name | name)', '"(" query ")" [AS] name'),
    ("Item", "item", TEXT),
    ("InnerJoin", "INNER JOIN"),
    ("MaybeOuter", "[OUTER]"),
    ("LeftJoin", "LEFT [OUTER] JOIN"),
    ("JoinKind", "INNER JOIN | JOIN | LEFT [OUTER] JOIN"),
    ("Join", "join", TEXT),
    ("Joins", "{join}"),
    ("MaybeQuantifier", "[ALL | DISTINCT]"),
    ("Where", "WHERE expr"),
    ("MaybeWhere", "[WHERE expr]"),
    ("MaybeQualifier", '["." name]'),
    ("Column", "col", TEXT),
    ("ColumnMore", '"," col'),
    ("ColumnRest", '{"," col}'),
    ("GroupBy", 'GROUP BY col {"," col}'),
    ("MaybeGroupBy", '[GROUP BY col {"," col}]'),
    ("Having", "HAVING expr"),
    ("MaybeHaving", "[HAVING expr]"),
    ("Block", "block", TEXT),
    ("UnionMore", "UNION ALL block"),
    ("UnionRest", "{UNION ALL block}"),
    ("Direction", "[ASC | DESC]"),
    ("SortColumn", "name | int"),
    ("SortKey", "key", TEXT),
    ("SortKeyMore", '"," key'),
    ("SortKeyRest", '{"," key}'),
    ("OrderBy", 'ORDER BY key {"," key}'),
    ("MaybeOrderBy", '[ORDER BY key {"," key}]'),
    ("Skip", "OFFSET int"),
    ("MaybeSkip", "[OFFSET int]"),
    ("Limit", "LIMIT int [OFFSET int]"),
    ("MaybeLimit", "[LIMIT int [OFFSET int]]"),
    ("Query", "query", TEXT),
    ("InSubquery", 'query ")"'),
    ("MaybeSemicolon", "[any_semicolon]"),
    ("Statement", "statement", TEXT),
    # schemas
    ("LengthBound", "int | MAX"),
    ("LongKind", "STRING | BYTES"),
    ("LengthParenthesis", '"(" (int | MAX) ")"', TEXT, "InLength"),
    ("LongType", '(STRING | BYTES) "(" (int | MAX) ")"'),
    ("Type", "type", TEXT),
    ("NotNull", "NOT NULL"),
    ("MaybeNotNull", "[NOT NULL]"),
    ("TableColumn", "column", TEXT),
    ("TableColumnMore", '"," column'),
    ("TableColumnRest", '{"," column}'),
    ("TableColumns", '"(" column {"," column} ")"', TEXT, "InTableColumns"),
    ("KeyColumn", "keycol", TEXT),
    ("KeyColumnMore", '"," keycol'),
    ("KeyColumnRest", '{"," keycol}'),
    ("KeyColumns", '"(" keycol {"," keycol} ")"', TEXT, "InKeyColumns"),
    ("NoAction", "NO ACTION"),
    ("Action", "CASCADE | NO ACTION"),
    ("OnDelete", "ON DELETE (CASCADE | NO ACTION)"),
    ("MaybeOnDelete", "[ON DELETE (CASCADE | NO ACTION)]"),
    ("Interleave", '"," INTERLEAVE IN PARENT name [ON DELETE (CASCADE | NO ACTION)]'),
    ("MaybeInterleave", '["," INTERLEAVE IN PARENT name [ON DELETE (CASCADE | NO ACTION)]]'),
    ("Table", "table", TEXT),
    ("TableMore", "separator table"),
    ("TableRest", "{separator table}"),
    ("MaybeLastSemicolon", "[last_semicolon]"),
    ("Schema", "schema", TEXT),
    ("InLength", '(int | MAX) ")"'),
    ("InTableColumns", 'column {"," column} ")"'),
    ("InKeyColumns", 'keycol {"," keycol} ")"'),
]]


def stop(message):
    """Ends the program: docs/SQL.md and the tables above do not fit."""
    sys.exit(f"{os.path.basename(sys.argv[0])}: {message}")


# ---- expressions: a token or the name of a rule is a string, all others are nodes

Node = namedtuple("Node", "kind items")


def row(items):
    """Expressions in a row; rows among them are taken in."""
    flat = [one for item in items for one in items_of(item)]
    return flat[0] if len(flat) == 1 else Node("row", tuple(flat))


def items_of(node):
    """What a row consists of; a single item is a row of itself."""
    return list(node.items) if is_kind(node, "row") else [node]


def alternatives_of(node):
    """What a choice is between; another expression is the only one."""
    return list(node.items) if is_kind(node, "choice") else [node]


def choice(alternatives):
    """One of some expressions: choices among them are taken in, and what may be left out is left out as a whole."""
    flat, may_be_left_out = [], False
    for one in alternatives:
        may_be_left_out |= is_kind(one, "option")
        flat += alternatives_of(one.items[0] if is_kind(one, "option") else one)
    found = flat[0] if len(flat) == 1 else Node("choice", tuple(flat))
    return Node("option", (found,)) if may_be_left_out else found


def is_kind(node, kind):
    return isinstance(node, Node) and node.kind == kind


def text_of(node):
    """An expression as docs/SQL.md would write it."""
    if isinstance(node, str):
        return node
    texts = [text_of(item) for item in node.items]
    if node.kind == "choice":
        return " | ".join(texts)
    if node.kind == "option":
        return f"[{texts[0]}]"
    if node.kind == "repeat":
        return "{" + texts[0] + "}"
    return " ".join(f"({text})" if is_kind(item, "choice") else text for item, text in zip(node.items, texts))


def parse(rule, text):
    """The expression that a rule's text is."""
    words = re.findall(r'"[^"]+"|\w+|[][{}()|]|\S', text)

    def expression(end):
        """The expression up to an end, which is left."""
        alternatives, items = [], []
        while words and words[0] != end:
            word = words.pop(0)
            if word == "|":
                alternatives, items = alternatives + [row(items)], []
            elif word in "[{(":
                items.append(bracketed(word))
            elif re.fullmatch(r'"[^"]+"|\w+', word):
                items.append(word)
            else:
                stop(f"docs/SQL.md, rule {rule}: cannot read {word} in: {text}")
        if not items or (end and not words):
            stop(f"docs/SQL.md, rule {rule}: something is missing in: {text}")
        return choice(alternatives + [row(items)])

    def bracketed(word):
        """What an opening bracket begins."""
        inside = expression({"[": "]", "{": "}", "(": ")"}[word])
        words.pop(0)
        return inside if word == "(" else Node("option" if word == "[" else "repeat", (inside,))

    return expression(None)


# ---- reading docs/SQL.md

def read_rules(page):
    """The text of each rule under its name, with single blanks."""
    blocks = page.split("```")
    if len(blocks) != 3:
        stop("docs/SQL.md has not one block between ``` and ```, which is the grammar")
    rules = {}
    for line in filter(None, map(str.rstrip, blocks[1].split("\n"))):
        head = re.match(r"(\w+) += (.*)", line)
        if head and head.group(1) in rules:
            stop(f"docs/SQL.md has two rules {head.group(1)}")
        if not head and not (line.startswith(" ") and rules):
            stop(f"docs/SQL.md: neither a rule nor the rest of one: {line}")
        name, text = head.groups() if head else (name, rules[name] + " " + line)
        rules[name] = " ".join(text.split())
    return rules


def read_words(page):
    """The reserved words."""
    found = re.search(r"Reserved words, in any case: ([A-Z\s]+)\.", page)
    return found.group(1).split() if found else stop("docs/SQL.md: no line of reserved words")


def read_signs(page):
    """The signs."""
    found = re.search(r"^\| sign \| `(.*)`;", page, re.MULTILINE)
    signs = found.group(1).replace("\\|", "|").split() if found else []
    if set(signs) != set(SIGNS):
        stop(f"docs/SQL.md's signs are {' '.join(signs)}, and tools/grammar.py's are {' '.join(SIGNS)}")
    return [SIGNS[sign] for sign in signs]


# ---- rewriting the rules

def distinguish_tokens(rules):
    """The rules, with the tokens of TOKEN_VARIANTS."""
    rules = dict(rules)
    for rule, old, new in TOKEN_VARIANTS:
        if rules.get(rule, "").count(old) != 1:
            stop(f"docs/SQL.md: rule {rule} does not have {old} in it once")
        rules[rule] = rules[rule].replace(old, new)
    return rules


def with_integers(rules):
    """The rules, with two more: what follows a minus is an integer or something else, so that -9223372036854775808 can be read."""
    unary, prim = rules.get("unary"), rules.get("prim")
    if unary != parse("unary", '"-" unary | prim') or alternatives_of(prim)[0] != "int":
        stop('docs/SQL.md: unary is not "-" unary | prim, or prim does not begin with int')
    opposite = parse("unary", '"-" signed')
    return {**rules, "unary": choice([opposite, "prim"]), "signed": choice(["int", "other_unary"]),
            "other_unary": choice([opposite, "prim_but_int"])}


def inline_rules(rule, node, rules):
    """A rule's expression, with the alternatives of the rules that it takes in, each of which begins with one token."""
    found = []
    for one in alternatives_of(node):
        if one not in INLINED.get(rule, []):
            found.append(one)
            continue
        for first, *rest in map(items_of, alternatives_of(rules[one])):
            found += [row([token] + rest) for token in alternatives_of(first)]
    return choice(found)


def expand_options(node):
    """An expression in which what EXPANDED names is two alternatives."""
    if isinstance(node, str):
        return node
    items = [expand_options(item) for item in node.items]
    if node.kind == "choice":
        return choice(items)
    if node.kind != "row":
        return choice([Node("option", (choice(items),))]) if node.kind == "option" else Node(node.kind, tuple(items))
    for at in range(len(items) - 1):
        if is_kind(items[at], "option") and text_of(row(items[at:at + 2])) in EXPANDED:
            items[at:at + 2] = [choice([row([items[at].items[0], items[at + 1]]), items[at + 1]])]
            break
    return row(items)


def factor(node):
    """An expression in which no two alternatives begin with the same: that is taken out in front of them."""
    if isinstance(node, str):
        return node
    if node.kind != "choice":
        return Node(node.kind, tuple(factor(item) for item in node.items))
    groups = {}
    for one in node.items:
        first, *rest = items_of(factor(one))
        groups.setdefault(first, []).append(rest)
    found = []
    for first, rests in groups.items():
        if not any(rests) and len(rests) > 1:
            stop(f"docs/SQL.md: two alternatives are the same: {text_of(first)}")
        if len(rests) > 1:
            rests = [[factor(join_rests(rests))]]
        found.append(row([first] + rests[0]))
    return choice(found)


def join_rests(rests):
    """One of some rows; what may be left out comes last."""
    found = sorted([row(rest) for rest in rests if rest], key=lambda one: is_kind(one, "option"))
    return choice(found if [] not in rests else [Node("option", (choice(found),))])


def nest(rule, node):
    """An expression in which an opening and what it encloses are one node."""
    if isinstance(node, str):
        return node
    items = [nest(rule, item) for item in node.items]
    if node.kind != "row":
        return Node(node.kind, tuple(items))
    if (rule, items[0]) in OPENINGS:
        return Node("opening", (items[0], row(items[1:])))
    found = []
    while items:
        item = items.pop(0)
        if item == '"("':
            end = items.index('")"') + 1 if '")"' in items else stop(f"docs/SQL.md, rule {rule}: a parenthesis that is not closed")
            item, items = Node("opening", (item, row(items[:end]))), items[end:]
        found.append(item)
    return row(found)


def rewrite(rules):
    """The rules as they are read: under its name, each rule's expression."""
    plain = {name: parse(name, text) for name, text in distinguish_tokens(rules).items()}
    for rule, others in INLINED.items():
        for one in others:
            if one not in plain or one not in alternatives_of(plain.get(rule, "")):
                stop(f"docs/SQL.md: {one} is no alternative of rule {rule}")
    plain = with_integers(plain)
    flat = {name: inline_rules(name, node, plain) for name, node in plain.items()}
    rules = {name: nest(name, factor(expand_options(node))) for name, node in flat.items()}
    # each opening beside a parenthesis counts in its own rule, and what follows a minus is of `unary` too
    rules["other_unary"] = nest("unary", flat["other_unary"])
    return rules


# ---- the parts

Part = namedtuple("Part", "name shape operands comment")


def snake(name):
    """A name in small letters with low lines."""
    return re.sub(r"(?<!^)(?=[A-Z0-9])", "_", name).lower()


def sort_term(sort):
    """A sort of tokens as a term of antt."""
    kind, argument = sort
    return f"(sort.{kind} {kind.lower()}.{argument})" if argument else f"sort.{kind}"


class Grammar:
    """The parts of the grammar, and what reading by one token ahead asks of them.

    A part's shape is Empty, Then, Or (of two parts), Many (of a part) or Open (of a sort of token and a place). A part that is one token has
    its sort in `tokens` alone. `order` has the parts after those that they are made of.
    """

    def __init__(self, page):
        rules = read_rules(page)
        self.reserved, self.signs = read_words(page), read_signs(page)
        words = re.findall(r"\b[A-Z][A-Z0-9]+\b", " ".join(rules.values()))
        self.words = [word.capitalize() for word in self.reserved]
        self.contexts = list(dict.fromkeys(word.capitalize() for word in words if word not in self.reserved))
        self.rules = rewrite(rules)
        self.names = {name.text: name.part for name in NAMES}
        self.comments = {name.part: {TEXT: name.text, RULE: rules.get(name.text)}.get(name.comment, name.comment) for name in NAMES}
        self.places, self.tokens, self.parts = {}, {}, {}
        self.cover()
        for name in NAMES:
            self.add_named(name)
        self.order = self.sort_parts()

    # from expressions to parts

    def cover(self):
        """Stops if an expression has no name, or if a name has no expression."""
        self.nodes, used = {"": None}, {"schema", "statement", "signed", "other_unary"}
        for rule in self.rules:
            if rule in self.names:
                self.nodes[rule] = self.rules[rule]
                self.collect(rule, self.rules[rule], used, True)
            elif not any(rule in others for others in INLINED.values()):
                stop(f"docs/SQL.md has a rule {rule}, which has no name in tools/grammar.py")
        for name in NAMES:
            if name.text not in self.nodes:
                stop(f"tools/grammar.py names an expression {name.part} that docs/SQL.md does not have: {name.text}")
        for rule in self.rules:
            if rule in self.names and rule not in used:
                stop(f"docs/SQL.md has a rule {rule} that no other uses")

    def collect(self, rule, node, used, is_whole=False):
        """Notes the expressions that an expression of a rule is made of."""
        if isinstance(node, str):
            used.add(node)
            return
        if not is_whole:
            text = text_of(node)
            if text not in self.names:
                stop(f"docs/SQL.md, rule {rule}, has an expression that has no name in tools/grammar.py: {text}")
            self.nodes[text] = node
        parts = {
            "opening": lambda: node.items[1:], "row": lambda: self.group(node.items),
            "option": lambda: alternatives_of(node.items[0]), "choice": lambda: node.items, "repeat": lambda: node.items,
        }[node.kind]()
        for part in parts:
            self.collect(rule, part, used)

    def group(self, items):
        """The items of a row, in which those that have a name together are one."""
        found, at = [], 0
        while at < len(items):
            ends = [end for end in range(at + 2, len(items) + 1) if end - at < len(items) and text_of(row(items[at:end])) in self.names]
            end = max(ends, default=at + 1)
            found.append(row(items[at:end]))
            at = end
        return found

    def part_of(self, node):
        """The name of the part that an expression is."""
        if node == "prim_but_int":
            return self.parts[self.names["prim"]].operands[1]
        text = text_of(node)
        if text in self.names:
            return self.names[text]
        sort, argument = self.sort_of(node)
        name = TOKENS[node][1] if node in TOKENS else {"Sign": "Sign", "Word": "Word", "Context": "Word"}[sort] + argument
        self.tokens[name] = (sort, argument)
        return name

    def sort_of(self, token):
        """The sort of a token: what span_grammar calls it, and which sign or word it is."""
        if token.startswith('"'):
            sign = token.strip('"')
            return ("Sign", SIGNS[sign]) if sign in SIGNS else stop(f"docs/SQL.md: {token} is a sign that tools/grammar.py does not have")
        if token.isupper():
            return ("Word" if token in self.reserved else "Context", token.capitalize())
        return (TOKENS[token][0], None) if token in TOKENS else stop(f"docs/SQL.md: {token} is neither a rule nor a token")

    def add_named(self, name):
        """Adds the part that a row of NAMES is, after the parts that are the rest of it."""
        node, comment = self.nodes[name.text], self.comments[name.part]
        if node is None:
            self.parts[name.part] = Part(name.part, "Empty", (), comment)
        elif is_kind(node, "opening"):
            self.places[name.place] = self.part_of(node.items[1])
            self.parts[name.part] = Part(name.part, "Open", (self.sort_of(node.items[0]), name.place), comment)
        elif is_kind(node, "repeat"):
            self.parts[name.part] = Part(name.part, "Many", (self.part_of(node.items[0]),), comment)
        elif is_kind(node, "row"):
            self.add_pairs(name, "Then", [self.part_of(item) for item in self.group(node.items)])
        elif is_kind(node, "option"):
            self.add_pairs(name, "Or", [self.part_of(item) for item in alternatives_of(node.items[0])] + ["Nothing"])
        elif is_kind(node, "choice"):
            self.add_pairs(name, "Or", [self.part_of(item) for item in node.items])
        else:
            stop(f"docs/SQL.md: rule {name.text} is nothing but {text_of(node)}")

    def add_pairs(self, name, shape, operands):
        """Adds a part of two or more others as one of two: the first, and a part of the rest, which is added before it."""
        names, rest = [name.part], operands
        while len(rest) > 2:
            rest = rest[1:]
            first = f"{name.part}From{rest[0]}"
            unused = (first + end for end in [""] + [str(number) for number in range(2, 100)])
            names.append(next(one for one in unused if one not in self.parts and one not in names))
        for at in reversed(range(len(names))):
            second = names[at + 1] if at + 1 < len(names) else operands[-1]
            self.parts[names[at]] = Part(names[at], shape, (operands[at], second), self.comments[name.part] if at == 0 else "")

    # what the parts are, once they are found

    def shape(self, name):
        """The shape of a part and its operands; a token is One of its sort."""
        return ("One", (self.tokens[name],)) if name in self.tokens else self.parts[name][1:3]

    def part_term(self, name):
        """A part as a term of antt."""
        return f"(part.Token {sort_term(self.tokens[name])})" if name in self.tokens else f"part.{name}"

    def sort_parts(self):
        """The parts after those that they are made of."""
        order = {}

        def visit(name):
            if name in self.tokens or name in order:
                return
            part = self.parts[name]
            for operand in part.operands if part.shape in ("Then", "Or", "Many") else ():
                visit(operand)
            order[name] = part

        for name in self.parts:
            visit(name)
        return list(order.values())


def read_grammar():
    """The grammar that docs/SQL.md has."""
    with open(PAGE, encoding="utf-8") as file:
        return Grammar(file.read())
