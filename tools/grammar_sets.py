"""What reading by one token ahead asks of the parts of the grammar: which may be nothing, and with which tokens each begins and goes on."""
import functools

import grammar as source


class Sets:
    """For each part: whether it may be nothing, how high it is above its parts, and the classes of tokens that it begins and goes on with."""

    def __init__(self, grammar):
        self.grammar = grammar
        plain = [(kind, None) for kind in ("AllOf", "Parameter", "Int", "Str", "Bytes")]
        self.classes = [("Word", word) for word in grammar.words] + [("Name", None)]
        self.classes += [("Context", word) for word in grammar.contexts] + plain
        self.classes += [("Sign", sign) for sign in grammar.signs] + [("LastSemicolon", None)]
        self.number = {one: at for at, one in enumerate(self.classes)}
        self.inside = {place: frozenset() for place in grammar.places}
        self.sizes = self.sizes_of_trees()
        self.find_inside()
        self.require_one_token()

    def of_sort(self, sort):
        """The classes that a rule's sort of token takes."""
        kinds = {
            "Name": [one for one in self.classes if one[0] in ("Name", "Context")],
            "Separator": [("Sign", "Semicolon")],
            "AnySemicolon": [("Sign", "Semicolon"), ("LastSemicolon", None)],
        }
        return frozenset(kinds.get(sort[0], [sort]))

    @functools.cache
    def may_be_nothing(self, name):
        """Whether a part may take no token."""
        shape, operands = self.grammar.shape(name)
        if shape == "Then":
            return all(self.may_be_nothing(operand) for operand in operands)
        if shape == "Or":
            return any(self.may_be_nothing(operand) for operand in operands)
        return shape in ("Empty", "Many")

    @functools.cache
    def rank(self, name):
        """How high a part is above those that it is made of; a token is 0."""
        shape, operands = self.grammar.shape(name)
        below = operands if shape in ("Then", "Or", "Many") else ()
        return 0 if shape == "One" else 1 + max(map(self.rank, below), default=0)

    def sizes_of_trees(self):
        """The size of a least tree of each part."""
        sizes, names, is_done = {}, self.names(), False
        while not is_done:
            is_done = True
            for name in names:
                shape, operands = self.grammar.shape(name)
                below = [self.grammar.places[operands[1]]] if shape == "Open" else operands if shape in ("Then", "Or") else ()
                known = [sizes[one] for one in below if one in sizes]
                if len(known) < (min(1, len(below)) if shape == "Or" else len(below)):
                    continue
                size = 1 + (min(known) if shape == "Or" else sum(known))
                if size < sizes.get(name, size + 1):
                    sizes[name], is_done = size, False
        return sizes

    def names(self):
        return [part.name for part in self.grammar.order] + list(self.grammar.tokens)

    @functools.cache
    def first(self, name):
        """The classes of tokens with which a part begins."""
        shape, operands = self.grammar.shape(name)
        if shape in ("One", "Open"):
            return self.of_sort(operands[0])
        if shape == "Then" and not self.may_be_nothing(operands[0]):
            operands = operands[:1]
        return frozenset().union(*map(self.first, operands))

    def first_sorts(self, name):
        """The sorts of tokens with which a part begins, as they are come upon."""
        shape, operands = self.grammar.shape(name)
        if shape in ("One", "Open"):
            return operands[:1]
        if shape == "Then" and not self.may_be_nothing(operands[0]):
            operands = operands[:1]
        return tuple(sort for operand in operands for sort in self.first_sorts(operand))

    def goes_on(self, name):
        """The classes of tokens with which a tree of a part may go on where it could end."""
        if name not in self.going:
            self.going[name] = self.goes_on_anew(name)
        return self.going[name]

    def goes_on_anew(self, name):
        """The same, from those of the parts that it is made of."""
        shape, operands = self.grammar.shape(name)
        if shape in ("Empty", "One"):
            return frozenset()
        if shape == "Open":
            return self.inside[operands[1]]
        if shape == "Many":
            return self.first(operands[0]) | self.goes_on(operands[0])
        found = self.goes_on(operands[1])
        if shape == "Or":
            found |= self.goes_on(operands[0])
        if self.may_be_nothing(operands[1]):
            found |= self.first(operands[0]) if shape == "Or" else self.goes_on(operands[0])
        return found

    def find_inside(self):
        """Finds what goes on at each place inside an opening: more and more, until no more comes."""
        is_done = False
        while not is_done:
            self.going = {}
            found = {place: self.inside[place] | self.goes_on(part) for place, part in self.grammar.places.items()}
            is_done, self.inside = found == self.inside, found

    def require_one_token(self):
        """Stops where one token does not decide a choice."""
        for name, shape, operands, _ in self.grammar.order:
            a, b = operands[0] if operands else None, operands[-1] if operands else None
            clash = {
                "Then": lambda: self.goes_on(a) & self.first(b),
                "Or": lambda: self.first(a) & self.first(b) or self.may_be_nothing(a),
                "Many": lambda: self.goes_on(a) & self.first(a) or self.may_be_nothing(a),
            }.get(shape, lambda: None)()
            if clash:
                source.stop(f"docs/SQL.md: one token does not decide how the part {name} goes on: {clash}")
