"""Lines from numbers, which mostly make sense to a session as it stands."""

import random
from collections import ChainMap
from dataclasses import dataclass

from plain import tables
from plain.keyed import Mapping
from plain.operators import OPERATORS, TOO_LONG, VIEWERS, Expression, Unfit, is_view, kind_of, names_of, place, sort_keys, sortable
from plain.reading import MOST_NAME, RUN
from plain.session import Session

Refused, spelled, structure = tables.Refused, tables.spelled, tables.structure

PROPS = ["a", "b", "c", "d"]
VIEW_NAMES = ["t", "u", "w", "x", "sort", "select", "find", "quit", "_2", "n" * MOST_NAME]
NEW_NAMES = [*(f"{letter}{at}" for letter in "kms" for at in range(5)), *VIEW_NAMES]
PLAIN = "IILSB"
SOME = {"I": [-1, 0, 1, 2], "L": [-3_000_000_000, 0, 1], "S": ["", "a", "ab", "é"], "B": [b"", b"\x00", b"\x7f", b"\x80\x01"]}
# So many pairs of rows are asked for at most.
MOST_PAIRS = 250
VIEWS = 5


def path_tokens(path):
    name, *steps = path
    return [name, *(token for row, prop in steps for token in ("/", str(row), "/", prop))]


def literal_tokens(value):
    if not isinstance(value, list):
        return [spelled(value)]
    rows = [["(", *listed(row, literal_tokens), ")"] for row in value]
    return ["{", *listed(rows, lambda row: row), "}"]


def listed(parts, tokens):
    """The tokens of each part, with commas between."""
    return [token for at, part in enumerate(parts) for token in [","] * (at > 0) + tokens(part)]


def part_tokens(part, given):
    if part == "criteria":
        return listed(given, lambda one: [one[0], "=", *literal_tokens(one[1])])
    if part == "bounds":
        return listed(given, lambda one: [one[0], "=", *literal_tokens(one[1]), ":", *literal_tokens(one[2])])
    if part == "keys":
        return listed(given, lambda one: ["-"] * one[1] + [one[0]])
    if part == "names":
        return listed(given, lambda one: [one])
    return [str(given)]


def expression_tokens(expression):
    if isinstance(expression, tuple):
        return path_tokens(expression)
    given, behind = iter(expression.given), []
    for part in OPERATORS[expression.word].parts:
        if part == "names:name":
            behind.append([*part_tokens("names", next(given)), ":", next(given)])
        else:
            behind.append(part_tokens(part, next(given)))
    parts = [*map(expression_tokens, expression.bases), *filter(None, behind)]
    return [expression.word, "(", *listed(parts, lambda part: part), ")"]


def needs_space(one, other):
    """Two tokens that would be read as others without a space between."""
    return RUN.match(one[-1:].encode()) is not None and (other[0] == '"' or RUN.match(other.encode()) is not None)


@dataclass
class Author:
    """Makes lines that mostly make sense to a session as it stands."""

    chance: random.Random
    session: Session
    wide: bool = False
    copies: int = 1

    def often(self, share):
        return self.chance.random() < share

    # Structures, values and paths.

    def props(self, deep=0):
        if self.wide and deep == 0:
            return self.wide_props()
        names = self.chance.sample(PROPS, self.chance.randint(1, 3))
        return tuple((name, self.props(deep + 1) if deep < 2 and self.often(0.3) else self.chance.choice(PLAIN)) for name in names)

    def wide_props(self):
        """Some forty properties, one of which may be as deep as it can, or as wide."""
        begin = self.chance.choice((0, 0, 20))
        inner = (("a", "I"), *((f"q{at}", "I") for at in range(30)))
        for at in range(self.chance.choice((0, 0, 5, 6))):
            inner = ((f"v{at}", inner),)
        return (*((f"p{at}", "I") for at in range(begin, begin + 40)), ("a", "I"), ("v", inner if self.often(0.7) else "I"))

    def literal(self, kind):
        # A row of a wide table has many cells, of which none must be wrong.
        if self.often(0.001 if self.wide else 0.015):
            return self.chance.choice((2**31, -2**63, "other", b"", [], [[1]]))
        if is_view(kind):
            return [self.literals(kind) for _ in range(self.chance.randint(0, 2))]
        return self.chance.choice(SOME[kind])

    def literals(self, props):
        row = [self.literal(kind) for _, kind in props]
        cut = self.chance.randrange(30)
        return row[:max(1, len(row) - 1)] if cut == 0 else row + [7] if cut == 1 else row

    # Expressions, each with its table, or with none where it is refused.

    def path(self, named):
        """A path from one of these names, mostly one that leads to rows."""
        if not named or self.often(0.01):
            return (self.chance.choice(NEW_NAMES),)
        name = self.chance.choice(list(named))
        path, table = (name,), named[name]
        while self.often(0.3):
            views = [column for column, (_, kind) in enumerate(table.props) if is_view(kind)]
            if not views or not table.rows:
                break
            column, row = self.chance.choice(views), self.chance.randrange(len(table.rows))
            path, table = path + ((row, table.props[column][0]),), table.rows[row][column]
        if self.often(0.02):
            path += ((self.chance.randint(0, len(table.rows)), self.chance.choice([*PROPS, *names_of(table.props)])),)
        return path

    def leaf(self):
        if self.session.watches and self.often(0.25):
            path = (self.chance.choice(list(self.session.watches)),)
        else:
            path = self.path(ChainMap(self.session.views, self.session.snapshots))
        try:
            return path, self.session.value(path)
        except Refused:
            return path, None

    def expression(self, deep):
        """One of at most this depth, which is mostly not refused."""
        for _ in range(4):
            found = self.leaf() if deep == 1 else self.operation(deep)
            if found[1] is not None or self.often(0.2):
                break
        return found

    def operation(self, deep):
        word = self.chance.choice(WORDS)
        first = self.expression(self.chance.randint(1, deep - 1))
        if OPERATORS[word].bases == 1:
            return self.applied(word, [first])
        second = self.partner(word, first, deep - 1)
        if first[1] and second[1] and len(first[1][1]) * len(second[1][1]) > MOST_PAIRS:
            word = self.chance.choice(SETS)
        return self.applied(word, [first, second])

    def partner(self, word, first, deep):
        """A second table: for sets mostly one of the same schema, for joins one that shares a property."""
        for _ in range(6):
            if word in SETS and expression_depth(first[0]) < deep and self.often(0.3):
                return self.applied(self.chance.choice(("select", "range", "sort", "slice", "unique")), [first])
            found = self.expression(self.chance.randint(1, deep))
            if not first[1] or not found[1] or goes_with(word, first[1][0], found[1][0]):
                break
        return found

    def applied(self, word, found):
        """The operator on these tables."""
        expressions, bases = map(list, zip(*found))
        given = self.given_for(word, [table or ((("a", "I"),), []) for table in bases])
        expression = Expression(word, expressions, given)
        if None in bases:
            return expression, None
        try:
            return expression, OPERATORS[word].work(*bases, *given)
        except Unfit:
            return expression, None

    # Arguments for tables of these properties and rows.

    def given_for(self, word, bases):
        given = GIVEN.get(word)
        return given(self, *bases) if given else []

    def name_in(self, table):
        return self.chance.choice(names_of(table[0]) * 5 + PROPS[:1 + self.often(0.3)])

    def plain_name_in(self, table):
        """Mostly a property that is no view."""
        plain = [name for name, kind in table[0] if not is_view(kind)]
        return self.chance.choice(plain) if plain and self.often(0.8) else self.name_in(table)

    def view_name_in(self, table):
        views = [name for name, kind in table[0] if is_view(kind)]
        return self.chance.choice(views) if views and self.often(0.8) else self.name_in(table)

    def shared_name(self, table, other):
        shared = [name for name in names_of(table[0]) if name in names_of(other[0])]
        return self.chance.choice(shared) if shared and self.often(0.9) else self.name_in(table)

    def viewer(self, table):
        """A viewer and properties that it may be asked of, mostly of the kinds that it takes."""
        word, (kinds, _) = self.chance.choice(list(VIEWERS.items()))
        given = [[name for name, kind in table[0] if kind == wanted] for wanted in kinds]
        if self.often(0.2) or not all(given):
            return ["nosuch" if self.often(0.1) else word, self.some(self.name_in, table)]
        return [word, [self.chance.choice(names) for names in given]]

    def some(self, one, *bases):
        return [one(*bases) for _ in range(self.chance.choice((1, 1, 1, 2, 2, 3)))]

    def new_name(self, table):
        return self.name_in(table) if self.often(0.3) else "new"

    def value_for(self, table, name):
        """One that stands in the table, or another."""
        props, rows = table
        if name not in names_of(props):
            return self.literal("I")
        return self.chance.choice(rows)[place(props, name)] if rows and self.often(0.6) else self.literal(kind_of(props, name))

    def criteria(self, table):
        return self.criteria_of(table, self.some(self.plain_name_in, table))

    def criteria_of(self, table, names):
        """Values for these properties, often those of one row."""
        props, rows = table
        if not rows or self.often(0.4):
            return [(name, self.value_for(table, name)) for name in names]
        row = self.chance.choice(rows)
        return [(name, row[place(props, name)] if name in names_of(props) else 0) for name in names]

    def bound(self, table):
        """Mostly the lesser value first."""
        name = self.plain_name_in(table)
        value, other = self.value_for(table, name), self.value_for(table, name)
        if type(value) is type(other) and not isinstance(value, list) and self.often(0.8):
            value, other = sorted((value, other), key=sortable)
        return name, value, other

    def key(self, table):
        return self.plain_name_in(table), self.often(0.5)

    def span(self):
        return [self.chance.randint(0, 3), self.chance.choice((0, 2, 5, 9, 2**63 - 1)), self.chance.choice((-3, -2, -1, 0, 1, 1, 2, -2**63))]

    # Lines, each as its tokens.

    def line(self):
        command = self.chance.choices(list(WEIGHTS), WEIGHTS.values())[0]
        if command in ("uncursor", "next", "prev", "row") and not self.session.cursors and self.often(0.9):
            command = "cursor"
        if command == "getas":
            text = structure(self.new(), self.old_props())
            return f"getas {self.wronged_text(text) if self.often(0.2) else text}"
        tokens = [command, *getattr(self, "of_" + command, list)()]
        if self.often(0.05):
            tokens = self.wronged(tokens)
        return self.joined(tokens)

    def old_props(self):
        """Often the properties of a view that is there."""
        views = list(self.session.views.values())
        return self.chance.choice(views).props if views and self.often(0.5) else self.props()

    def joined(self, tokens):
        """The tokens as a text, mostly without the spaces that can be left out."""
        text, spaces = "", self.chance.choice((0, 0, 0.1, 0.5))
        for before, token in zip(["", *tokens], tokens):
            text += " " * (needs_space(before, token) or self.often(spaces)) + token
        return text + " " * (self.often(spaces) * 2)

    def wronged_text(self, text):
        at = self.chance.randrange(len(text))
        return text[:at] + self.chance.choice((text[at + 1:], "", self.chance.choice('[],:FIMa9é "') + text[at:]))

    def wronged(self, tokens):
        """The tokens with one cut, doubled, or put in, or with more operators before the rest than there may be."""
        at = self.chance.randint(0, len(tokens))
        return self.chance.choice((
            lambda: tokens[:at], lambda: tokens[:at] + tokens[at + 1:], lambda: tokens[:at] + tokens[at:at + 1] + tokens[at:],
            lambda: tokens[:at] + [self.chance.choice(WRONG)] + tokens[at:], lambda: tokens[:at] + [self.chance.choice(WRONG)] + tokens[at + 1:],
            lambda: tokens[:at] + ["sort", "("] * self.chance.choice((13, 14, 15, 16)) + tokens[at:],
        ))()

    def of_expression(self):
        return expression_tokens(self.expression(self.chance.choice((1, 2, 2, 3, 3, 4)))[0])

    of_size = of_show = of_expression

    def question(self):
        """An expression, and criteria for it."""
        expression, table = self.expression(self.chance.choice((1, 1, 2, 3)))
        return expression, table or ((("a", "I"),), [])

    def of_find(self):
        expression, table = self.question()
        size = len(table[1])
        start = self.chance.choice((0, 0, 0, min(1, size), min(2, size), size, self.chance.randint(size, size + 1)))
        return [*expression_tokens(expression), str(start), *part_tokens("criteria", self.criteria(table))]

    def of_search(self):
        """Mostly a sorting, a watch that is one, or a view in the order of its keys, and values for the first keys."""
        in_order = [name for name, mapping in self.session.mappings.items() if mapping.in_order]
        if in_order and self.often(0.2):
            name = self.chance.choice(in_order)
            keys = Expression("sort", [], [[(key, False) for key, _ in self.session.views[name].props[:self.session.mappings[name].count]]])
            return [name, *part_tokens("criteria", self.criteria_sorted(keys, self.session.value((name,))))]
        sortings = [name for name, watched in self.session.watches.items() if watched.word == "sort"]
        if sortings and self.often(0.3):
            name = self.chance.choice(sortings)
            return [name, *part_tokens("criteria", self.criteria_sorted(self.session.watches[name], self.session.value((name,))))]
        base = self.question()
        if self.often(0.1):
            return [*expression_tokens(base[0]), *part_tokens("criteria", self.criteria(base[1]))]
        sorting, table = self.applied("sort", [base])
        if table is None or self.often(0.2):
            return [*expression_tokens(sorting), *part_tokens("criteria", self.criteria(base[1]))]
        return [*expression_tokens(sorting), *part_tokens("criteria", self.criteria_sorted(sorting, table))]

    def criteria_sorted(self, sorting, table):
        """Values for the first keys of a sorting."""
        names = [name for name, _ in sort_keys(table[0], sorting.given[0])] or ["a"]
        return self.criteria_of(table, names[:self.chance.randint(1, 3)])

    of_locate = of_search

    def new(self):
        return self.chance.choice(NEW_NAMES)

    def one_of(self, names):
        return self.chance.choice(list(names)) if names and self.often(0.9) else self.new()

    def of_dup(self):
        return [self.new(), *self.of_expression()]

    def of_undup(self):
        return [self.one_of(self.session.snapshots)]

    def of_cursor(self):
        return [self.new(), self.one_of(ChainMap(*self.session.stood_on().values()))]

    def of_watch(self):
        """Mostly over a view, and else over a watch."""
        there = self.session.watches if self.often(0.4) else self.session.views
        source = self.one_of(there)
        try:
            table = self.session.value((source,))
        except Refused:
            table = (("a", "I"),), []
        word = self.chance.choice(("select", "range", "range", "sort", "sort", "counts", "counts", "keep", "keep")) if self.often(0.98) else self.chance.choice(WORDS)
        return [self.new(), *expression_tokens(Expression(word, [(source,)] * OPERATORS[word].bases, self.given_for(word, [table] * OPERATORS[word].bases)))]

    def of_unwatch(self):
        return [self.one_of(self.session.watches)]

    def of_hash(self, in_order=False):
        """Mostly a view that can be mapped, by as many keys as it can."""
        name = self.one_of(self.session.views)
        table = self.session.views.get(name)
        counts = [count for count in range(1, len(table.props) + 1) if self.can_map(table, Mapping(in_order, count))] if table else []
        if counts and self.often(0.7):
            return [name, str(self.chance.choice(counts))]
        return [name, str(self.chance.randint(0, len(table.props) + 1 if table else 1))]

    def of_ordered(self):
        return self.of_hash(True)

    def can_map(self, table, mapping):
        return not any(is_view(kind) for _, kind in table.props[:mapping.count]) and mapping.broken(table.rows) is None

    def of_unmap(self):
        return [self.one_of(self.session.mappings)]

    def of_cursor_name(self):
        return [self.one_of(self.session.cursors)]

    of_uncursor = of_next = of_prev = of_row = of_cursor_name

    def of_drop(self):
        return [self.one_of(self.session.views)]

    def edited(self):
        """A path for an edit, the properties there and the number of rows, as far as it leads."""
        path = self.path(self.session.views)
        try:
            table = self.session.table(path)
        except Refused:
            return path_tokens(path), (("a", "I"),), 1
        return path_tokens(path), table.props, len(table.rows)

    def of_add(self):
        path, props, _ = self.edited()
        return [*path, *(token for value in self.literals(props) for token in literal_tokens(value))]

    def of_insert(self):
        path, props, size = self.edited()
        place, count = self.chance.randint(0, size + self.often(0.1)), 70_000 if self.often(0.05) else self.chance.choice((0, 1, 1, 2, 2, 7))
        return [*path, str(place), str(count), *(token for value in self.literals(props) for token in literal_tokens(value))]

    def of_set(self):
        path, props, size = self.edited()
        name, kind = self.chance.choice(props) if self.often(0.95) else ("nosuch", "I")
        row = str(self.chance.randint(0, max(0, size - 1 + self.often(0.1))))
        if self.often(0.02):
            return [*path, row, name, spelled(TOO_LONG)]
        return [*path, row, name, *literal_tokens(self.literal(kind))]

    def of_remove(self):
        path, _, size = self.edited()
        return [*path, str(self.chance.randint(0, size)), self.chance.choice("0111235")]

    def of_commit(self):
        return self.chance.choice(([], [], ['"a note"']))


SETS = ("concat", "union", "intersect", "minus", "different")
WORDS = list(OPERATORS)
WRONG = [*'%"x-(){},:/=\té', "5a", "-0", "-1", "0", '"a"', "l" * (MOST_NAME + 1), "9223372036854775808", "sort", "a"]
GIVEN = {
    "select": lambda by, table: [by.criteria(table)], "range": lambda by, table: [by.some(by.bound, table)],
    "sort": lambda by, table: [by.some(by.key, table) if by.often(0.8) else []], "slice": lambda by, table: by.span(),
    "project": lambda by, table: [by.some(by.name_in, table)], "without": lambda by, table: [by.some(by.name_in, table)],
    "rename": lambda by, table: [by.name_in(table), by.new_name(table)],
    "groupby": lambda by, table: [by.some(by.plain_name_in, table), by.new_name(table)],
    "counts": lambda by, table: [by.some(by.plain_name_in, table), by.new_name(table)],
    "joinprop": lambda by, table: [by.view_name_in(table)], "outerjoinprop": lambda by, table: [by.view_name_in(table)],
    "join": lambda by, *both: [by.some(by.shared_name, *both)], "outerjoin": lambda by, *both: [by.some(by.shared_name, *both)],
    "calc": lambda by, table: [*by.viewer(table), by.new_name(table)], "keep": lambda by, table: by.viewer(table),
}
WEIGHTS = {
    "getas": 3, "drop": 2, "struct": 1, "add": 8, "insert": 2, "set": 7, "remove": 4, "size": 10, "show": 50, "find": 14, "search": 12,
    "locate": 14, "dup": 10,
    "undup": 4, "watch": 9, "unwatch": 3, "hash": 5, "ordered": 7, "unmap": 2, "cursor": 7, "uncursor": 2, "next": 12, "prev": 6, "row": 7, "commit": 3, "log": 1, "rollback": 1, "revert": 0.5,
    "reopen": 0.6, "space": 1,
}


def goes_with(word, props, others):
    """Two tables of these properties are mostly not refused by the operator."""
    if word in SETS:
        return props == others
    return word in ("pair", "product") or bool(set(props) & set(others))


def expression_depth(expression):
    return 1 if isinstance(expression, tuple) else 1 + max(map(expression_depth, expression.bases))


def begun(author):
    """Lines that make the views of a stream: each second one often has the properties of the first, and some of its rows."""
    props, rows = None, []
    for at, name in enumerate(author.chance.sample(VIEW_NAMES, VIEWS)):
        if at % 2 == 0 or author.often(0.2):
            props, rows = author.props(), []
        elif author.often(0.2):
            props, rows = tuple(author.chance.sample(props, len(props))), []
        yield f"getas {structure(name, props)}"
        rows = [row for row in rows if author.often(0.4)]
        rows += [[author.literal(kind) for _, kind in props] for _ in range(author.chance.choice((0, 1, 2, 3, 5, 6, 6)))]
        rows = [row for row in rows for _ in range(1 + author.often(0.2))]
        yield from (f"insert {name} 0 {author.copies} {' '.join(map(spelled, row))}" for row in rows)


def twins(author):
    """Lines after which a view and a snapshot may have one name."""
    name = author.one_of(author.session.views)
    yield "commit"
    yield f"drop {name}"
    yield author.joined(["dup", name, *author.of_expression()])
    yield "rollback"


def mapped(author):
    """Lines that empty a view and map it, and put rows into it and change them."""
    name = author.one_of(author.session.views)
    if name not in author.session.views:
        return
    table = author.session.views[name]
    plain = next((at for at, (_, kind) in enumerate(table.props) if is_view(kind)), len(table.props))
    yield f"remove {name} 0 {len(table.rows)}"
    yield f"{author.chance.choice(('hash', 'ordered'))} {name} {author.chance.randint(1, max(1, min(2, plain)))}"
    for _ in range(author.chance.randint(4, 12)):
        size, row = len(table.rows), author.literals(table.props)
        prop, kind = author.chance.choice(table.props)
        values = [token for value in row for token in literal_tokens(value)]
        yield author.joined(author.chance.choice((
            ["add", name, *values],
            ["insert", name, str(author.chance.randint(0, size)), author.chance.choice("0112"), *values],
            ["set", name, str(author.chance.randint(0, max(0, size - 1))), prop, *literal_tokens(author.literal(kind))],
        )))
        yield f"show {name}"


def stream_lines(author, count):
    """So many lines; views are made anew where few are left."""
    for _ in range(count):
        if len(author.session.views) < VIEWS // 2:
            yield from begun(author)
        yield from twins(author) if author.often(0.01) else mapped(author) if author.often(0.02) else [author.line()]
    if author.often(0.5):
        yield "quit"
