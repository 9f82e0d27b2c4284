"""What a session answers: what tests/tables knows of views and commits, with expressions, questions, snapshots, watches, cursors and views kept by
key."""

from collections import ChainMap, Counter
from dataclasses import dataclass, field

from plain import tables
from plain.keyed import Keyed
from plain.operators import OPERATORS, TOLD, Expression, Unfit, check_values, has, place, rows_of, sort_keys, sortable
from plain.reading import COMMANDS, RUN, read_line

Model, Refused, spelled_row = tables.Model, tables.Refused, tables.spelled_row

MOST_VIEWS, MOST_SNAPSHOTS, MOST_CURSORS, MOST_WATCHES, MOST_CHAIN = 1_024, 64, 64, 64, 4


@dataclass
class Cursor:
    """A place over the view, the snapshot or the watch of this name."""

    standing: str
    name: str
    at: int = 0


def command_of(line):
    """The command that a line begins with, also one that is refused in reading."""
    first = RUN.match(line.lstrip(b" "))
    return first[0].decode() if first and first[0].decode() in COMMANDS else "no command"


@dataclass
class Session(Keyed):
    """What `tests/tables` knows of views and commits, with snapshots, watches, cursors and questions. A watch is an operator of a name, and
    is asked anew each time."""

    snapshots: dict = field(default_factory=dict)
    watches: dict = field(default_factory=dict)
    cursors: dict = field(default_factory=dict)
    only_reads: bool = False
    came: Counter = field(default_factory=Counter)

    def start(self, only_reads=False):
        """A run begins on the file as it stands."""
        self.rollback()
        self.snapshots, self.only_reads = {}, only_reads
        return f"ok mkshell {self.kept.number}"

    def answer(self, line):
        """The reply to a line, or none."""
        try:
            read = read_line(line)
            if read is None:
                return None
            word, given = read
            said = getattr(self, word)(*given)
        except Refused as refused:
            self.came[f"{command_of(line)}: {str(refused).split()[1]}"] += 1
            return f"err {refused}"
        self.came[word] += 1
        return f"ok {said}" if said else "ok"

    # Expressions.

    def value(self, expression):
        """The table of an expression."""
        if isinstance(expression, tuple):
            if self.is_watch(expression):
                return self.shown(self.watches[expression[0]])
            named = Model(self.kept, self.file, views=ChainMap(self.views, self.snapshots))
            table = named.table(expression)
            return table.props, rows_of(table)
        return self.applied(expression.word, [self.value(base) for base in expression.bases], expression.given)

    def is_watch(self, path):
        """The path is the name of a watch."""
        name, *steps = path
        return not steps and name in self.watches and name not in self.views and name not in self.snapshots

    def shown(self, watched):
        """The table of what is watched: the operator of the table of its source."""
        (source,), = watched.bases
        base = self.shown(self.watches[source]) if source in self.watches else self.value((source,))
        return OPERATORS[watched.word].work(base, *watched.given)

    def applied(self, word, bases, given):
        try:
            found = OPERATORS[word].work(*bases, *given)
        except Unfit as unfit:
            self.came[f"{word}: {unfit}"] += 1
            raise Refused(TOLD[str(unfit)].format(len(bases[0][1])))
        self.came[f"{word}()"] += 1
        return found

    def size(self, expression):
        return str(len(self.value(expression)[1]))

    def show(self, expression):
        rows = self.value(expression)[1]
        return "\n".join([str(len(rows)), *map(spelled_row, rows)])

    # Questions.

    def asked(self, expression, criteria):
        """The table, where its properties can have these values."""
        table = self.value(expression)
        try:
            check_values(table[0], criteria)
        except Unfit as unfit:
            raise Refused(TOLD[str(unfit)])
        return table

    def find(self, expression, start, criteria):
        props, rows = self.asked(expression, criteria)
        if start > len(rows):
            raise Refused(f"5 range {len(rows)}")
        return next((str(at) for at in range(start, len(rows)) if has(props, rows[at], criteria)), "none")

    def in_order(self, expression, criteria):
        """How many rows come before the values, and how many have them, in the order of a sorting whose first keys these are."""
        props, rows = self.asked(expression, criteria)
        if isinstance(expression, tuple) and self.is_watch(expression):
            expression = self.watches[expression[0]]
        keys = self.known_keys(props, expression)[:len(criteria)]
        if [name for name, _ in keys] != [name for name, _ in criteria]:
            raise Refused("18 unsorted")

        def comes_before(row):
            for (name, down), (_, value) in zip(keys, criteria):
                one, other = sortable(row[place(props, name)]), sortable(value)
                if one != other:
                    return one > other if down else one < other
            return False

        return sum(map(comes_before, rows)), sum(has(props, row, criteria) for row in rows)

    def known_keys(self, props, expression):
        """The keys by which the table is known to be sorted: those of a sorting, or the key of a view that is kept in order."""
        if isinstance(expression, Expression):
            return sort_keys(props, expression.given[0]) if expression.word == "sort" else []
        mapping = self.mapping_on(expression)
        return [(name, False) for name, _ in props[:mapping.count]] if mapping and mapping.in_order else []

    def search(self, expression, criteria):
        return str(self.in_order(expression, criteria)[0])

    def locate(self, expression, criteria):
        return "{} {}".format(*self.in_order(expression, criteria))

    # Snapshots, watches and cursors. Views come before snapshots of their name, which they may have after a rollback.

    def is_beside_views(self, name):
        return name in self.snapshots or name in self.cursors or name in self.watches

    def check_new(self, name, there, most):
        if name in self.views or self.is_beside_views(name):
            raise Refused("4 exists")
        if len(there) >= most:
            raise Refused("8 limit")

    def check_free(self, standing, name):
        """No cursor stands on the view, the snapshot or the watch, no watch stands over the view or the watch, and the view has no mapping."""
        if any(cursor.standing == standing and cursor.name == name for cursor in self.cursors.values()):
            raise Refused("16 inuse")
        if standing == "view" and name in self.mappings:
            raise Refused("16 inuse")
        if standing != "snapshot" and any((name,) in watched.bases for watched in self.watches.values()):
            raise Refused("16 inuse")

    def dup(self, new, expression):
        props, rows = self.value(expression)
        self.check_new(new, self.snapshots, MOST_SNAPSHOTS)
        self.snapshots[new] = tables.made(rows, props)
        return str(len(rows))

    def undup(self, name):
        if name not in self.snapshots:
            raise Refused("3 noname")
        self.check_free("snapshot", name)
        del self.snapshots[name]
        return ""

    def watch(self, new, operation):
        (source,), = operation.bases
        if source not in self.views and source not in self.watches:
            raise Refused("3 noname")
        told, rows = None, []
        try:
            rows = self.shown(operation)[1]
        except Unfit as unfit:
            told = TOLD[str(unfit)]
        if told == "3 noname":
            raise Refused(told)
        if new in self.views or self.is_beside_views(new):
            raise Refused("4 exists")
        if told and told != "8 limit":
            raise Refused(told)
        if not self.may_stand(operation.word, source):
            raise Refused("7 kind")
        if told or self.chain(operation) > MOST_CHAIN or len(self.watches) >= MOST_WATCHES:
            raise Refused("8 limit")
        self.watches[new] = operation
        return str(len(rows))

    def may_stand(self, word, source):
        """Counts stand over anything but counts, and any other watch over neither counts nor a filter."""
        below = self.watches[source].word if source in self.watches else None
        return below != "counts" and (below != "keep" or word == "counts")

    def chain(self, operation):
        """How many operators are watched over one another, this one among them."""
        (source,), = operation.bases
        return 1 + (self.chain(self.watches[source]) if source in self.watches else 0)

    def unwatch(self, name):
        if name not in self.watches:
            raise Refused("3 noname")
        self.check_free("watch", name)
        del self.watches[name]
        return ""

    def cursor(self, new, name):
        standing = next((standing for standing, there in self.stood_on().items() if name in there), None)
        if standing is None:
            raise Refused("3 noname")
        self.check_new(new, self.cursors, MOST_CURSORS)
        self.cursors[new] = Cursor(standing, name)
        return "0"

    def stood_on(self):
        """What a cursor may stand on; of a name the first decides."""
        return {"view": self.views, "snapshot": self.snapshots, "watch": self.watches}

    def cursor_named(self, name):
        """The cursor, and the rows that it stands over."""
        if name not in self.cursors:
            raise Refused("3 noname")
        cursor = self.cursors[name]
        found = self.stood_on()[cursor.standing][cursor.name]
        return cursor, self.shown(found)[1] if cursor.standing == "watch" else rows_of(found)

    def uncursor(self, name):
        self.cursor_named(name)
        del self.cursors[name]
        return ""

    def next(self, name):
        cursor, rows = self.cursor_named(name)
        if cursor.at >= len(rows):
            raise Refused(f"5 range {len(rows)}")
        cursor.at += 1
        return str(cursor.at)

    def prev(self, name):
        cursor, rows = self.cursor_named(name)
        if cursor.at == 0:
            raise Refused(f"5 range {len(rows)}")
        cursor.at -= 1
        return str(cursor.at)

    def row(self, name):
        cursor, rows = self.cursor_named(name)
        if cursor.at >= len(rows):
            raise Refused(f"5 range {len(rows)}")
        return spelled_row(rows[cursor.at])

    # What these change of the commands on views.

    def getas(self, name, props):
        if self.is_beside_views(name):
            raise Refused("4 exists")
        if name not in self.views and len(self.views) == MOST_VIEWS:
            raise Refused("8 limit")
        if name in self.views and self.views[name].props != props:
            self.check_free("view", name)
        return super().getas(name, props)

    def drop(self, name):
        if name in self.views:
            self.check_free("view", name)
        return super().drop(name)

    def commit(self, note):
        if self.only_reads:
            raise Refused("14 readonly")
        return super().commit(note)

    def rollback(self):
        self.cursors, self.watches, self.mappings = {}, {}, {}
        return super().rollback()

    def reopen(self):
        self.cursors, self.watches, self.mappings = {}, {}, {}
        return super().reopen()

    def revert(self):
        said = super().revert()
        self.cursors, self.watches, self.mappings = {}, {}, {}
        return said

    def quit(self):
        return "quit"
