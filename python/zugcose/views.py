"""A view of a store: its rows as they are now, and edits."""

from __future__ import annotations

import re
from operator import index
from typing import TYPE_CHECKING, Any, Iterable, Iterator, Mapping, Sequence, overload

from .errors import refused
from .literals import Value, literal
from .rows import ROWS_AT_ONCE, Row, Rows, pieces
from .session import encoded
from .structures import Columns

if TYPE_CHECKING:
    from .store import Store

BYTES_AT_ONCE = 1 << 16
MOST_ROWS = 1 << 24
NAME = re.compile(r"[A-Za-z_][A-Za-z0-9_]*")
PATH = re.compile(r"[A-Za-z_][A-Za-z0-9_]*(/[0-9]+/[A-Za-z_][A-Za-z0-9_]*)*")


class View:
    """A view, or a view inside a row, by its path. It has no rows of its own: each use asks the store.

    Rows count from 0. A negative number counts from the end where rows are read, but not in an edit.

    >>> people = store.people
    >>> len(people), people[0].name, people[-1].name, [row.born for row in people[0:2]]
    (2, 'Ann', 'Bob', [1970, 1980])
    >>> for phone in store.view("people/0/phones"):
    ...     print(phone.kind, phone.number)
    home 555-0100
    """

    def __init__(self, store: Store, path: str):
        if not PATH.fullmatch(path):
            raise ValueError(f"{path!r} is no path: it is a name, and steps /ROW/PROPERTY")
        self._store, self.path = store, path

    def __repr__(self) -> str:
        return f"<view {self.path}>"

    # Reading.

    @property
    def columns(self) -> Columns:
        """Its properties.

        >>> [(column.name, column.kind) for column in store.people.columns]
        [('name', 'S'), ('phones', 'view'), ('born', 'I')]
        """
        return self._store._names.columns(self.path)

    def __len__(self) -> int:
        return self._store.size(self.path)

    @overload
    def __getitem__(self, key: int) -> Row: ...
    @overload
    def __getitem__(self, key: slice) -> list[Row]: ...

    def __getitem__(self, key: Any) -> Any:
        """A row, or a list of the rows of a slice."""
        if isinstance(key, slice):
            chosen = range(len(self))[key]
            return [row for piece in pieces(chosen, ROWS_AT_ONCE) for row in self._store._read(self.path, None, piece)]
        at = key if 0 <= key < MOST_ROWS else range(len(self))[key]
        found = self._store._read(self.path, None, range(at, at + 1))
        if not found:
            raise IndexError(f"{self.path} has no row {key}")
        return found[0]

    def __iter__(self) -> Iterator[Row]:
        """The rows as they are when the iteration begins; edits meanwhile do not change them."""
        return iter(self.rows())

    def rows(self) -> Rows:
        """The rows as they are now, to be kept.

        >>> before = store.people.rows()
        >>> store.people.remove(0)
        1
        >>> len(before), before[0].name
        (2, 'Ann')
        """
        return self._store.query(self.path)

    def column(self, name: str) -> Any:
        """All values of a property, as `Rows.column` gives them.

        >>> store.people.column("born")
        array('q', [1970, 1980])
        """
        return self.rows().column(name)

    def find(self, criteria: Mapping[str, Value], start: int = 0) -> int | None:
        """The first row from `start` on with these values, or None.

        >>> store.people.find({"name": "Bob"}), store.people.find({"name": "Cy"})
        (1, None)
        """
        return self._store.find(self.path, criteria, start)

    # Edits.

    def append(self, *values: Value) -> int:
        """Adds a row at the end, and gives its place. Missing values at the end are defaults: 0, empty, no rows.

        >>> store.people.append("Cy", [("cell", "555-0199")])
        2
        >>> store.people[2]
        Row(name='Cy', phones=(Row(kind='cell', number='555-0199'),), born=0)
        """
        return int(self._store._ask(self._adding(values)))

    def extend(self, rows: Iterable[Sequence[Value]]) -> int:
        """Adds many rows at the end, and gives how many. Lines are sent ahead of their replies, some 64 KiB at a time.

        Where a row is refused, the rows before it are added and none from it on; `row` of the exception is its place among those given. So it is too where
        the rows themselves raise an exception, or a value is none of the store's. (Under a mapping each row is sent by itself.)

        >>> store.people.extend([("Cy", [], 1990), ("Di",)])
        2
        >>> try:
        ...     store.people.extend([("Ed",), (1, "wrong"), ("Flo",)])
        ... except zugcose.Refused as refused:
        ...     print(refused.word, refused.row, store.people.column("name"))
        kind 1 ['Ann', 'Bob', 'Cy', 'Di', 'Ed']
        """
        added = 0
        for lines, failure in self._batches(rows):
            self._add_all(lines, added)
            added += len(lines)
            if failure:
                raise failure
        return added

    def insert(self, at: int, *values: Value, count: int = 1) -> int:
        """Puts `count` equal rows before row `at`, and gives how many rows there are then.

        >>> store.people.insert(0, "Di", count=2)
        4
        >>> store.people.column("name")
        ['Di', 'Di', 'Ann', 'Bob']
        """
        return int(self._store._ask(spaced("insert", self.path, place(at), place(count), *map(literal, values))))

    def set(self, row: int, name: str, value: Value) -> None:
        """Changes one value: that of the property of this name in a row.

        >>> store.people.set(0, "born", 1971)
        >>> store.people[0].born
        1971
        """
        self._store._ask(spaced("set", self.path, place(row), checked(name), literal(value)))

    def remove(self, at: int, count: int = 1) -> int:
        """Removes rows from row `at` on, and gives how many are left.

        >>> store.people.remove(1)
        1
        """
        return int(self._store._ask(spaced("remove", self.path, place(at), place(count))))

    def _adding(self, values: Sequence[Value]) -> str:
        return " ".join(["add", self.path, *map(literal, values)])

    def _batches(self, rows: Iterable[Sequence[Value]]) -> Iterator[tuple[list[bytes], Exception | None]]:
        """The lines that add the rows, some at a time, and with the last of them what went wrong in making the next."""
        most = 0 if self._store._names.is_mapped(self.path) else BYTES_AT_ONCE
        lines, size = [], 0
        try:
            for row in rows:
                if not isinstance(row, (tuple, list)):
                    raise TypeError(f"a row is a tuple or a list, not a {type(row).__name__}")
                lines.append(encoded(self._adding(row)))
                size += len(lines[-1])
                if size >= most:
                    yield lines, None
                    lines, size = [], 0
        except Exception as failure:
            yield lines, failure
            return
        yield lines, None

    def _add_all(self, lines: list[bytes], before: int) -> None:
        """Asks the lines, with so many rows added before. Where one is refused, what those behind it added is removed."""
        replies = self._store._session.exchange(lines)
        for at, reply in enumerate(replies):
            if reply.startswith("err "):
                behind = [int(reply[3:]) for reply in replies[at:] if reply.startswith("ok ")]
                if behind:
                    self.remove(behind[0], len(behind))
                error = refused(reply, lines[at].decode())
                error.row = before + at
                raise error


def spaced(*parts: object) -> str:
    return " ".join(map(str, parts))


def place(number: int) -> int:
    """A number of rows or of a row, which has no sign in a line."""
    number = index(number)
    if not 0 <= number < 1 << 63:
        raise ValueError(f"{number} is no number of a row: they count from 0")
    return number


def checked(name: str) -> str:
    """A name, so that it is one word of its line."""
    if not NAME.fullmatch(name):
        raise ValueError(f"{name!r} is no name: ASCII letters, digits and _, not beginning with a digit")
    return name
