"""Rows as named tuples, and the rows of a query as a sequence."""

from __future__ import annotations

from array import array
from collections import namedtuple
from functools import lru_cache
from typing import TYPE_CHECKING, Any, Callable, Iterator, Sequence, overload

from .literals import numbers_in, rows_reader
from .structures import NUMBERS, Columns, column_of

if TYPE_CHECKING:
    from .store import Store

try:
    import numpy
except ImportError:
    numpy = None  # type: ignore[assignment]

ROWS_AT_ONCE = 1_000
NUMBERS_AT_ONCE = 1 << 16


class Row(tuple):
    """A row: a tuple with its properties as attributes, and by their names in brackets. Views in it are tuples of rows.

    A property whose name is a keyword of Python, or begins with `_`, has no attribute of its name but `_2`, its place: take it by its name in brackets.
    Rows do not change, and an edit of the store does not reach them.

    >>> ann = store.people[0]
    >>> ann.name, ann[0], ann["name"], ann.phones[0].number
    ('Ann', 'Ann', 'Ann', '555-0100')
    >>> ann == ("Ann", (("home", "555-0100"),), 1970)
    True
    >>> store.declare("odd[class:S,_x:I]")
    >>> store.odd.append("first", 7)
    0
    >>> store.odd[0]
    Row(_0='first', _1=7)
    >>> store.odd[0]["class"]
    'first'
    """

    __slots__ = ()
    _columns: Columns
    _places: dict[str, int]

    def __getitem__(self, key: Any) -> Any:
        if isinstance(key, str):
            return tuple.__getitem__(self, self._places[key])
        return tuple.__getitem__(self, key)

    def __reduce__(self) -> Any:
        return row_of, (self._columns, tuple(self))

    if TYPE_CHECKING:
        def __getattr__(self, name: str) -> Any: ...


@lru_cache(maxsize=256)
def row_type(columns: Columns) -> type[Row]:
    """The kind of rows that have these columns."""
    names = [column.name for column in columns]
    members = {"__slots__": (), "_columns": columns, "_places": {name: at for at, name in enumerate(names)}}
    return type("Row", (Row, namedtuple("Row", names, rename=True)), members)


def row_of(columns: Columns, values: Sequence[Any]) -> Row:
    return tuple.__new__(row_type(columns), values)


def maker(columns: Columns) -> Callable[[Sequence[Any]], Row]:
    """Makes rows of these columns from their values."""
    kind = row_type(columns)
    return lambda values: tuple.__new__(kind, values)


def numbers(found: array[int]) -> Any:
    """An array of numbers, as numpy has it where it is there."""
    return found if numpy is None else numpy.array(found, dtype=numpy.int64)


class Rows(Sequence[Row]):
    """The rows of a query, as they were when it was asked, whatever is edited after.

    They are read when they are asked for: up to 1,000 rows all at once, more in pieces of 1,000 as an iteration comes to them. Until then the store keeps them as a
    snapshot under a name of the package's own, which `close` gives up, or the end of the last use of this object. There are at most 64 snapshots at a time,
    with those of `dup`: where they are used up, up to 1,000 rows are read at once, and of more the query is refused as `limit`.

    >>> with store.query("sort(people,-born)") as rows:
    ...     store.people.append("Cy", [], 1990)
    ...     len(rows), rows[0].name, rows[-1].name, [row.born for row in rows[0:2]]
    2
    (2, 'Bob', 'Ann', [1980, 1970])
    """

    def __init__(self, store: Store, columns: Columns, size: int, kept: Kept | None, rows: list[Row] | None = None):
        self._store, self._size, self._kept, self._rows = store, size, kept, rows
        self.columns = columns

    def __enter__(self) -> Rows:
        return self

    def __exit__(self, *_: object) -> None:
        self.close()

    def __len__(self) -> int:
        return self._size

    def __repr__(self) -> str:
        return f"<{self._size} rows of {','.join(map(str, self.columns))}>"

    @overload
    def __getitem__(self, key: int) -> Row: ...
    @overload
    def __getitem__(self, key: slice) -> list[Row]: ...

    def __getitem__(self, key: Any) -> Any:
        """A row, or a list of the rows of a slice."""
        chosen = range(self._size)[key]
        if isinstance(chosen, int):
            return self._read(range(chosen, chosen + 1))[0]
        return [row for piece in pieces(chosen, ROWS_AT_ONCE) for row in self._read(piece)]

    def __iter__(self) -> Iterator[Row]:
        for piece in pieces(range(self._size), ROWS_AT_ONCE):
            yield from self._read(piece)

    def __reversed__(self) -> Iterator[Row]:
        for piece in pieces(range(self._size)[::-1], ROWS_AT_ONCE):
            yield from self._read(piece)

    def __eq__(self, other: object) -> bool:
        """Rows are equal to a sequence of equal rows."""
        if not isinstance(other, (Rows, list, tuple)):
            return NotImplemented
        return len(self) == len(other) and all(one == two for one, two in zip(self, other))

    __hash__ = None  # type: ignore[assignment]

    def column(self, name: str) -> Any:
        """All values of a property: of numbers an `array('q')`, or an array of numpy where it is installed; else a list.

        >>> store.query("people").column("born")
        array('q', [1970, 1980])
        >>> store.query("people").column("name")
        ['Ann', 'Bob']
        """
        column = column_of(self.columns, name)
        if self._held() is not None:
            values = [row[name] for row in self._held() or ()]
            return numbers(array("q", values)) if column.kind in NUMBERS else values
        if column.kind not in NUMBERS:
            return [row[0] for piece in pieces(range(self._size), ROWS_AT_ONCE)
                    for row in self._store._read(f"project({self._source()},{name})", (column,), piece)]
        found = array("q")
        for piece in pieces(range(self._size), NUMBERS_AT_ONCE):
            found.extend(numbers_in(self._store._shown(f"project({self._source()},{name})", piece)))
        return numbers(found)

    def close(self) -> None:
        """Gives up the snapshot: what was not read is gone. It may be called twice."""
        if self._kept:
            self._kept.give_up()

    def _held(self) -> list[Row] | None:
        """The rows, if they are few: they are read whole at the first use."""
        if self._rows is None and self._size <= ROWS_AT_ONCE:
            self._rows = self._store._read(self._source(), self.columns, range(self._size))
            self.close()
        return self._rows

    def _source(self) -> str:
        if self._kept is None or not self._kept.name:
            raise ValueError("these rows were closed before they were read")
        return self._kept.name

    def _read(self, chosen: range) -> list[Row]:
        held = self._held()
        if held is not None:
            return [held[at] for at in chosen]
        return self._store._read(self._source(), self.columns, chosen)


class Kept:
    """A snapshot under a name of the package's own. Its end may come at any moment, so the name is only noted, and given up with the next line."""

    def __init__(self, name: str, given_up: list[str]):
        self.name, self._given_up = name, given_up

    def give_up(self) -> None:
        if self.name:
            self._given_up.append(self.name)
            self.name = ""

    __del__ = give_up


def pieces(chosen: range, most: int) -> Iterator[range]:
    """A range in pieces of at most so many members."""
    return (chosen[at:at + most] for at in range(0, len(chosen), most))


def sliced(expression: str, chosen: range) -> str:
    """The rows at these places, of which there is at least one, in their order."""
    low, high = min(chosen[0], chosen[-1]), max(chosen[0], chosen[-1])
    return f"slice({expression},{low},{high + 1},{chosen.step})"


@lru_cache(maxsize=256)
def reader(columns: Columns) -> Callable[[str], list[Row]]:
    return rows_reader(columns, maker)
