"""Structures: the properties of a view, each with a name and a kind."""

from __future__ import annotations

import re
from typing import Iterator, NamedTuple, Tuple

VIEW = "view"
NUMBERS = ("I", "L")
TOKEN = re.compile(r"[A-Za-z0-9_]+|[\[\]:,]")


class Column(NamedTuple):
    """A property: its name, its kind (`I`, `L`, `S`, `B` or `view`), and the columns of the views that it holds."""

    name: str
    kind: str
    columns: Tuple["Column", ...] = ()

    def __str__(self) -> str:
        return spelled(self.name, self.columns) if self.kind == VIEW else f"{self.name}:{self.kind}"


Columns = Tuple[Column, ...]


class Structure(NamedTuple):
    """A view's name and its columns. As a text it is what `declare` takes.

    >>> people = store.struct()["people"]
    >>> print(people)
    people[name:S,phones[kind:S,number:S],born:I]
    >>> [column.name for column in people.columns], people.columns[1].kind
    (['name', 'phones', 'born'], 'view')
    """

    name: str
    columns: Columns

    def __str__(self) -> str:
        return spelled(self.name, self.columns)


def spelled(name: str, columns: Columns) -> str:
    return f"{name}[{','.join(map(str, columns))}]"


def structure(text: str) -> Structure:
    """The structure that a text of the store spells.

    >>> structure("people[name:S,born:I]").columns
    (Column(name='name', kind='S', columns=()), Column(name='born', kind='I', columns=()))
    """
    tokens = iter(TOKEN.findall(text))
    name = next(tokens)
    next(tokens)
    return Structure(name, _columns(tokens))


def _columns(tokens: Iterator[str]) -> Columns:
    """The columns up to the bracket that closes them; the one that opens them was read."""
    found, sign = [], ","
    while sign == ",":
        name, sign = next(tokens), next(tokens)
        found.append(Column(name, VIEW, _columns(tokens)) if sign == "[" else Column(name, next(tokens)))
        sign = next(tokens)
    return tuple(found)


def column_of(columns: Columns, name: str) -> Column:
    """The column of this name."""
    for column in columns:
        if column.name == name:
            return column
    raise KeyError(name)
