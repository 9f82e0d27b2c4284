"""The columns of an expression's rows, by the rules of docs/EXPRESSIONS.md.

The store says rows without their columns, so their names are found here. Only expressions that the store has taken are looked at, so nothing is refused.
"""

from __future__ import annotations

import re
from typing import Callable, Iterable, Mapping

from .structures import VIEW, Column, Columns, column_of

TOKEN = re.compile(r'x?"[^"\\]*(?:\\.[^"\\]*)*"|[A-Za-z0-9_]+|[-(){},:/=]')

Work = Callable[..., Columns]


def named(columns: Columns, names: Iterable[str]) -> Columns:
    """The columns of these names, in their order, each once."""
    return tuple(column_of(columns, name) for name in dict.fromkeys(names))


def others(columns: Columns, names: Iterable[str]) -> Columns:
    left_out = set(names)
    return tuple(column for column in columns if column.name not in left_out)


def same(columns: Columns, *_: str) -> Columns:
    return columns


def first(columns: Columns, _: Columns, *__: str) -> Columns:
    return columns


def beside(columns: Columns, more: Columns, *_: str) -> Columns:
    """The second's columns stand behind the first's, but for those whose names the first has."""
    return columns + others(more, (column.name for column in columns))


def project(columns: Columns, *names: str) -> Columns:
    return named(columns, names)


def without(columns: Columns, *names: str) -> Columns:
    return others(columns, names)


def rename(columns: Columns, old: str, new: str) -> Columns:
    return tuple(column._replace(name=new) if column.name == old else column for column in columns)


def group(columns: Columns, *given: str) -> Columns:
    keys, new = given[:-2], given[-1]
    return named(columns, keys) + (Column(new, VIEW, others(columns, keys)),)


def counts(columns: Columns, *given: str) -> Columns:
    return named(columns, given[:-2]) + (Column(given[-1], "I"),)


def calc(columns: Columns, *given: str) -> Columns:
    return columns + (Column(given[-1], "L"),)


def unnested(columns: Columns, view: str) -> Columns:
    return beside(others(columns, [view]), column_of(columns, view).columns)


OF_ONE: Mapping[str, Work] = {
    **dict.fromkeys(("select", "range", "sort", "slice", "unique", "keep"), same),
    "project": project, "without": without, "rename": rename, "groupby": group, "counts": counts, "calc": calc,
    "joinprop": unnested, "outerjoinprop": unnested,
}
OF_TWO: Mapping[str, Work] = {
    **dict.fromkeys(("concat", "union", "intersect", "minus", "different"), first),
    **dict.fromkeys(("pair", "product", "join", "outerjoin"), beside),
}


def columns_of(expression: str, there: Callable[[str], Columns]) -> Columns:
    """The columns of an expression, where `there` gives those of a name.

    >>> from zugcose.structures import structure
    >>> people = structure("people[name:S,phones[kind:S,number:S],born:I]").columns
    >>> [column.name for column in columns_of("joinprop(people,phones)", lambda name: people)]
    ['name', 'born', 'kind', 'number']
    """
    return _Reader(TOKEN.findall(expression), there).expression()


class _Reader:
    def __init__(self, tokens: list[str], there: Callable[[str], Columns]):
        self.tokens, self.there, self.at = tokens + ["", ""], there, 0

    def take(self) -> str:
        self.at += 1
        return self.tokens[self.at - 1]

    def expression(self) -> Columns:
        word = self.take()
        if self.tokens[self.at] != "(":
            return self.path(word)
        self.take()
        tables = [self.expression()]
        if word in OF_TWO:
            self.take()
            tables.append(self.expression())
        return (OF_ONE.get(word) or OF_TWO[word])(*tables, *self.given())

    def path(self, name: str) -> Columns:
        columns = self.there(name)
        while self.tokens[self.at] == "/":
            self.at += 3
            columns = column_of(columns, self.take()).columns
        return columns

    def given(self) -> list[str]:
        """What stands behind the tables, without commas, up to the parenthesis that ends the operator."""
        found, deep = [], 0
        while (token := self.take()) != ")" or deep:
            deep += (token in "({") - (token in ")}")
            if token != ",":
                found.append(token)
        return found
