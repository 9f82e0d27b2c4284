"""Values as a line has them: how they are written, and how printed rows are read."""

from __future__ import annotations

import re
from operator import index
from typing import Any, Callable, Iterator, Sequence, Union

from .structures import NUMBERS, VIEW, Columns

Value = Union[int, str, bytes, Sequence[Sequence[Any]]]

LEAST, MOST = -(1 << 63), (1 << 63) - 1
MOST_BRACES = 8
ESCAPE = re.compile(r"\\(.)")
TOKEN = re.compile(r'x?"[^"\\]*(?:\\.[^"\\]*)*"|-?[0-9]+|[(){}]')


def literal(value: Value) -> str:
    """A value as a line or an expression has it. An int, a str, bytes, or rows: a sequence of tuples or lists, of which each has at least one value.

    What no literal can say is a `TypeError` (no kind takes it) or a `ValueError`: a number past 64 bits, a zero byte or a lone surrogate in a text, an empty
    row, views more than 8 deep. Whether a value fits its property is for the store to say.

    >>> print(zugcose.literal('say "hi"'), zugcose.literal([("home", 5), (b"x",)]))
    "say \\"hi\\"" {("home",5),(x"78")}
    >>> [row.name for row in store.query(f"select(people,name={zugcose.literal('Ann')})")]
    ['Ann']
    """
    write = OF_TYPE.get(type(value))
    return write(value) if write else _written(value, 1)


def _written(value: Value, depth: int) -> str:
    for kind, write in OF_TYPE.items():
        if isinstance(value, kind):
            return write(value)
    if isinstance(value, Sequence):
        return _view(value, depth)
    try:
        return _number(index(value))
    except TypeError:
        raise TypeError(f"no kind of the store takes a {type(value).__name__}") from None


def _number(value: int) -> str:
    if not LEAST <= value <= MOST:
        raise ValueError("a number past 64 bits")
    return int.__repr__(value)


def _bytes(value: bytes | bytearray | memoryview) -> str:
    return f'x"{value.hex()}"'


def _text(value: str) -> str:
    if "\0" in value:
        raise ValueError("a text has no zero byte: bytes may have some")
    if "\\" in value or '"' in value or "\n" in value:
        value = value.replace("\\", "\\\\").replace('"', '\\"').replace("\n", "\\n")
    if not value.isascii():
        value.encode()
    return '"' + value + '"'


OF_TYPE: dict[type, Callable[[Any], str]] = {str: _text, int: _number, bytes: _bytes, bytearray: _bytes, memoryview: _bytes}


def _view(rows: Sequence[Sequence[Any]], depth: int) -> str:
    if depth > MOST_BRACES:
        raise ValueError(f"views are at most {MOST_BRACES} deep")
    return "{" + ",".join([_row(row, depth) for row in rows]) + "}"


def _row(row: Sequence[Any], depth: int) -> str:
    if not isinstance(row, (tuple, list)):
        raise TypeError(f"a row is a tuple or a list, not a {type(row).__name__}")
    if not row:
        raise ValueError("a row has at least one value")
    return "(" + ",".join([_written(value, depth + 1) for value in row]) + ")"


# How printed rows are read: cut into tokens, of which each column takes its own.

Make = Callable[[Columns], Callable[[Sequence[Any]], Any]]
Read = Callable[[str, Iterator[str]], Any]


def rows_reader(columns: Columns, make: Make) -> Callable[[str], list[Any]]:
    """Reads the rows that stand in a text one after another, each made of its values by what `make` gives for its columns."""
    read = _rows(columns, make)
    return lambda text: read("{", iter(TOKEN.findall(text)))


def _rows(columns: Columns, make: Make) -> Read:
    """Reads rows up to the brace that closes them, or the end."""
    reads, made = [_reader(column.kind, column.columns, make) for column in columns], make(columns)

    def read(_: str, tokens: Iterator[str]) -> list[Any]:
        found = []
        for token in tokens:
            if token == "}":
                break
            found.append(made([one(next(tokens), tokens) for one in reads]))
            if next(tokens) != ")":
                raise ValueError("a row has other values than its columns say")
        return found

    return read


def _reader(kind: str, columns: Columns, make: Make) -> Read:
    if kind in NUMBERS:
        return lambda token, _: int(token)
    if kind == "S":
        return lambda token, _: text_of(token)
    if kind == "B":
        return lambda token, _: bytes.fromhex(token[2:-1])
    inner = _rows(columns, make)
    return lambda token, tokens: tuple(inner(token, tokens))


def text_of(token: str) -> str:
    """The text between two quotes, with its escapes read."""
    if "\\" not in token:
        return token[1:-1]
    return ESCAPE.sub(lambda found: "\n" if found[1] == "n" else found[1], token[1:-1])


def numbers_in(text: str) -> Iterator[int]:
    """The numbers of printed rows that have one each."""
    return map(int, text[1:-1].split(")\n("))
