#!/usr/bin/env python3
"""Reads and writes streams, in which `mkshell --save` gives a store and `mkshell --load` takes one. docs/STREAM_FORMAT.md has the form.

    examples/streams.py PROGRAM FILE                shows the rows of the store in FILE
    examples/streams.py PROGRAM FILE STRUCTURE      makes a store in FILE of the rows of a CSV that comes as input

A program that hands rows over needs `write` alone: `STRUCTURE` is a text such as `people[name:S,age:I]`, and each row of the CSV has a value for each property.
"""

import csv
import re
import subprocess
import sys
from dataclasses import dataclass

SIGNATURE = b"MKST\1\0\0\0"
MOST_VIEWS, MOST_STRUCTURE, MOST_ROWS, MOST_BYTES, MOST_PROPERTIES, MOST_DEPTH = 1_024, 1_048_576, 16_777_216, 262_144, 64, 8
NAME = re.compile(rb"[A-Za-z_][A-Za-z0-9_]{0,30}(?![A-Za-z0-9_])")
PLAIN = re.compile(rb":([ILSB])")
MADE_BY = {"I": int, "L": int, "S": str, "B": bytes.fromhex}


class BadStream(Exception):
    """The bytes are no stream: the field at this place is the first that is not as required, or that they end within."""

    def __init__(self, at):
        super().__init__(f"no stream: byte {at}")
        self.at = at


@dataclass
class View:
    """A named view: `kinds` has for each property `I`, `L`, `S` or `B`, or a list of kinds for the rows inside it."""

    structure: str
    kinds: list
    rows: list

    @property
    def name(self):
        return self.structure.partition("[")[0]


# Structures.


class NoStructure(Exception):
    """The text is no structure."""


def kinds_of(text):
    """The kinds of a structure text's properties."""
    end = name_end(text, 0)
    kinds, end = kinds_at(text, end, MOST_DEPTH)
    if end != len(text):
        raise NoStructure
    return kinds


def name_end(text, at):
    found = NAME.match(text, at)
    if not found:
        raise NoStructure
    return found.end()


def kinds_at(text, at, depth):
    """The kinds in the brackets that open at a place, and the place behind them."""
    if text[at:at + 1] != b"[" or depth == 0:
        raise NoStructure
    kinds, names = [], set()
    while text[at:at + 1] in (b"[", b",") and len(kinds) < MOST_PROPERTIES:
        end = name_end(text, at + 1)
        names.add(text[at + 1:end])
        plain = PLAIN.match(text, end)
        kind, at = (plain[1].decode(), plain.end()) if plain else kinds_at(text, end, depth - 1)
        kinds.append(kind)
        if text[at:at + 1] == b"[":
            raise NoStructure
    if text[at:at + 1] != b"]" or len(names) != len(kinds):
        raise NoStructure
    return kinds, at + 1


# Reading.


class Reader:
    """Reads a stream field by field."""

    def __init__(self, stream):
        self.stream, self.at = stream, 0

    def field(self, length):
        if len(self.stream) - self.at < length:
            raise BadStream(self.at)
        self.at += length
        return self.stream[self.at - length:self.at]

    def number(self, most):
        number = int.from_bytes(self.field(4), "little")
        if number > most:
            raise BadStream(self.at - 4)
        return number

    def signed(self, length):
        return int.from_bytes(self.field(length), "little", signed=True)

    def text(self):
        content = self.field(self.number(MOST_BYTES))
        try:
            if 0 in content:
                raise BadStream(self.at - len(content))
            return content.decode()
        except UnicodeDecodeError:
            raise BadStream(self.at - len(content)) from None

    def value(self, kind):
        if isinstance(kind, list):
            return self.rows(kind)
        if kind == "S":
            return self.text()
        if kind == "B":
            return self.field(self.number(MOST_BYTES))
        return self.signed(4 if kind == "I" else 8)

    def rows(self, kinds):
        return [tuple(self.value(kind) for kind in kinds) for _ in range(self.number(MOST_ROWS))]

    def view(self, names):
        length = self.number(MOST_STRUCTURE)
        text = self.field(length)
        try:
            kinds = kinds_of(text)
        except NoStructure:
            raise BadStream(self.at - length) from None
        view = View(text.decode(), kinds, [])
        if view.name in names:
            raise BadStream(self.at - length)
        names.add(view.name)
        view.rows = self.rows(kinds)
        return view


def read(stream):
    """The views of a stream."""
    reader = Reader(stream)
    if reader.field(len(SIGNATURE)) != SIGNATURE:
        raise BadStream(0)
    names = set()
    views = [reader.view(names) for _ in range(reader.number(MOST_VIEWS))]
    if reader.at < len(stream):
        raise BadStream(reader.at)
    return views


# Writing.


def number(value):
    return value.to_bytes(4, "little")


def counted(content):
    return number(len(content)) + content


def value_bytes(value, kind):
    if isinstance(kind, list):
        return rows_bytes(value, kind)
    if kind == "S":
        return counted(value.encode())
    if kind == "B":
        return counted(value)
    return value.to_bytes(4 if kind == "I" else 8, "little", signed=True)


def rows_bytes(rows, kinds):
    return number(len(rows)) + b"".join(value_bytes(value, kind) for row in rows for value, kind in zip(row, kinds))


def write(views):
    """The stream of views."""
    return SIGNATURE + number(len(views)) + b"".join(counted(view.structure.encode()) + rows_bytes(view.rows, view.kinds) for view in views)


# The program.


def from_csv(structure, lines):
    """A view of the rows of a CSV, which has no rows inside rows: each value by the kind of its property."""
    kinds = kinds_of(structure.encode())
    return View(structure, kinds, list(csv_rows(csv.reader(lines), kinds)))


def csv_rows(reader, kinds):
    """The rows of a CSV, of which each has a value for each property. Blank lines are passed over."""
    for row in filter(None, reader):
        if len(row) != len(kinds):
            sys.exit(f"line {reader.line_num} has {len(row)} values, not {len(kinds)}")
        yield tuple(MADE_BY[kind](value) for value, kind in zip(row, kinds))


def main():
    program, file, *structures = sys.argv[1:]
    if structures:
        stream = write([from_csv(structure, sys.stdin) for structure in structures])
        sys.exit(subprocess.run([program, "--load", file], input=stream).returncode)
    saved = subprocess.run([program, "--save", file], stdout=subprocess.PIPE)
    if saved.returncode != 0:
        sys.exit(saved.returncode)
    for view in read(saved.stdout):
        print(view.structure)
        for row in view.rows:
            print(" ", row)


if __name__ == "__main__":
    main()
