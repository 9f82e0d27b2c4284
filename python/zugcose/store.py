"""An open store.

The examples here run on a new store `store`, in which `people` has two rows:

    people[name:S,phones[kind:S,number:S],born:I]
    ("Ann",{("home","555-0100")},1970)
    ("Bob",{},1980)
"""

from __future__ import annotations

import os
from itertools import count
from secrets import token_hex
from typing import Any, Iterator, Mapping, NamedTuple, Union

from .child import Child, Word, program
from .errors import LimitRefused, Refused, refused
from .literals import Value, literal, text_of
from .names import Names
from .rows import ROWS_AT_ONCE, Kept, Row, Rows, reader, sliced
from .session import Session
from .structures import Columns, Structure
from .transport import Transport
from .views import View, checked, place, spaced


class Note(NamedTuple):
    """A note of the log: the number of its commit, and its text."""

    number: int
    text: str


class Space(NamedTuple):
    """The last commit, the end of the used part of the file, and how many bytes of it are in use."""

    number: int
    end: int
    used: int


def open(path: Union[str, bytes, "os.PathLike[Any]"], *, mkshell: Word | None = None, read_only: bool = False, cap: int | None = None,
         aside: Union[str, bytes, "os.PathLike[Any]", None] = None, extend: bool = False) -> Store:
    """Opens a store, which is made if the file is absent or empty.

    The program `mkshell` is the argument, or else the environment's ZUGCOSE_MKSHELL, or that on the PATH. With `read_only` commits are refused, and others may
    read at the same time. No commit makes the file end past `cap` bytes. `aside` is a base that is served and never written: commits go to `path`. With `extend`
    commits go after the used part of the file. A file that is not served raises a kind of `NotServed`, and is as it was.

    >>> with zugcose.open("people.mk") as store:
    ...     store.declare("people[name:S,born:I]")
    ...     store.people.append("Ann", 1970)
    ...     store.commit("first people")
    0
    1
    >>> with zugcose.open("people.mk", read_only=True) as store:
    ...     print(store.number, store.people[0])
    1 Row(name='Ann', born=1970)
    """
    words: list[Word] = [program(mkshell)]
    words += ["--read"] * read_only + ["--extend"] * extend
    words += [] if cap is None else ["--cap", str(cap)]
    words += [] if aside is None else ["--aside", os.fspath(aside)]
    return Store(Child([*words, "--", os.fspath(path)]))


class Store:
    """A store that is open, from the greeting on. A view is an attribute, or where a method has its name, an item: `store.people`, `store["log"]`.

    Only `commit` writes the file. The end of a `with`, by an exception or without one, closes the store, and what was not committed is gone.

    It belongs to the thread that opened it: another one, or a process that was forked, is refused as `WrongThread`.

    >>> store.people[0].name, store["people"][0].name, "people" in store, list(store)
    ('Ann', 'Ann', True, ['people'])
    """

    def __init__(self, transport: Transport):
        self._session = Session(transport)
        self._names = Names(self._session)
        self._hidden = (f"_{begin}_{number}" for begin in [token_hex(8)] for number in count())
        self.number = transport.number
        """The last commit that is known: that of the greeting, and then that of the last `commit` or `reopen`."""

    def __enter__(self) -> Store:
        return self

    def __exit__(self, *_: object) -> None:
        self.close()

    def close(self) -> int:
        """Ends the session, and gives the program's status, which is 0 where all went well. It may be called twice."""
        return self._session.close()

    # Lines.

    def ask(self, line: str) -> str:
        """Carries out one line of docs/SHELL.md, and gives what stands behind `ok`. Lists have their lines behind it: cut them at newlines alone, by `split`.

        >>> store.ask("size people")
        '2'
        >>> store.ask("show project(people,name)").split("\\n")
        ['2', '("Ann")', '("Bob")']
        """
        if not line.strip(" "):
            return ""
        said = self._ask(line)
        self._names.note(line)
        if said.startswith(("commit ", "reopen ")):
            self.number = _number(said)
        elif said == "quit":
            self.close()
        return said

    def _ask(self, line: str) -> str:
        return self._session.ask(line)

    # Views.

    def view(self, path: str) -> View:
        """A view by its path, which may lead into rows; also a snapshot or a watch, to be read.

        >>> store.view("people/0/phones").append("cell", "555-0199")
        1
        """
        return View(self, path)

    def __getitem__(self, name: str) -> View:
        if name not in self:
            raise KeyError(name)
        return View(self, name)

    def __getattr__(self, name: str) -> View:
        if name.startswith("_") or name not in self:
            raise AttributeError(f"there is no view and no method {name}")
        return View(self, name)

    def __contains__(self, name: object) -> bool:
        return name in self._names.views()

    def __iter__(self) -> Iterator[str]:
        return iter(self.struct())

    def declare(self, structure: str | Structure) -> None:
        """Makes a view of this structure after all others, or restructures it in place: what fits is kept (docs/TABLES.md).

        >>> store.declare("people[name:S,born:L,note:S]")
        >>> store.people[0]
        Row(name='Ann', born=1970, note='')
        """
        self.ask(f"getas {structure}")

    def drop(self, name: str) -> None:
        """Removes a view.

        >>> store.drop("people")
        >>> list(store)
        []
        """
        self.ask(spaced("drop", checked(name)))

    def struct(self) -> dict[str, Structure]:
        """The structures of all views by their names, the oldest first.

        >>> print(*store.struct().values())
        people[name:S,phones[kind:S,number:S],born:I]
        """
        return dict(self._names.views())

    # Questions.

    def query(self, expression: str) -> Rows:
        """The rows of an expression (docs/EXPRESSIONS.md), as they are now: `Rows` says how they are kept and read.

        >>> for row in store.query("sort(select(people,born=1970),name)"):
        ...     print(row.name, row.phones[0].number)
        Ann 555-0100
        """
        name = next(self._hidden)
        try:
            size = int(self._ask(f"dup {name} {expression}"))
        except LimitRefused:
            return self._query_at_once(expression)
        except Refused as error:
            raise _as_shown(error, f"dup {name} ", expression) from None
        kept = Kept(name, self._session.given_up)
        return Rows(self, self._names.columns(expression), size, kept)

    def _query_at_once(self, expression: str) -> Rows:
        """The rows of an expression if they are few, where no snapshot is to be had."""
        size = self.size(expression)
        if size > ROWS_AT_ONCE:
            raise refused("err 8 limit", f"dup of {size} rows: close a result, or undup a snapshot")
        columns = self._names.columns(expression)
        return Rows(self, columns, size, None, self._rows(f"show {expression}", columns))

    def _rows(self, line: str, columns: Columns | None) -> list[Row]:
        text = self._ask(line).partition("\n")[2]
        return reader(columns)(text)

    def _read(self, expression: str, columns: Columns | None, chosen: range) -> list[Row]:
        """The rows of an expression at these places."""
        if not chosen:
            return []
        text = self._shown(expression, chosen)
        return reader(self._names.columns(expression) if columns is None else columns)(text)

    def _shown(self, expression: str, chosen: range) -> str:
        """The same, as they are printed."""
        return self._ask(f"show {sliced(expression, chosen)}").partition("\n")[2]

    def size(self, expression: str) -> int:
        """How many rows an expression has.

        >>> store.size("select(people,born=1980)")
        1
        """
        return int(self._ask(f"size {expression}"))

    def find(self, expression: str, criteria: Mapping[str, Value], start: int = 0) -> int | None:
        """The first row from `start` on with these values, or None.

        >>> store.find("people", {"born": 1980})
        1
        """
        said = self._ask(spaced("find", expression, place(start), _criteria(criteria)))
        return None if said == "none" else int(said)

    def search(self, expression: str, criteria: Mapping[str, Value]) -> int:
        """In a sorting, the first row that is not before these values of its first keys; else how many rows there are.

        >>> store.search("sort(people,born)", {"born": 1975})
        1
        """
        return int(self._ask(spaced("search", expression, _criteria(criteria))))

    def locate(self, expression: str, criteria: Mapping[str, Value]) -> tuple[int, int]:
        """The same, and how many rows have these values.

        >>> store.locate("sort(people,born)", {"born": 1980})
        (1, 1)
        """
        at, there = self._ask(spaced("locate", expression, _criteria(criteria))).split(" ")
        return int(at), int(there)

    # Snapshots, watches and mappings: they end with the session.

    def dup(self, name: str, expression: str) -> int:
        """Keeps the rows of an expression as a snapshot of this name, and gives how many they are.

        >>> store.dup("before", "people")
        2
        >>> store.people.remove(0, 2), store.size("before"), store.query("before")[0].name
        (0, 2, 'Ann')
        >>> store.undup("before")
        """
        return int(self.ask(spaced("dup", checked(name), expression)))

    def undup(self, name: str) -> None:
        """Gives up a snapshot."""
        self.ask(spaced("undup", checked(name)))

    def watch(self, name: str, operation: str) -> int:
        """Keeps the rows of an operator of a name up to date under a new name (docs/WATCHES.md), and gives how many they are.

        >>> store.watch("old", "range(people,born=1900:1975)")
        1
        >>> store.people.append("Cy", [], 1930), store.size("old")
        (2, 2)
        >>> store.unwatch("old")
        """
        return int(self.ask(spaced("watch", checked(name), operation)))

    def unwatch(self, name: str) -> None:
        """Ends a watch."""
        self.ask(spaced("unwatch", checked(name)))

    def hash(self, view: str, keys: int) -> None:
        """Makes the first properties of a view its key, so many of them: `append` then replaces the row of the same key.

        >>> store.hash("people", 1)
        >>> store.people.append("Ann", [], 1971), len(store.people)
        (0, 2)
        >>> store.unmap("people")
        """
        self.ask(spaced("hash", checked(view), place(keys)))

    def ordered(self, view: str, keys: int) -> None:
        """The same, and rows stand in the order of their keys.

        >>> store.ordered("people", 1)
        >>> store.people.append("Al"), store.people.column("name")
        (0, ['Al', 'Ann', 'Bob'])
        """
        self.ask(spaced("ordered", checked(view), place(keys)))

    def unmap(self, view: str) -> None:
        """Ends the mapping of a view."""
        self.ask(spaced("unmap", checked(view)))

    # Commits.

    def commit(self, note: str | None = None) -> int:
        """Stores the views as the next commit, with a note of at most 255 bytes, and gives its number. From then on it outlasts a crash.

        Where `Ended` comes in place of the number, it is not known whether the commit stands: open the file again, and `number` tells. After `DiskRefused` only
        `reopen` tells.

        >>> store.commit("first people"), store.commit()
        (1, 2)
        >>> store.log()
        [Note(number=1, text='first people')]
        """
        return _number(self.ask(f"commit {literal(note)}" if note else "commit"))

    def rollback(self) -> int:
        """Gives up edits since the last commit, and gives its number. It ends watches and mappings.

        >>> store.rollback(), list(store)
        (0, [])
        """
        return _number(self.ask("rollback"))

    def revert(self) -> int:
        """Brings back the commit before the last, uncommitted, and gives its number. It ends watches and mappings.

        >>> store.commit(), store.people.remove(0), store.commit(), store.revert(), len(store.people)
        (1, 1, 2, 1, 2)
        """
        return _number(self.ask("revert"))

    def reopen(self) -> int:
        """Gives up edits and reads the file anew, and gives the number of its commit. It ends watches and mappings.

        >>> store.commit(), store.people.remove(0), store.reopen(), len(store.people)
        (1, 1, 1, 2)
        """
        return _number(self.ask("reopen"))

    def log(self) -> list[Note]:
        """The last 64 notes, the newest first."""
        notes = (line.partition(" ") for line in self._ask("log").split("\n")[1:])
        return [Note(int(number), text_of(text)) for number, _, text in notes]

    def space(self) -> Space:
        """The numbers of the file.

        >>> store.space().number
        0
        """
        return Space(*map(int, self._ask("space").split(" ")[1:]))


def _number(said: str) -> int:
    """The number behind a word."""
    return int(said.split(" ")[1])


def _criteria(criteria: Mapping[str, Value]) -> str:
    return ",".join(f"{checked(name)}={literal(value)}" for name, value in criteria.items())


def _as_shown(error: Refused, begin: str, expression: str) -> Refused:
    """The refusal of an expression behind another word, as that of `show`: the byte of a `syntax` is moved with the word."""
    values = error.values
    if error.word == "syntax":
        values = (values[0] - len(begin) + len("show "),)
    return refused(" ".join(["err", str(error.number), error.word, *map(str, values)]), f"show {expression}")
