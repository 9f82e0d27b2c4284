"""What the names of a session stand for, as its lines tell: views, and the snapshots, watches and mappings that end with it."""

from __future__ import annotations

from .errors import refused
from .expressions import columns_of
from .session import Session
from .structures import Columns, Structure, structure

AFRESH = ("rollback", "revert", "reopen")


class Names:
    """The structures of views are asked for when they are needed, and kept until a line changes them."""

    def __init__(self, session: Session):
        self._session = session
        self._views: dict[str, Structure] | None = None
        self._snapshots: dict[str, Columns] = {}
        self._watches: dict[str, Columns] = {}
        self._mapped: set[str] = set()

    def views(self) -> dict[str, Structure]:
        """The structures of the views by their names, the oldest first."""
        self._session.check()
        if self._views is None:
            _, *lines = self._session.ask("struct").split("\n")
            self._views = {found.name: found for found in map(structure, lines)}
        return self._views

    def columns(self, expression: str) -> Columns:
        """The columns of an expression that the store has taken."""
        view = self.views().get(expression)
        return view.columns if view else columns_of(expression, self._of_name)

    def _of_name(self, name: str) -> Columns:
        if name in self.views():
            return self.views()[name].columns
        for others in (self._snapshots, self._watches):
            if name in others:
                return others[name]
        raise refused("err 3 noname", name)

    def is_mapped(self, path: str) -> bool:
        """Whether the rows of this view are kept by a key."""
        return path in self._mapped

    def note(self, line: str) -> None:
        """A line was answered by `ok`."""
        word, name, rest = (*line.split(None, 2), "", "")[:3]
        if word in ("getas", "drop", *AFRESH):
            self._views = None
        if word in AFRESH:
            self._watches.clear()
            self._mapped.clear()
        elif word == "dup":
            self._snapshots[name] = self.columns(rest)
        elif word == "watch":
            self._watches[name] = self.columns(rest)
        elif word == "undup":
            self._snapshots.pop(name, None)
        elif word == "unwatch":
            self._watches.pop(name, None)
        elif word in ("hash", "ordered"):
            self._mapped.add(name)
        elif word == "unmap":
            self._mapped.discard(name)
