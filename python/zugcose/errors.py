"""What can go wrong, each as an exception of its own kind. All are kinds of `Error`."""

from __future__ import annotations

__all__ = [
    "BadAside", "BadBase", "Closed", "Damaged", "DamagedRefused", "DiskRefused", "Ended", "Error", "ExistsRefused", "FloatingRefused", "FullRefused",
    "InUseRefused", "KeysRefused", "KindRefused", "LastNumberRefused", "LimitRefused", "MemoryRefused", "NoNameRefused", "NoProgram", "NoPropRefused",
    "NotAStore", "NotOpened", "NotServed", "OtherBase", "OutOfMemory", "RangeRefused", "ReadOnlyRefused", "Refused", "ShutRefused", "SyntaxRefused",
    "UnsortedRefused", "WrongThread", "WrongWords",
]

MOST_SHOWN = 200


class Error(Exception):
    """Any error that this package raises of a store; wrong values are a `TypeError` or a `ValueError`."""


# Before a session begins. The file is as it was.


class NotServed(Error):
    """The program ended before it served the file, or there is no program."""


class NoProgram(NotServed):
    """There is no program `mkshell`, or it cannot be started."""


class WrongWords(NotServed):
    """The options do not go together, or one is out of its range: status 2."""


class NotAStore(NotServed):
    """The file is no store, or an empty one that is only read."""


class BadBase(NotServed):
    """The base of an aside file is empty, damaged or no store."""


class OtherBase(NotServed):
    """The aside file was made over another base."""


class _AtPlace(NotServed):
    def __init__(self, said: str, at: int):
        super().__init__(said, at)
        self.at = at

    def __str__(self) -> str:
        return str(self.args[0])


class Damaged(_AtPlace):
    """The file was a store: `at` is the place of the first thing that is wanting."""


class BadAside(_AtPlace):
    """The file is no aside file: `at` is the place of its first flaw."""


class NotOpened(NotServed):
    """The file is in use, or cannot be opened or made, or the disk failed: status 8."""


class OutOfMemory(NotServed):
    """There was too little memory to open the file: status 6."""


IN_USE = "the file could not be opened, or another process has it"
OF_STATUS = {2: WrongWords, 3: NotAStore, 6: OutOfMemory, 8: NotOpened}
OF_WORD = {"damaged": Damaged, "aside": BadAside, "badbase": BadBase, "otherbase": OtherBase}


def not_served(said: str, status: int) -> NotServed:
    """What to raise of a program that said this in place of a greeting, and ended with this status."""
    word, *rest = said.removeprefix("refused ").split(" ")
    kind = OF_WORD.get(word, OF_STATUS.get(status, NotServed))
    if issubclass(kind, _AtPlace):
        return kind(said, int(rest[0]))
    if status == 8:
        return NotOpened(IN_USE)
    return kind(said or f"mkshell ended with status {status}")


# In a session.


class Closed(Error):
    """The store was closed before."""


class WrongThread(Error):
    """The store belongs to another thread or another process: the one that opened it."""


class Ended(Error):
    """The program ended in the midst of a session: `status` says why (docs/SHELL.md has the numbers), and is below 0 where a signal stopped it.

    What was not committed is gone. Of a `commit` that has no reply it is not known whether it stands: open the file again, and see by `number`.
    """

    def __init__(self, status: int):
        super().__init__(status)
        self.status = status

    def __str__(self) -> str:
        return f"mkshell ended with status {self.status}"


class Refused(Error):
    """A line that was refused, so that nothing changed: its `number` and `word`, the `values` that stand behind them, and the `line`.

    Each word has a subclass, so that one can be caught alone. `row` is the place of the refused row among those given to `extend`, and else None.

    >>> try:
    ...     store.people.append(1970, "Ann")
    ... except zugcose.KindRefused as refused:
    ...     print(refused.number, refused.word, refused.line)
    7 kind add people 1970 "Ann"
    """

    def __init__(self, reply: str, line: str):
        super().__init__(reply, line)
        _, number, self.word, *values = reply.split(" ")
        self.number, self.values, self.line = int(number), tuple(map(int, values)), line
        self.row: int | None = None

    def __str__(self) -> str:
        line = self.line if len(self.line) <= MOST_SHOWN else self.line[:MOST_SHOWN] + " .."
        row = "" if self.row is None else f"row {self.row}: "
        return " ".join([row + self.word, *map(str, self.values)]) + ": " + line


class MemoryRefused(Refused):
    """Out of memory: free some."""


class SyntaxRefused(Refused):
    """`values` has the byte of the line at which no command can go on."""


class NoNameRefused(Refused):
    """No such view, snapshot, watch, mapping or viewer, or no commit before."""


class ExistsRefused(Refused):
    """The name is taken, or twice in one bracket."""


class RangeRefused(Refused):
    """Past the last row; `values` has how many there are."""


class NoPropRefused(Refused):
    """No such property, or too many values."""


class KindRefused(Refused):
    """A value, or a property in a path, of another kind."""


class LimitRefused(Refused):
    """Past a limit of docs/VALUES.md."""


class DiskRefused(Refused):
    """The disk failed: `reopen`. Whether the commit stands is not known before."""


class FullRefused(Refused):
    """The file would end past its cap; `values` has both."""


class ShutRefused(Refused):
    """A commit failed: `reopen`."""


class LastNumberRefused(Refused):
    """The last commit of all was made."""


class FloatingRefused(Refused):
    """`F` and `D` are no kinds: use `L` or `S`."""


class ReadOnlyRefused(Refused):
    """The store was opened only to read."""


class DamagedRefused(Refused):
    """The commit before, or the file, is broken at this byte. The views are still here."""


class InUseRefused(Refused):
    """A cursor, a watch or a mapping stands on it."""


class KeysRefused(Refused):
    """The row in `values` has the key of an earlier one, or is not above the one before."""


class UnsortedRefused(Refused):
    """There is no sorting by these keys."""


OF_REFUSAL = {
    "memory": MemoryRefused, "syntax": SyntaxRefused, "noname": NoNameRefused, "exists": ExistsRefused, "range": RangeRefused,
    "noprop": NoPropRefused, "kind": KindRefused, "limit": LimitRefused, "disk": DiskRefused, "full": FullRefused, "shut": ShutRefused,
    "lastnumber": LastNumberRefused, "floating": FloatingRefused, "readonly": ReadOnlyRefused, "damaged": DamagedRefused,
    "inuse": InUseRefused, "keys": KeysRefused, "unsorted": UnsortedRefused,
}


def refused(reply: str, line: str) -> Refused:
    """What to raise of a reply that begins with `err`."""
    return OF_REFUSAL.get(reply.split(" ")[2], Refused)(reply, line)
