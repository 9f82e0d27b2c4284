"""The lines of a session and their replies: who may send them, and what is told of a refusal."""

from __future__ import annotations

import os
import threading

from .errors import Closed, WrongThread, refused
from .transport import Transport

MOST_LINE = 1_048_576
SHUT = b"err 11 shut"


def encoded(line: str) -> bytes:
    """A line as it is sent. One that would be two, or that is too long for the store, is refused here."""
    if "\n" in line:
        raise ValueError("a line has no newline: write \\n in texts, as literal does")
    found = line.encode()
    if len(found) > MOST_LINE:
        raise ValueError(f"a line of {len(found)} bytes, and {MOST_LINE} is the most")
    return found


class Session:
    """A transport that belongs to one thread of one process, until it is closed."""

    def __init__(self, transport: Transport):
        self.transport = transport
        self._owner = (os.getpid(), threading.get_ident())
        self._closed = False
        self.given_up: list[str] = []
        """Snapshots of which nothing is left to read: they are ended before the next lines."""

    def check_owner(self) -> None:
        if self._owner != (os.getpid(), threading.get_ident()):
            raise WrongThread("the store belongs to the thread that opened it")

    def check(self) -> None:
        """The store may be used here and now."""
        self.check_owner()
        if self._closed:
            raise Closed("the store was closed")

    def exchange(self, lines: list[bytes]) -> list[str]:
        """The replies to lines."""
        self.check()
        names = [self.given_up.pop() for _ in range(len(self.given_up))]
        replies = self.transport.ask_all([b"undup " + name.encode() for name in names] + lines)
        self.given_up += [name for name, reply in zip(names, replies) if reply == SHUT]
        return [reply.decode() for reply in replies[len(names):]]

    def ask(self, line: str) -> str:
        """What stands behind `ok` in the reply to a line; a refusal is raised."""
        reply, = self.exchange([encoded(line)])
        if reply.startswith("err "):
            raise refused(reply, line)
        return reply[3:]

    def close(self) -> int:
        self.check_owner()
        self._closed = True
        return self.transport.close()
