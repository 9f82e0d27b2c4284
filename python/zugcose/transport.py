"""What carries a line to a store and its reply back."""

from __future__ import annotations

from abc import ABC, abstractmethod
from typing import Sequence


class Transport(ABC):
    """One session over one file: lines go in, replies come out, in order.

    A line has no newline, is not blank, and has at most 1,048,576 bytes. A reply has its lines with newlines between, and none at its end.
    """

    number: int
    """The commit for which the file stood when the session began."""

    @abstractmethod
    def ask(self, line: bytes) -> bytes:
        """The whole reply to one line. Raises `Ended` where the session has ended."""

    def ask_all(self, lines: Sequence[bytes]) -> list[bytes]:
        """The replies to many lines, which a transport may send ahead of the replies."""
        return [self.ask(line) for line in lines]

    @abstractmethod
    def close(self) -> int:
        """Ends the session, and gives its status: 0 where all went well. What was not committed is gone."""
