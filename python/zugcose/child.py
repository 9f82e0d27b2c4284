"""A session with the program `mkshell`, as a child process over two pipes."""

from __future__ import annotations

import os
import re
import select
import shutil
import subprocess
from typing import Sequence, Union

from .errors import Ended, NoProgram, not_served
from .transport import Transport

Word = Union[str, bytes, "os.PathLike[str]"]

LISTS = (b"show", b"struct", b"log")
FIRST_WORD = re.compile(rb"[A-Za-z0-9_]*")
READ_AT_ONCE = 1 << 16


def program(given: Word | None = None) -> Word:
    """The program of this path, or of the environment's ZUGCOSE_MKSHELL, or `mkshell` on the search path."""
    found = given or os.environ.get("ZUGCOSE_MKSHELL") or shutil.which("mkshell")
    if not found:
        raise NoProgram("there is no program mkshell: give its path as mkshell=.., or in ZUGCOSE_MKSHELL, or put it on the PATH")
    return found


def is_list(line: bytes) -> bool:
    """Whether more lines follow the first of its reply."""
    line = line.lstrip(b" ")
    return line.startswith(LISTS) and FIRST_WORD.match(line)[0] in LISTS  # type: ignore[index]


class Child(Transport):
    """The program runs with these words until it is closed. It is in a session of its own, so that Ctrl-C at a terminal stops the script and not the store."""

    def __init__(self, words: Sequence[Word]):
        self._status: int | None = None
        self._busy = False
        self._buffer, self._at = b"", 0
        try:
            process = subprocess.Popen(words, stdin=subprocess.PIPE, stdout=subprocess.PIPE, bufsize=0, start_new_session=True)
        except OSError as error:
            raise NoProgram(f"{os.fsdecode(words[0])} cannot be started: {error.strerror}") from None
        # The pipes are held here alone: where the store is forgotten they close, and the program ends. A process that nobody waited for is kept by its module.
        self._process, self._input, self._output = process, process.stdin, process.stdout
        process.stdin = process.stdout = None
        assert self._input and self._output
        self._to, self._from = self._input.fileno(), self._output.fileno()
        os.set_blocking(self._to, False)
        self.number = self._greeting()

    def _greeting(self) -> int:
        try:
            said = self._line().decode()
        except Ended as ended:
            raise not_served("", ended.status) from None
        if said.startswith("ok mkshell "):
            return int(said.split(" ")[2])
        raise not_served(said, self._end())

    def ask(self, line: bytes) -> bytes:
        return self.ask_all([line])[0]

    def ask_all(self, lines: Sequence[bytes]) -> list[bytes]:
        """The replies to many lines. All are sent before the replies are read; what comes meanwhile is read too, so neither side waits for the other.

        An exchange that an exception cut short, as of Ctrl-C, leaves replies that belong to no line: the next one then finds the session ended.
        """
        if self._busy:
            self._process.kill()
            self._end()
        if self._status is not None:
            raise Ended(self._status)
        if not lines:
            return []
        self._busy = True
        self._send(b"\n".join(lines) + b"\n")
        replies = [self._reply(line) for line in lines]
        self._busy = False
        return replies

    def _send(self, data: bytes) -> None:
        """Writes it all, and reads what comes before there is room to write more."""
        left = memoryview(data)
        while left:
            try:
                left = left[os.write(self._to, left):]
            except BlockingIOError:
                self._wait()
            except BrokenPipeError:
                return

    def _wait(self) -> None:
        """Waits until there is something to read or room to write, and reads."""
        both = select.poll()
        both.register(self._to, select.POLLOUT)
        both.register(self._from, select.POLLIN)
        if any(file == self._from for file, _ in both.poll()):
            self._fill()

    def _fill(self) -> None:
        """Puts what comes next behind what was not taken yet."""
        data = os.read(self._from, READ_AT_ONCE)
        if not data:
            raise Ended(self._end())
        self._buffer, self._at = self._buffer[self._at:] + data, 0

    def _rest(self) -> bytes:
        """Takes all that has come."""
        rest, self._at = self._buffer[self._at:], len(self._buffer)
        return rest

    def _line(self) -> bytes:
        """Takes the next line, without its newline."""
        parts = []
        while (end := self._buffer.find(b"\n", self._at)) < 0:
            parts.append(self._rest())
            self._fill()
        parts.append(self._buffer[self._at:end])
        self._at = end + 1
        return b"".join(parts)

    def _lines(self, count: int) -> bytes:
        """Takes so many lines, with a newline before each."""
        parts = [b"\n"]
        while (there := self._buffer.count(b"\n", self._at)) < count:
            parts.append(self._rest())
            count -= there
            self._fill()
        end = self._at
        for _ in range(count):
            end = self._buffer.index(b"\n", end) + 1
        parts.append(self._buffer[self._at:end])
        self._at = end
        return b"".join(parts)[:-1]

    def _reply(self, line: bytes) -> bytes:
        """Takes the reply to a line."""
        first = self._line()
        if is_list(line) and first.startswith(b"ok "):
            return first + self._lines(int(first[3:]))
        return first

    def close(self) -> int:
        if self._busy:
            self._process.kill()
        elif self._status is None:
            try:
                self.ask(b"quit")
            except Ended:
                pass
        return self._end()

    def _end(self) -> int:
        """Waits for the program's end."""
        if self._status is None:
            assert self._input and self._output
            self._input.close()
            self._output.close()
            self._status = self._process.wait()
        return self._status
