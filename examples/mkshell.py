"""A store as a Python object, over a running mkshell.

    with Store("mkshell", "people.mk") as store:
        store.ask("getas people[name:S,born:I]")
        store.add("people", "Ann", 1970)
        print(store.rows("people"), store.commit("first people"))

One line is one reply, so a client writes a line, and reads until the reply is whole. A refusal is raised as `Refused`, and nothing has changed then. A file that
is not served is raised as `NotServed` or one of its kinds, and an end of the program in the midst of a session as `Ended`.
"""

import contextlib
import subprocess

LISTS = ("show", "struct", "log")


class NotServed(Exception):
    """The program ended before it served the file, which is as it was."""


class WrongWords(NotServed):
    """The words of the command line are none: status 2."""


class NotAStore(NotServed):
    """The file is no store, or an empty one that is only read: status 3."""


class Damaged(NotServed):
    """The file was a store: `at` is the place of the first thing that is wanting. Status 3."""

    def __init__(self, said, at):
        super().__init__(said)
        self.at = at


class NotOpened(NotServed):
    """The file could not be opened or made, or another process has it: status 8."""


class OutOfMemory(NotServed):
    """There was too little memory to open the file: status 6."""


class Ended(Exception):
    """The program ended in the midst of a session: `status` says why (docs/SHELL.md), and is below 0 where a signal stopped it. Of a `commit` that has no reply it is not
    known whether it stands."""

    def __init__(self, status):
        super().__init__(f"mkshell ended with status {status}")
        self.status = status


class Refused(Exception):
    """A reply that begins with `err`: its number, its word, and what stands behind them."""

    def __init__(self, reply):
        super().__init__(reply)
        _, number, self.word, *self.values = reply.split(" ")
        self.number = int(number)


def literal(value):
    """A value as a line has it: a number, a text, bytes, or a list of rows."""
    if isinstance(value, int):
        return str(value)
    if isinstance(value, str):
        return '"' + value.replace("\\", "\\\\").replace('"', '\\"').replace("\n", "\\n") + '"'
    if isinstance(value, bytes):
        return f'x"{value.hex()}"'
    return "{" + ",".join("(" + ",".join(map(literal, row)) + ")" for row in value) + "}"


def value(text):
    """The value of a literal, as far as it reaches, and what stands behind it."""
    if text.startswith('x"'):
        digits, _, rest = text[2:].partition('"')
        return bytes.fromhex(digits), rest
    if text.startswith('"'):
        return quoted(text[1:])
    if text.startswith("{"):
        return listed(text[1:], row, "}")
    end = next((at for at, sign in enumerate(text) if sign not in "-0123456789"), len(text))
    return int(text[:end]), text[end:]


def quoted(text):
    out, at = [], 0
    while text[at] != '"':
        if text[at] == "\\":
            at += 1
            out.append("\n" if text[at] == "n" else text[at])
        else:
            out.append(text[at])
        at += 1
    return "".join(out), text[at + 1:]


def listed(text, one, end):
    """What stands up to a sign, joined by commas."""
    out = []
    while not text.startswith(end):
        member, text = one(text.removeprefix(","))
        out.append(member)
    return out, text[1:]


def row(text):
    """The values of a row in parentheses."""
    values, rest = listed(text[1:], value, ")")
    return tuple(values), rest


class Store:
    """A file that mkshell keeps open, from the greeting on."""

    def __init__(self, program, file, *options):
        self.process = subprocess.Popen([program, *options, "--", file], stdin=subprocess.PIPE, stdout=subprocess.PIPE)
        self.number = self.greeting()

    def __enter__(self):
        return self

    def __exit__(self, *_):
        self.close()

    def greeting(self):
        """The number of the commit for which the file stands."""
        said = self.process.stdout.readline().decode()
        if said.startswith("ok mkshell ") and said.endswith("\n"):
            return int(said.split(" ")[2])
        status, said = self.end(), said.removesuffix("\n")
        if said.startswith("refused damaged "):
            raise Damaged(said, int(said.split(" ")[2]))
        if status == 8:
            raise NotOpened("the file could not be opened, or another process has it")
        raise {2: WrongWords, 3: NotAStore, 6: OutOfMemory}.get(status, NotServed)(said or f"mkshell ended with status {status}")

    def line(self):
        """The next line of the output."""
        line = self.process.stdout.readline()
        if not line.endswith(b"\n"):
            raise Ended(self.end())
        return line[:-1].decode()

    def ask(self, line):
        """Carries a line out, and gives what stands behind `ok`; of a list its lines."""
        try:
            self.process.stdin.write(line.encode() + b"\n")
            self.process.stdin.flush()
        except BrokenPipeError:
            raise Ended(self.end()) from None
        reply = self.line()
        if reply.startswith("err "):
            raise Refused(reply)
        if line.split()[0] in LISTS:
            return [self.line() for _ in range(int(reply.split(" ")[1]))]
        return reply.removeprefix("ok").removeprefix(" ")

    def add(self, path, *values):
        """Puts a row last, and gives its place."""
        return int(self.ask(" ".join(["add", path, *map(literal, values)])))

    def set(self, path, at, prop, new):
        self.ask(f"set {path} {at} {prop} {literal(new)}")

    def rows(self, path):
        """The rows, as tuples of numbers, texts, bytes and lists of rows."""
        return [row(line)[0] for line in self.ask(f"show {path}")]

    def commit(self, note=""):
        """Stores the views; the commit of this number outlasts a crash from now on."""
        self.number = int(self.ask(f"commit {literal(note)}" if note else "commit").split(" ")[1])
        return self.number

    def close(self):
        """Ends the session, and gives the program's status. What was not committed is gone."""
        if self.process.poll() is None:
            self.ask("quit")
        return self.end()

    def end(self):
        """Waits for the program's end."""
        with contextlib.suppress(BrokenPipeError):
            self.process.stdin.close()
        self.process.stdout.close()
        return self.process.wait()
