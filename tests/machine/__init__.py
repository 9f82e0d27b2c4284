"""What the built program asks of the machine: its calls in their order, with places, lengths and bytes; and machines that fail, stop it or answer by
halves.

`calls.c` is compiled with `cc` (or `$CC`) and put between the program and the C library by `LD_PRELOAD`, so nothing has to be installed, and no
leave to trace a process is needed.
"""

import ctypes
import os
import subprocess
import sys
import tempfile
from dataclasses import dataclass
from pathlib import Path

SECONDS = 60
# Linux's numbers: what lets root pass over the modes of files, and the call that gives such a capability up.
PASS_OVER_MODES = (1, 2)
GIVE_UP = 24


@dataclass
class Call:
    """A call as a line of words, such as `write f 208 48`; the bytes that it moved; and whether it failed."""
    words: str
    moved: bytes

    @property
    def kind(self):
        return self.words.split(" ")[0]

    @property
    def failed(self):
        return self.words.endswith(" fails")

    @property
    def place(self):
        return int(self.words.split(" ")[2])

    def __str__(self):
        """One line: of what is said its first line, without its end, and each byte that is no printed character as `\\x` and two digits."""
        if self.kind != "say":
            return self.words
        line, failed = self.moved.decode(errors="replace").split("\n")[0], " fails" if self.failed else ""
        said = "".join(c if c.isprintable() else f"\\x{ord(c):02x}" for c in line)
        return f"say {said}{failed}"


@dataclass
class Ran:
    said: bytes
    status: int
    calls: list


def read_call(line):
    words, _, moved = line.partition("\t")
    return Call(words, bytes.fromhex(moved))


class Machine:
    """A machine that keeps a record of calls. Calls are numbered from 1."""

    def __init__(self):
        self.kept = tempfile.TemporaryDirectory()
        self.library = Path(self.kept.name) / "calls.so"
        self.record = Path(self.kept.name) / "record"
        compiler = os.environ.get("CC", "cc")
        try:
            subprocess.run([compiler, "-shared", "-fPIC", "-O1", "-o", self.library, Path(__file__).parent / "calls.c"], check=True)
        except (OSError, subprocess.CalledProcessError) as error:
            sys.exit(f"the calls of the program can't be seen without a C compiler: {error}")

    def run(self, program, words, given, folder, **told):
        """Runs the program. `stop`: it is stopped before the call of this number; `fail` and `errno`: that call fails; `run_at` and `run`: a
        command of the shell runs before that call; `halves`: calls that move bytes are interrupted, and move half of what they may."""
        self.record.write_text("")
        variables = {f"CALLS_{name.upper()}": str(value) for name, value in told.items() if value}
        environment = {**os.environ, "LD_PRELOAD": str(self.library), "CALLS_RECORD": str(self.record), **variables}
        done = subprocess.run([str(program), *words], cwd=folder, input=given, stdout=subprocess.PIPE, env=environment, timeout=SECONDS)
        return Ran(done.stdout, done.returncode, [read_call(line) for line in self.record.read_text(errors="replace").splitlines()])


def as_any_user():
    """For a process that is about to be started by root: it may open what any owner may, so that what a file's mode forbids is forbidden."""
    if os.geteuid() == 0:
        for capability in PASS_OVER_MODES:
            ctypes.CDLL(None).prctl(GIVE_UP, capability, 0, 0, 0)
