#!/usr/bin/env python3
"""Times rows of a number, a text and a long number, put one by one into one view and shown, in the built program and in SQLite.

    bench/rows/run.py [PROGRAM ..]

Prints for each the seconds and the microseconds a row, the least and the middle of several runs, and the peak of resident memory. SQLite runs by
its own shell, in memory and in a file, in one transaction. No line of ours commits, so its rows stay in memory. Other builds of the program, named
behind it, are timed in turn with it.
"""

import os
import subprocess
import sys
import tempfile
import time
from itertools import chain, repeat
from pathlib import Path

PROGRAM = Path(__file__).resolve().parents[2] / "crates" / "mkshell" / "out" / "mkshell"
ROWS = 200_000
EDITS = 200
RUNS = 7


def measured(words, given, folder):
    """The seconds, the peak of memory in MiB, and the number of lines said. This process holds few of the lines at a time, since a
    new process begins with the peak of the one that starts it."""
    source, answer = Path(folder) / "given", Path(folder) / "said"
    with open(source, "w") as out:
        out.writelines(given)
    begin = time.perf_counter()
    with open(source) as lines, open(answer, "w") as out:
        process = subprocess.Popen(words, cwd=folder, stdin=lines, stdout=out)
        _, status, used = os.wait4(process.pid, 0)
    seconds = time.perf_counter() - begin
    if status != 0:
        sys.exit(f"{words[0]} ended with {status}")
    with open(answer) as said:
        return seconds, used.ru_maxrss / 1024, sum(1 for _ in said)


def row(at):
    return at, f"name{at}", at * 4_294_967_296


def added():
    """The lines that put the rows into a view one by one."""
    yield "getas orders[number:I,name:S,amount:L]\n"
    for number, name, amount in map(row, range(ROWS)):
        yield f'add orders {number} "{name}" {amount}\n'


def inserted():
    """The statements that put the same rows into a table of SQLite, in one transaction."""
    yield "create table orders(number integer, name text, amount integer);\nbegin;\n"
    for number, name, amount in map(row, range(ROWS)):
        yield f"insert into orders values({number},'{name}',{amount});\n"
    yield "commit;\n"


def tasks():
    """What is timed: a name, the words of the program, and the lines that it is given, made anew for each run."""
    shown = "select * from orders;\n"
    ours = {
        "add": added,
        "add and show": lambda: chain(added(), ["show orders\n"]),
        f"{EDITS} more at the front": lambda: chain(added(), repeat('insert orders 0 1 1 "first" 1\n', EDITS)),
    }
    for task, lines in ours.items():
        for program in [PROGRAM, *map(Path, sys.argv[1:])]:
            yield f"{program.name}, {task}", [str(program.resolve()), "f"], lines
    yield "sqlite3 in memory", ["sqlite3"], inserted
    yield "sqlite3 in memory and shown", ["sqlite3"], lambda: chain(inserted(), [shown])
    yield "sqlite3 in a file", ["sqlite3", "f.db"], inserted


def main():
    runs = {}
    for _ in range(RUNS):
        for name, words, lines in tasks():
            with tempfile.TemporaryDirectory() as folder:
                runs.setdefault(name, []).append(measured(words, lines(), folder))
    for name, found in runs.items():
        seconds = sorted(took for took, _, _ in found)
        least, middle, peak = seconds[0], seconds[len(seconds) // 2], max(memory for _, memory, _ in found)
        print(f"{name:32} {least:6.2f} s {middle:6.2f} s {least / ROWS * 1e6:7.2f} us {middle / ROWS * 1e6:7.2f} us {peak:7.1f} MiB {found[0][2]:8} lines")


main()
