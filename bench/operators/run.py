#!/usr/bin/env python3
"""Times the operators over a million rows in columns, and statements of SQLite over the same rows in memory, without an index.

Prints for each the nanoseconds a row, the least of some runs, ours and SQLite's in turn. Of ours, `answer` is the operator alone, and
`read` is the operator and each value of its answer, read where it lies. Of SQLite, `places` makes a temporary table of the places of the rows,
where the operator's answer is a list of places too, `rows` one of the whole rows, and `sums` adds up each value and makes no table. Behind them stand how many times
faster ours is: `answered` beside `places`, or beside `rows` where there are none, and `values` beside the faster one of `rows` and `sums`. The rows answered, and
what their values add up to, must be the same in both. The program is the one that was built last; where there is none, it is proved and built first.

Then come the nanoseconds of a cell of the table alone and through chains of sixteen operators, and how many times as long a chain takes;
and the bytes that each pair of a join of sixteen million takes, where it is counted and where its rows are listed.

    bench/operators/run.py          times all
    bench/operators/run.py ROWS     prints what is answered alone, of so many rows, as SQLite has it
"""

import os
import sqlite3
import subprocess
import sys
import time
from pathlib import Path

CRATE = Path(__file__).resolve().parents[2] / "crates" / "bench"
PROGRAM = CRATE / "out" / "bench"
RUNS = 5
ROWS = 1_000_000
NUMBERS = 1_000
AMOUNTS = 1_000_000
WORD = (1 << 64) - 1

# What SQLite lists for each task of the program: the rows, in the order of the answer.
STATEMENTS = {
    "Select": "select * from orders where number = 500",
    "Range": "select * from orders where amount between 400000 and 499999",
    "SortOne": "select * from orders order by amount, rowid",
    "SortTwo": "select * from orders order by name, amount desc, rowid",
    "Counts": "select name, count(*) as orders from orders group by name",
    "GroupBy": "select name, number, amount from orders order by name, rowid",
    "Unique": "select distinct number, name from orders",
    "Join": "select orders.*, label from orders join labels using (number) order by orders.rowid",
    "Union": "select * from orders union select * from later",
}

# The same, but for the places of the rows alone.
PLACES = {task: STATEMENTS[task].replace("*", "rowid") for task in ("Select", "Range", "SortOne", "SortTwo")}
PLACES["Join"] = "select orders.rowid, labels.rowid as other from orders join labels using (number) order by orders.rowid"

# How many times faster than SQLite each is to be.
BARS = {"Select": 5, "Range": 5, "SortOne": 3, "SortTwo": 3, "Counts": 2, "GroupBy": 2, "Unique": 2, "Join": 1, "Union": 1}


def scattered(place):
    once = (place * 6364136223846793005 + 1442695040888963407) & WORD
    return (((once ^ (once >> 29)) * 6364136223846793005) & WORD) >> 33


def order(place):
    name = f"name{scattered(place + AMOUNTS) % NUMBERS}"
    return scattered(place) % NUMBERS, name, scattered(place + 2 * AMOUNTS) % AMOUNTS


def tables(rows):
    """A base with the tables of the program, of so many rows."""
    base = sqlite3.connect(":memory:", isolation_level=None)
    base.execute("pragma temp_store = memory")
    base.execute("pragma journal_mode = off")
    base.execute("pragma temp.journal_mode = off")
    base.execute("create table orders(number integer, name text, amount integer)")
    base.execute("create table later(number integer, name text, amount integer)")
    base.execute("create table labels(number integer, label text)")
    base.execute("begin")
    base.executemany("insert into orders values(?,?,?)", map(order, range(rows)))
    base.executemany("insert into later values(?,?,?)", map(order, range(rows // 2, rows // 2 + rows)))
    base.executemany("insert into labels values(?,?)", ((at, f"name{at}") for at in range(NUMBERS)))
    base.execute("commit")
    return base


def nanoseconds_of(base, statement):
    """The nanoseconds a row of a statement that answers at most one."""
    begin = time.perf_counter()
    base.execute(statement).fetchall()
    return (time.perf_counter() - begin) * 1e9 / ROWS


def listing(base, statement):
    """The nanoseconds a row of listing into a temporary table, and what was listed."""
    nanoseconds = nanoseconds_of(base, "create temp table listed as " + statement)
    rows = base.execute("select * from listed").fetchall()
    base.execute("drop table listed")
    return nanoseconds, rows


def summing(base, statement):
    """The nanoseconds a row of adding up all values. With a limit, which is greater than every number of rows, SQLite keeps the order that is asked for."""
    first = base.execute(statement + " limit 1")
    kinds = zip((column[0] for column in first.description), first.fetchone())
    sums = ", ".join(f"sum(length({name}))" if isinstance(value, str) else f"sum({name})" for name, value in kinds)
    return nanoseconds_of(base, f"select {sums} from ({statement} limit 1000000000)")


def weight(value):
    return len(value) if isinstance(value, str) else value


def summary(task, rows):
    """The rows that a task answers, and what their values add up to: a number counts itself, a text its length, a view its rows."""
    if task == "GroupBy":
        names = {name for name, _, _ in rows}
        return len(names), sum(map(len, names)) + len(rows)
    return len(rows), sum(weight(value) for row in rows for value in row)


def answers(rows):
    """What the program prints without a word, over so many rows, as SQLite has it."""
    base = tables(rows)
    for task, statement in STATEMENTS.items():
        print(task, *summary(task, base.execute(statement).fetchall()))


def lines_of_program():
    said = subprocess.run([PROGRAM, "operators"], check=True, capture_output=True, text=True)
    return [line.split() for line in said.stdout.splitlines()]


def times_of_statements(base):
    for task, statement in STATEMENTS.items():
        places = listing(base, PLACES[task])[0] if task in PLACES else None
        rows, listed = listing(base, statement)
        yield task, (places, rows, summing(base, statement)), summary(task, listed)


class Least:
    """The least times of each task, of which all answers must be the same."""

    def __init__(self):
        self.times, self.answers = {}, {}

    def take(self, who, task, times, answer):
        if self.answers.setdefault(task, answer) != answer:
            sys.exit(f"{task} answers {self.answers[task]}, and {who} {answer}")
        before = self.times.setdefault(who, {}).get(task, times)
        self.times[who][task] = [None if old is None else min(old, new) for old, new in zip(before, times)]


def print_tasks(least):
    print(f"{'task':8} {'answer':>9} {'read':>9} {'places':>9} {'rows':>9} {'sums':>9} {'answered':>9} {'values':>9} {'bar':>4} {'rows answered':>14}")
    for task, (answer, read) in least.times["ours"].items():
        places, rows, sums = least.times["SQLite"][task]
        shown = "" if places is None else f"{places:.1f}"
        answered, values = (rows if places is None else places) / answer, min(rows, sums) / read
        print(f"{task:8} {answer:9.1f} {read:9.1f} {shown:>9} {rows:9.1f} {sums:9.1f} {answered:9.1f} {values:9.1f} {BARS[task]:4} {least.answers[task][0]:14}")


def print_chains(chains):
    print(f"\n{'chain':10} {'number':>8} {'text':>8} {'times':>8} {'times':>8}")
    alone = chains["alone"]
    for chain, times in chains.items():
        print(f"{chain:10} {times[0]:8.2f} {times[1]:8.2f} {times[0] / alone[0]:8.1f} {times[1] / alone[1]:8.1f}")


def peak(word):
    """The number that the program prints of pairs, and the peak of its resident memory in bytes."""
    process = subprocess.Popen([PROGRAM, "pairs", word], stdout=subprocess.PIPE)
    count = int(process.stdout.read())
    _, status, used = os.wait4(process.pid, 0)
    process.returncode = os.waitstatus_to_exitcode(status)
    if process.returncode != 0:
        sys.exit(f"pairs {word} ended with {process.returncode}")
    return count, used.ru_maxrss * 1024


def print_pairs():
    """Before the rows of SQLite are made, since a new process begins with the peak of the one that starts it."""
    _, alone = peak("none")
    print()
    for word in ("size", "rows"):
        count, most = peak(word)
        print(f"{count} pairs by their {word}: {(most - alone) / count:.2f} bytes a pair")


def compare():
    if not PROGRAM.exists():
        subprocess.run(["rt", "run"], cwd=CRATE, check=True, stdout=subprocess.DEVNULL)
    print_pairs()
    base, least = tables(ROWS), Least()
    for _ in range(RUNS):
        for words in lines_of_program():
            if words[0] == "cells":
                _, chain, number, text, *sums = words
                least.take("chains", chain, (float(number), float(text)), None)
                least.take("sums of chains", "cells", (), tuple(sums))
            else:
                task, answer, read, size, total = words
                least.take("ours", task, (float(answer), float(read)), (int(size), int(total)))
        for task, times, answer in times_of_statements(base):
            least.take("SQLite", task, times, answer)
    print(f"SQLite {sqlite3.sqlite_version}, nanoseconds a row, the least of {RUNS}\n")
    print_tasks(least)
    print_chains(least.times["chains"])


def main():
    if len(sys.argv) > 1:
        answers(int(sys.argv[1]))
    else:
        compare()


main()
