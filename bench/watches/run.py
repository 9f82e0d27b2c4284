#!/usr/bin/env python3
"""Times what follows the events of a table: watches, counts of a key, and an index of keys, over 50,000 rows and over a million.

Prints a line for each, with the microseconds of an insertion, a removal and a change, each the mean of 300 events at places from a
number, and of these the least of three runs.
"""

import subprocess
from pathlib import Path

CRATE = Path(__file__).resolve().parents[2] / "crates" / "bench"
RUNS = 3


def times():
    said = subprocess.run([CRATE / "out" / "bench", "watches"], check=True, capture_output=True, text=True)
    for line in said.stdout.splitlines():
        what, rows, *nanoseconds = line.split()
        yield (what, int(rows)), [int(number) for number in nanoseconds]


def main():
    subprocess.run(["rt", "run"], cwd=CRATE, check=True, stdout=subprocess.DEVNULL)
    least = {}
    for _ in range(RUNS):
        for what, now in times():
            least[what] = [min(pair) for pair in zip(least.get(what, now), now)]
    print(f"microseconds an event, the least of {RUNS}")
    print(f"{'follower':12} {'rows':>8} {'insert':>9} {'remove':>9} {'change':>9}")
    for (what, rows), nanoseconds in least.items():
        print(f"{what:12} {rows:8}", *(f"{number / 1000:9.2f}" for number in nanoseconds))


main()
