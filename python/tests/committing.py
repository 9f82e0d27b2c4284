"""Appends and commits without end, until it is killed: committing.py FILE.

Commit N adds the rows that `added` gives for it. The number of each commit is said when it is acknowledged, and before them that of the greeting.
"""

import os
import sys

import zugcose

STRUCTURE = "t[n:I,s:S,v[k:I]]"


def added(number):
    """The rows of a commit: from one to three."""
    return tuple((number, "x" * (at + number % 9), tuple((number + one,) for one in range(at))) for at in range(1 + number % 3))


def main():
    with zugcose.open(sys.argv[1]) as store:
        os.write(1, b"%d\n" % store.number)
        store.declare(STRUCTURE)
        while True:
            rows = added(store.number + 1)
            store.t.append(*rows[0])
            store.t.extend(rows[1:])
            os.write(1, b"%d\n" % store.commit())


if __name__ == "__main__":
    main()
