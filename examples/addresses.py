#!/usr/bin/env python3
"""Keeps addresses in a store: examples/addresses.py PROGRAM FILE.

Each run adds a visit to each person and says what is kept, so a second run shows what the first one committed.
"""

import sys

from mkshell import Refused, Store


def main():
    program, file = sys.argv[1:]
    with Store(program, file) as store:
        print(f"opened at commit {store.number}")
        store.ask("getas people[name:S,born:I,visits[day:I]]")
        if store.number == 0:
            store.add("people", "Ann \"the\nfirst\"", 1970)
            store.add("people", "Bob", 1971, [(3,), (5,)])
        try:
            store.add("people", 1972, "Cy")
        except Refused as refused:
            print(f"refused: {refused.word}")
        for at, (name, born, visits) in enumerate(store.rows("people")):
            store.add(f"people/{at}/visits", store.number + 10)
            print(f"{name!r}, {born}: {len(visits)} visits before")
        print(f"stored as commit {store.commit('a visit each')}")


main()
