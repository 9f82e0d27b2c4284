#!/usr/bin/env python3
"""Opens a store, asks it the lines of the standard input, and says what became of it: examples/opening.py PROGRAM FILE OPTION ..

A client that goes on by itself has to tell these ends apart: some are mended by waiting, some by other words, and some by a copy of the file.
"""

import sys

from mkshell import Damaged, Ended, NotAStore, NotOpened, NotServed, OutOfMemory, Refused, Store, WrongWords


def main():
    program, file, *options = sys.argv[1:]
    try:
        with Store(program, file, *options) as store:
            print(f"it stands for commit {store.number}")
            ask_all(store)
    except WrongWords:
        print("these options do not go together")
    except NotOpened as held:
        print(f"{held}: try again when the other has ended, or look at its name")
    except NotAStore as other:
        print(f"{other}: take another file")
    except Damaged as damaged:
        print(f"wanting at byte {damaged.at}: keep the file, and go on with a copy")
    except OutOfMemory:
        print("there is too little memory to open it")
    except NotServed as unknown:
        print(f"no greeting: {unknown}")
    except Ended as ended:
        print(f"the session ended with status {ended.status}: open the file again, and see which commit it stands for")


def ask_all(store):
    for line in sys.stdin.read().splitlines():
        try:
            print(f"{line}: {store.ask(line)}")
        except Refused as refused:
            print(f"{line}: refused as {refused.word}")


main()
