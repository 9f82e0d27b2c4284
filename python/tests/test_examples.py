"""The examples of the docstrings, each on a new store."""

import doctest
import os
import tempfile

import zugcose
from zugcose import child, errors, expressions, literals, names, rows, session, store, structures, transport, views

from opened import fill

MODULES = (zugcose, child, errors, expressions, literals, names, rows, session, store, structures, transport, views)


def begin(test):
    folder = tempfile.TemporaryDirectory()
    back = os.getcwd()
    os.chdir(folder.name)
    opened = zugcose.open("f")
    fill(opened)
    # No array of numpy: it is printed otherwise.
    numpy, rows.numpy = rows.numpy, None
    test.globs.update(zugcose=zugcose, store=opened)
    test.globs["_end"] = (opened, folder, back, numpy)


def end(test):
    opened, folder, back, rows.numpy = test.globs["_end"]
    opened.close()
    os.chdir(back)
    folder.cleanup()


def load_tests(_loader, tests, _pattern):
    for module in MODULES:
        tests.addTests(doctest.DocTestSuite(module, setUp=begin, tearDown=end))
    return tests
