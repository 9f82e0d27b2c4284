"""What several tests use: a folder of their own, and a store in it."""

import os
import tempfile
import unittest
from pathlib import Path

import zugcose

PEOPLE = "people[name:S,phones[kind:S,number:S],born:I]"


def fill(store):
    """The rows with which the examples of the docstrings begin."""
    store.declare(PEOPLE)
    store.people.append("Ann", [("home", "555-0100")], 1970)
    store.people.append("Bob", [], 1980)


class InFolder(unittest.TestCase):
    """Each test runs in an empty folder."""

    def setUp(self):
        folder = tempfile.TemporaryDirectory()
        self.addCleanup(folder.cleanup)
        self.folder = Path(folder.name)
        self.addCleanup(os.chdir, os.getcwd())
        os.chdir(folder.name)

    def open(self, path="f", **options):
        store = zugcose.open(path, **options)
        self.addCleanup(store.close)
        return store

    def refused(self, word, *values):
        """What follows is refused with this word and these values."""
        return Refusal(self, word, values)


class Refusal:
    def __init__(self, test, word, values):
        self.test, self.due = test, (word, values)

    def __enter__(self):
        return self

    def __exit__(self, kind, error, _):
        self.test.assertIsInstance(error, zugcose.Refused, f"{self.due[0]} did not come")
        self.test.assertEqual((error.word, error.values), self.due)
        self.error = error
        return True
