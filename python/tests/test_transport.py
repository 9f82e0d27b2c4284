"""Everything but the child stands above a transport: a store over the plain program of tests/questions, in this process."""

import sys
import unittest
from pathlib import Path

import zugcose

from opened import PEOPLE, fill

sys.path.append(str(Path(__file__).resolve().parents[2] / "tests"))

from plain import tables
from plain.session import Session


class Plain(zugcose.Transport):
    """It has the two methods that a transport must have."""

    number = 0

    def __init__(self):
        self.session, self.closed = Session(*tables.new_file()), 0

    def ask(self, line):
        return self.session.answer(line).encode()

    def close(self):
        self.closed += 1
        return 0


class OverAnother(unittest.TestCase):
    def test_a_session(self):
        transport = Plain()
        with zugcose.Store(transport) as store:
            fill(store)
            self.assertEqual(str(store.struct()["people"]), PEOPLE)
            self.assertEqual(store.people.extend([("Cy", [("cell", "1")], 1970), ("Di",)]), 2)
            with self.assertRaises(zugcose.KindRefused) as caught:
                store.people.extend([("Ed",), (5,), ("Flo",)])
            self.assertEqual((caught.exception.row, store.people.column("name")), (1, ["Ann", "Bob", "Cy", "Di", "Ed"]))
            rows = store.query("sort(select(people,born=1970),-name)")
            self.assertEqual([(row.name, row.phones[0].number) for row in rows], [("Cy", "1"), ("Ann", "555-0100")])
            self.assertEqual((store.commit("first"), store.number, store.log()[0].text), (1, 1, "first"))
            rows = store.query("people")
            store.drop("people")
            self.assertEqual(len(list(rows)), 5)
            self.assertEqual(store.ask(""), "")
            self.assertEqual((store.rollback(), transport.session.snapshots), (1, {}))
        self.assertEqual(transport.closed, 1)
