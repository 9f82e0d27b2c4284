"""Rows: by name and place, results that stay, pieces, snapshots and what is left of them."""

import copy
import gc
import pickle
from array import array
from unittest import mock

import zugcose
from zugcose import rows as module

from opened import InFolder, fill


class Fields(InFolder):
    def setUp(self):
        super().setUp()
        self.store = self.open()

    def test_names_that_are_no_attributes(self):
        self.store.declare("t[class:I,_fields:I,count:I,index:I,a:I,A:I,__class__:I,self:I]")
        self.store.t.append(1, 2, 3, 4, 5, 6, 7, 8)
        row = self.store.t[0]
        self.assertEqual(row, (1, 2, 3, 4, 5, 6, 7, 8))
        self.assertEqual([row[name] for name in ("class", "_fields", "count", "index", "a", "A", "__class__", "self")], [1, 2, 3, 4, 5, 6, 7, 8])
        self.assertEqual((row._0, row._1, row.count, row.index, row.a, row.A, row._6, row.self), (1, 2, 3, 4, 5, 6, 7, 8))
        self.assertEqual(row._fields, ("_0", "_1", "count", "index", "a", "A", "_6", "self"))
        self.assertEqual((row[-1], row[1:3]), (8, (2, 3)))
        self.assertIs(type(row), zugcose.rows.row_type(self.store.t.columns))
        with self.assertRaises(KeyError):
            row["none"]
        with self.assertRaises(AttributeError):
            row.none
        with self.assertRaises(AttributeError):
            row.a = 1

    def test_rows_are_values(self):
        fill(self.store)
        row = self.store.people[0]
        self.assertIsInstance(row, zugcose.Row)
        self.assertEqual(pickle.loads(pickle.dumps(row)), row)
        self.assertEqual(pickle.loads(pickle.dumps(row)).phones[0].kind, "home")
        self.assertEqual(copy.deepcopy(row).phones[0]["number"], "555-0100")
        self.assertEqual({row: 1}[("Ann", (("home", "555-0100"),), 1970)], 1)
        name, phones, born = row
        self.assertEqual((name, len(phones), born), ("Ann", 1, 1970))

    def test_a_row_is_written_again(self):
        fill(self.store)
        self.store.people.append(*self.store.people[0])
        self.store.people.extend(self.store.query("people"))
        self.assertEqual(self.store.people.column("name"), ["Ann", "Bob", "Ann", "Ann", "Bob", "Ann"])
        self.assertEqual(self.store.people[5].phones, (("home", "555-0100"),))


class Results(InFolder):
    """`t` has the numbers from 0 to 2499, with their squares as texts: three pieces."""

    COUNT = 2_500

    def setUp(self):
        super().setUp()
        self.store = self.open()
        self.store.declare("t[a:I,s:S,v[b:L]]")
        self.rows = [(number, str(number * number), ((number,),) * (number % 3)) for number in range(self.COUNT)]
        self.store.t.extend(self.rows)
        self.lines = []
        exchange = self.store._session.exchange
        self.store._session.exchange = lambda lines: self.lines.extend(lines) or exchange(lines)

    def snapshots(self):
        """How many snapshots are there, by how many more may be made."""
        made = 0
        try:
            while True:
                self.store.ask(f"dup probe{made} t")
                made += 1
        except zugcose.LimitRefused:
            pass
        for number in range(made):
            self.store.undup(f"probe{number}")
        return 64 - made

    def test_as_a_sequence(self):
        rows = self.store.query("t")
        self.assertEqual(len(rows), 2_500)
        self.assertEqual(rows, self.rows)
        self.assertEqual((rows[0], rows[2_499], rows[-1], rows[-2_500]), (self.rows[0], self.rows[2_499], self.rows[2_499], self.rows[0]))
        for at in (2_500, -2_501):
            with self.assertRaises(IndexError):
                rows[at]
        for cut in (slice(5, 10), slice(990, 1_010), slice(None), slice(-3, None), slice(2_400, 9_999), slice(7, 3), slice(None, None, -1),
                    slice(10, 3, -2), slice(11, 3, -2), slice(1, 2_500, 700), slice(2_499, 0, -1_249), slice(2_500, 2_600)):
            self.assertEqual(rows[cut], self.rows[cut], cut)
        self.assertEqual(list(reversed(rows)), self.rows[::-1])
        self.assertIn(self.rows[1_200], rows)
        self.assertNotIn((1, "2", ()), rows)

    def test_a_view_as_a_sequence(self):
        view = self.store.t
        self.assertEqual((len(view), view[0], view[-1]), (2_500, self.rows[0], self.rows[-1]))
        for at in (2_500, -2_501, 1 << 70, -(1 << 70)):
            with self.assertRaises(IndexError):
                view[at]
        for cut in (slice(5, 10), slice(990, 1_010), slice(-3, None), slice(None, None, -1), slice(11, 3, -2), slice(7, 3)):
            self.assertEqual(view[cut], self.rows[cut], cut)
        self.assertEqual(list(view), self.rows)

    def test_is_not_read_before_it_is_asked_for(self):
        rows = self.store.query("t")
        self.assertEqual([line.split()[0] for line in self.lines], [b"dup"])
        self.lines.clear()
        some = iter(rows)
        for _ in range(1_000):
            next(some)
        self.assertEqual([line.split(b",", 1)[1] for line in self.lines], [b"0,1000,1)"])
        next(some)
        self.assertEqual([line.split(b",", 1)[1] for line in self.lines], [b"0,1000,1)", b"1000,2000,1)"])

    def test_few_rows_are_read_once(self):
        rows = self.store.query("slice(t,0,1000,1)")
        self.lines.clear()
        self.assertEqual(list(rows), self.rows[:1_000])
        self.assertEqual((rows[5], rows[-1], rows[3:9], rows.column("a")[7]), (self.rows[5], self.rows[999], self.rows[3:9], 7))
        self.assertEqual(len(self.lines), 1)

    def test_stays_as_it_was(self):
        few, many = self.store.query("slice(t,0,10,1)"), self.store.query("t")
        some = iter(many)
        first = [next(some) for _ in range(5)]
        self.store.t.remove(0, 2_000)
        self.store.t.set(0, "s", "changed")
        self.store.declare("t[s:S]")
        self.store.drop("t")
        self.assertEqual(few, self.rows[:10])
        self.assertEqual(first + list(some), self.rows)
        self.assertEqual(many.column("a"), array("q", range(2_500)))

    def test_stays_over_commits_and_rollbacks(self):
        self.store.commit()
        many = self.store.query("t")
        self.store.t.remove(0, 2_000)
        self.store.rollback()
        self.store.t.remove(0, 1_000)
        self.store.commit()
        self.store.revert()
        self.store.reopen()
        self.assertEqual(many, self.rows)
        self.assertEqual(len(self.store.t), 1_500)

    def test_columns(self):
        for rows in (self.store.query("t"), self.store.t, self.store.query("sort(t,a)")):
            self.assertEqual(rows.column("a"), array("q", range(2_500)))
            self.assertEqual(rows.column("s"), [str(number * number) for number in range(2_500)])
            self.assertEqual(rows.column("v"), [row[2] for row in self.rows])
            with self.assertRaises(KeyError):
                rows.column("nosuch")
        few = self.store.query("slice(t,0,3,1)")
        self.assertEqual((few.column("a"), few.column("s"), few.column("v")), (array("q", [0, 1, 2]), ["0", "1", "4"], [(), ((1,),), ((2,), (2,))]))
        self.assertEqual(self.store.query("slice(t,0,0,1)").column("a"), array("q"))
        self.assertEqual(self.store.query("calc(t,twice,a:d)").column("d")[-1], 4_998)

    def test_columns_where_numpy_is(self):
        numpy = mock.Mock(array=lambda found, dtype: ("numpy", list(found), dtype), int64="int64")
        with mock.patch.object(module, "numpy", numpy):
            self.assertEqual(self.store.query("slice(t,0,3,1)").column("a"), ("numpy", [0, 1, 2], "int64"))
            self.assertEqual(self.store.query("t").column("a"), ("numpy", list(range(2_500)), "int64"))
            self.assertEqual(self.store.query("slice(t,0,1,1)").column("s"), ["0"])

    def test_no_rows(self):
        rows = self.store.query("select(t,a=-1)")
        self.assertEqual((len(rows), list(rows), rows[:], rows.column("s")), (0, [], [], []))
        self.assertFalse(rows)
        with self.assertRaises(IndexError):
            rows[0]

    def test_snapshots_are_given_up(self):
        held = self.store.query("t")
        self.assertEqual(self.snapshots(), 1)
        read = self.store.query("slice(t,0,10,1)")
        self.assertEqual(self.snapshots(), 2)
        list(read)
        self.assertEqual(self.snapshots(), 1)
        with self.store.query("t") as rows:
            self.assertEqual((self.snapshots(), rows[0]), (2, self.rows[0]))
        self.assertEqual(self.snapshots(), 1)
        rows.close()
        with self.assertRaises(ValueError):
            rows[1]
        self.assertEqual((len(rows), len(read), read[9]), (2_500, 10, self.rows[9]))
        del held
        gc.collect()
        self.assertEqual(self.snapshots(), 0)

    def test_more_results_than_snapshots(self):
        results = [self.store.query(f"select(t,a={number})") for number in range(100)]
        self.assertEqual([rows[0].a for rows in results], list(range(100)))
        many = [self.store.query("t") for _ in range(64)]
        self.assertEqual(self.store.query("select(t,a=7)")[0].a, 7)
        with self.refused("limit"):
            self.store.query("t")
        many.pop().close()
        self.assertEqual(self.store.query("t"), self.rows)

    def test_the_limit_of_an_expression(self):
        with self.refused("limit"):
            self.store.query("sort(" * 16 + "t" + ")" * 16)

    def test_names_do_not_meet(self):
        """The names of the user are free, whatever they are: those of the package have 16 digits by chance."""
        other = self.open("g")
        first, second = self.store.query("t"), other.query("sort(g)") if "g" in other else None
        self.assertIsNone(second)
        self.assertRegex(first._kept.name, r"\A_[0-9a-f]{16}_[0-9]+\Z")
        self.assertEqual(list(self.store), ["t"])


class Refusals(InFolder):
    def test_an_expression_is_refused_as_it_was_given(self):
        store = self.open()
        fill(store)
        with self.refused("syntax", 12) as seen:
            store.query("people % 5")
        self.assertEqual(seen.error.line, "show people % 5")
        with self.refused("noprop") as seen:
            store.query("sort(people,age)")
        self.assertEqual((seen.error.line, str(seen.error)), ("show sort(people,age)", "noprop: show sort(people,age)"))
        with self.refused("noname"):
            store.query("nosuch")
        with self.refused("range", 2):
            store.query("people/2/phones")
        with self.refused("range", 2):
            store.query("slice(people,0,1,0)")
