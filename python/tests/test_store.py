"""Each call of a store and of a view, with what comes of it."""

import os
import pickle
import threading

import zugcose
from zugcose import Note, structure

from opened import PEOPLE, InFolder, fill

TEXTS = ["", "Ann", 'quoted "', "back\\slash", "two\nlines", "\\n", "\r\n", "tab\t", "é\u2028\x85\U0001f600", "x\"78\"", "(1)", "{", ",", "ok 5", "err 7 kind", "\x01\x7f", " "]


class Views(InFolder):
    def setUp(self):
        super().setUp()
        self.store = self.open()
        fill(self.store)

    def test_by_attribute_and_by_name(self):
        store = self.store
        self.assertEqual((store.people.path, store["people"].path, repr(store.people)), ("people", "people", "<view people>"))
        with self.assertRaises(AttributeError):
            store.peopel
        with self.assertRaises(KeyError):
            store["peopel"]
        self.assertFalse(hasattr(store, "__len__"))
        for name in ("log", "_2", "size"):
            store.declare(f"{name}[a:I]")
            store[name].append(5)
            self.assertEqual(store[name][0].a, 5)
        self.assertEqual(list(store), ["people", "log", "_2", "size"])

    def test_structures(self):
        self.store.declare(structure("b[x:L,y:B]"))
        self.store.declare("  c[z:S]  ")
        self.assertEqual([str(found) for found in self.store.struct().values()], [PEOPLE, "b[x:L,y:B]", "c[z:S]"])
        self.store.declare("b[y:B]")
        self.assertEqual([column.name for column in self.store.b.columns], ["y"])
        self.store.drop("b")
        self.assertEqual(list(self.store), ["people", "c"])
        self.assertEqual(self.store.view("people/0/phones").columns, structure("x[kind:S,number:S]").columns)

    def test_edits(self):
        people = self.store.people
        self.assertEqual(people.append(), 2)
        self.assertEqual(people[2], ("", (), 0))
        self.assertEqual(people.insert(0, "Cy", [], 5, count=2), 5)
        self.assertEqual(people.insert(5, "Di"), 6)
        self.assertEqual(people.insert(0, count=0), 6)
        self.assertEqual(people.column("name"), ["Cy", "Cy", "Ann", "Bob", "", "Di"])
        people.set(1, "phones", [("a", "b"), ("c",)])
        self.assertEqual(people[1].phones, (("a", "b"), ("c", "")))
        self.assertEqual(people.remove(0), 5)
        self.assertEqual(people.remove(3, 2), 3)
        self.assertEqual(people.column("name"), ["Cy", "Ann", "Bob"])
        self.assertEqual(people.remove(3, 0), 3)

    def test_inside_rows(self):
        phones = self.store.view("people/1/phones")
        self.assertEqual((phones.append("cell", "1"), phones.append("work"), len(phones)), (0, 1, 2))
        self.assertEqual(phones.extend([("a", "b"), ("c", "d")]), 2)
        phones.set(0, "number", "2")
        phones.remove(1)
        self.assertEqual(list(phones), [("cell", "2"), ("a", "b"), ("c", "d")])
        self.assertEqual(self.store.people[1].phones, tuple(phones))
        self.assertEqual(phones.column("kind"), ["cell", "a", "c"])
        self.assertEqual(phones.find({"kind": "c"}), 2)
        self.store.declare("t[a[b[c:I]]]")
        self.store.t.append([([(1,), (2,)],)])
        self.assertEqual(self.store.view("t/0/a/0/b").append(3), 2)
        self.assertEqual(self.store.t[0].a[0].b, ((1,), (2,), (3,)))

    def test_texts_and_bytes_come_back(self):
        self.store.declare("t[s:S,b:B,v[s:S]]")
        self.store.t.extend([(text, text.encode(), [(text,), (text + text,)]) for text in TEXTS])
        self.assertEqual(list(self.store.t), [(text, text.encode(), ((text,), (text + text,))) for text in TEXTS])
        self.assertEqual(self.store.t.column("s"), TEXTS)
        for at, text in enumerate(TEXTS):
            self.assertEqual(self.store.t.find({"s": text}), at)
        self.store.t.append("", b"\x00\xff\n\"")
        self.assertEqual(self.store.t[-1].b, b"\x00\xff\n\"")

    def test_numbers_at_their_ends(self):
        self.store.declare("t[i:I,l:L]")
        ends = [(-2147483648, -9223372036854775808), (2147483647, 9223372036854775807), (0, 0)]
        self.store.t.extend(ends)
        self.assertEqual(list(self.store.t), ends)
        for wrong in (2147483648, -2147483649):
            with self.refused("kind"):
                self.store.t.append(wrong)
        self.assertEqual(len(self.store.t), 3)

    def test_questions(self):
        store = self.store
        self.assertEqual((store.size("people"), store.size("people/0/phones")), (2, 1))
        self.assertEqual((store.find("people", {"name": "Bob", "born": 1980}), store.find("people", {"name": "Ann"}, 1)), (1, None))
        self.assertEqual([store.search("sort(people,born)", {"born": born}) for born in (1969, 1970, 1971, 1981)], [0, 0, 1, 2])
        self.assertEqual(store.locate("sort(people,-born)", {"born": 1970}), (1, 1))
        self.assertEqual(store.locate("sort(people,-born)", {"born": 1975}), (1, 0))
        with self.refused("unsorted"):
            store.search("people", {"born": 1})
        rows = store.query("joinprop(people,phones)")
        self.assertEqual((list(rows), rows[0].kind), ([("Ann", 1970, "home", "555-0100")], "home"))
        self.assertEqual(store.query("groupby(people,born:who)")[1].who[0].name, "Bob")
        self.assertEqual(store.query("counts(people,name:many)")[0].many, 1)

    def test_snapshots_and_watches(self):
        store = self.store
        store.dup("kept", "project(people,name,phones)")
        store.watch("old", "select(people,born=1970)")
        store.watch("many", "counts(old,name:n)")
        store.people.append("Al", [], 1970)
        self.assertEqual([row.name for row in store.query("kept")], ["Ann", "Bob"])
        self.assertEqual([row.name for row in store.query("sort(old,name)")], ["Al", "Ann"])
        self.assertEqual([(row.name, row.n) for row in store.query("many")], [("Al", 1), ("Ann", 1)])
        self.assertEqual(store.view("old")[1].name, "Al")
        self.assertEqual(store.view("kept").columns[1].kind, "view")
        with self.refused("inuse"):
            store.declare("people[name:S]")
        with self.refused("exists"):
            store.dup("old", "people")
        store.unwatch("many")
        store.unwatch("old")
        store.undup("kept")
        with self.refused("noname"):
            store.query("old")

    def test_snapshots_and_watches_by_lines(self):
        store = self.store
        store.ask("  dup  kept   project ( people , born )")
        store.ask("watch old range(people,born=0:1975)")
        self.assertEqual(store.query("concat(kept,kept)")[3].born, 1980)
        self.assertEqual(store.query("old")[0].phones[0].kind, "home")
        store.rollback()
        store.ask("getas other[z:S]")
        self.assertEqual(store.query("kept")[0].born, 1970)
        with self.refused("noname"):
            store.query("old")

    def test_views_by_key(self):
        store = self.store
        store.hash("people", 1)
        self.assertEqual(store.people.extend([("Cy", [], 1), ("Ann", [], 2), ("Cy", [], 3)]), 3)
        self.assertEqual([(row.name, row.born) for row in store.people], [("Ann", 2), ("Bob", 1980), ("Cy", 3)])
        with self.refused("kind") as seen:
            store.people.extend([("Di", [], 4), (5,), ("Ed", [], 6)])
        self.assertEqual((seen.error.row, store.people.column("name")), (1, ["Ann", "Bob", "Cy", "Di"]))
        store.unmap("people")
        store.ordered("people", 1)
        self.assertEqual(store.people.append("Al"), 0)
        with self.refused("inuse"):
            store.hash("people", 1)
        store.rollback()
        with self.refused("noname"):
            store.unmap("people")

    def test_lines(self):
        store = self.store
        self.assertEqual((store.ask("size people"), store.ask(""), store.ask("   ")), ("2", "", ""))
        self.assertEqual(store.ask("getas z[a:I]"), "z[a:I]")
        self.assertEqual(store.z.append(1), 0)
        self.assertEqual(store.ask("show z"), "1\n(1)")
        self.assertEqual(store.ask("cursor c z"), "0")
        self.assertEqual(store.ask("row c"), "(1)")
        self.assertEqual((store.ask('commit "raw"'), store.number), ("commit 1", 1))
        self.assertEqual(store.ask("quit"), "quit")
        with self.assertRaises(zugcose.Closed):
            store.ask("size people")


class Extending(InFolder):
    def setUp(self):
        super().setUp()
        self.store = self.open()
        self.store.declare("t[a:I,s:S]")

    def test_none(self):
        self.assertEqual((self.store.t.extend([]), len(self.store.t)), (0, 0))

    def test_more_than_a_pipe_holds(self):
        rows = [(number, "x" * (number % 50)) for number in range(6_000)]
        self.assertEqual(self.store.t.extend(rows), 6_000)
        self.assertEqual(list(self.store.t), rows)

    def test_lines_longer_than_a_pipe_holds(self):
        rows = [(number, "y" * 262_144) for number in range(4)]
        self.assertEqual(self.store.t.extend(iter(rows)), 4)
        self.assertEqual(list(self.store.t), rows)

    def test_a_refused_row(self):
        """The rows before it are there, and none from it on, wherever it stands among those that were sent together."""
        for wrong in (0, 1, 2_999, 5_999):
            rows = [(number, "x" * 20) if number != wrong else ("wrong",) for number in range(6_000)]
            before = len(self.store.t)
            with self.refused("kind") as seen:
                self.store.t.extend(rows)
            self.assertEqual((seen.error.row, seen.error.line), (wrong, 'add t "wrong"'))
            self.assertEqual(len(self.store.t), before + wrong)
            self.assertEqual(self.store.t[before:], rows[:wrong])
        self.assertIn("row 5999: kind: add t", str(seen.error))

    def test_several_refused_rows(self):
        with self.refused("kind") as seen:
            self.store.t.extend([(1,), ("a",), (2,), ("b",), (3,), (4, 5)])
        self.assertEqual((seen.error.row, list(self.store.t)), (1, [(1, "")]))
        with self.refused("noprop") as seen:
            self.store.t.extend([(1, "", 2)])
        self.assertEqual(seen.error.row, 0)

    def test_a_value_that_is_none(self):
        for wrong, kind in ((None, TypeError), (1 << 63, ValueError), ("\ud800", ValueError), ("\0", ValueError)):
            with self.assertRaises(kind):
                self.store.t.extend([(1, "kept"), (2, wrong), (3, "not")])
            self.assertEqual(list(self.store.t), [(1, "kept")])
            self.store.t.remove(0)
        with self.assertRaises(TypeError):
            self.store.t.extend([(1,), "ab"])
        with self.assertRaises(ValueError):
            self.store.t.extend([(1,), (1, "x" * 1_100_000)])
        self.assertEqual(len(self.store.t), 2)

    def test_rows_that_raise(self):
        def rows():
            yield (1,)
            yield (2,)
            raise ZeroDivisionError

        with self.assertRaises(ZeroDivisionError):
            self.store.t.extend(rows())
        self.assertEqual(self.store.t.column("a").tolist(), [1, 2])

    def test_rows_that_ask_the_store(self):
        """Rows may come from a query that is read in pieces meanwhile."""
        self.store.t.extend((number, "z" * 30) for number in range(3_000))
        self.store.declare("u[a:I,s:S]")
        self.assertEqual(self.store.u.extend(row for row in self.store.query("t") if row.a % 2), 1_500)
        self.assertEqual(self.store.u.column("a").tolist(), list(range(1, 3_000, 2)))

    def test_too_many_for_the_view(self):
        self.store.t.insert(0, 7, count=65_536)
        with self.refused("limit"):
            self.store.t.insert(0, 7, count=65_537)


class Commits(InFolder):
    def test_numbers_and_notes(self):
        with self.open() as store:
            self.assertEqual((store.number, store.space().number, store.log()), (0, 0, []))
            fill(store)
            self.assertEqual((store.commit(), store.commit('a "note"\n\\'), store.commit("")), (1, 2, 3))
            self.assertEqual((store.number, store.log()), (3, [Note(2, 'a "note"\n\\')]))
            store.people.remove(0)
            self.assertEqual((store.rollback(), len(store.people)), (3, 2))
            store.people.remove(0)
            self.assertEqual((store.reopen(), len(store.people)), (3, 2))
            self.assertEqual((store.revert(), store.number), (2, 3))
            self.assertEqual((store.commit("again"), store.number), (4, 4))
            space = store.space()
            self.assertEqual(space.number, 4)
            self.assertGreaterEqual(space.end, space.used)
        with self.open() as store:
            self.assertEqual((store.number, store.people[1].name), (4, "Bob"))
            self.assertEqual(store.log(), [Note(4, "again"), Note(2, 'a "note"\n\\')])

    def test_without_a_commit(self):
        with self.open() as store:
            fill(store)
        with self.open() as store:
            self.assertEqual((store.number, list(store)), (0, []))

    def test_an_exception_in_the_block(self):
        with self.assertRaises(ZeroDivisionError):
            with self.open() as store:
                fill(store)
                store.commit()
                store.people.remove(0)
                1 / 0
        self.assertEqual(store.close(), 0)
        with self.open() as store:
            self.assertEqual((store.number, len(store.people)), (1, 2))

    def test_no_commit_before(self):
        with self.refused("noname"):
            self.open().revert()

    def test_long_notes(self):
        store = self.open()
        self.assertEqual(store.commit("é" * 127), 1)
        self.assertEqual(store.log()[0].text, "é" * 127)
        with self.refused("syntax", 7):
            store.commit("é" * 128)

    def test_only_read(self):
        with self.assertRaises(zugcose.NotAStore):
            (self.folder / "f").touch()
            self.open(read_only=True)
        with self.open() as store:
            fill(store)
            store.commit()
        with self.open(read_only=True) as one, self.open(read_only=True) as other:
            self.assertEqual(one.people[0], other.people[0])
            one.people.remove(0)
            with self.refused("readonly"):
                one.commit()
            with self.assertRaises(zugcose.NotOpened):
                self.open()

    def test_two_on_one_file(self):
        with self.open():
            with self.assertRaises(zugcose.NotOpened):
                self.open()
            with self.assertRaises(zugcose.NotOpened):
                self.open(read_only=True)
        self.open()

    def test_files_that_are_not_served(self):
        (self.folder / "other").write_text("Dear all,\n" * 50)
        with self.assertRaises(zugcose.NotAStore):
            self.open("other")
        for path in (".", "/dev/null", "nosuch/f"):
            with self.assertRaises(zugcose.NotOpened):
                self.open(path)
        with self.assertRaises(zugcose.WrongWords):
            self.open(cap=7)
        with self.assertRaises(ValueError):
            self.open("a\0b")

    def test_names_of_files(self):
        with self.assertRaises(zugcose.WrongWords):
            self.open(b"\xff")
        for path in ("--read", "-", "é", self.folder / "p", b"q"):
            with self.open(path) as store:
                store.commit()
            with self.open(path) as store:
                self.assertEqual(store.number, 1)


class Misuse(InFolder):
    def setUp(self):
        super().setUp()
        self.store = self.open()
        fill(self.store)

    def tearDown(self):
        """Nothing changed, and lines and replies still belong together."""
        if not self.store._session._closed:
            self.assertEqual((self.store.size("people"), self.store.people[0].name), (2, "Ann"))

    def test_lines(self):
        for line in ("size people\nsize people", "\n", "x" * 1_048_577, 'add people "' + "x" * 2_000_000 + '"', "size \ud800"):
            with self.assertRaises(ValueError):
                self.store.ask(line)
        with self.refused("syntax", 11):
            self.store.ask('add people "a\0b"')
        with self.refused("syntax", 1_048_576):
            self.store.ask("size".ljust(1_048_576))

    def test_values(self):
        for value, kind in ((None, TypeError), (1.5, TypeError), ({}, TypeError), (1 << 63, ValueError), (-(1 << 63) - 1, ValueError),
                            ("\0", ValueError), ("\udc80", ValueError), ([()], ValueError), ("x" * 1_048_577, ValueError)):
            for edit in (lambda: self.store.people.append(value), lambda: self.store.people.insert(0, value),
                         lambda: self.store.people.set(0, "name", value), lambda: self.store.find("people", {"name": value})):
                with self.assertRaises(kind):
                    edit()

    def test_wrong_kinds(self):
        for value in (1, b"Ann", []):
            with self.refused("kind"):
                self.store.people.set(0, "name", value)
        with self.refused("kind"):
            self.store.people.append("Cy", [(1,)])
        with self.refused("noprop"):
            self.store.people.append("Cy", [], 1, 2)
        with self.refused("noprop"):
            self.store.people.set(0, "age", 1)
        with self.refused("limit"):
            self.store.people.append("x" * 262_145)

    def test_places(self):
        with self.refused("range", 2):
            self.store.people.set(2, "born", 1)
        with self.refused("range", 2):
            self.store.people.insert(3, "Cy")
        with self.refused("range", 2):
            self.store.people.remove(1, 2)
        for wrong in (-1, 1 << 63):
            for edit in (lambda: self.store.people.set(wrong, "born", 1), lambda: self.store.people.insert(wrong), lambda: self.store.people.remove(wrong),
                         lambda: self.store.people.remove(0, wrong), lambda: self.store.find("people", {"born": 1}, wrong)):
                with self.assertRaises(ValueError):
                    edit()
        for wrong in ("0", 0.0, None):
            with self.assertRaises(TypeError):
                self.store.people.remove(wrong)
            with self.assertRaises(TypeError):
                self.store.people[wrong]

    def test_names(self):
        for name in ("", "a b", "a\nb", "5a", "é", "a/b"):
            for call in (lambda: self.store.drop(name), lambda: self.store.dup(name, "people"), lambda: self.store.undup(name),
                         lambda: self.store.watch(name, "sort(people)"), lambda: self.store.hash(name, 1), lambda: self.store.people.set(0, name, 1),
                         lambda: self.store.find("people", {name: 1}), lambda: self.store.view(name + " ")):
                with self.assertRaises(ValueError):
                    call()
        for path in ("people/0", "people/0/phones/", "/people", "people/-1/phones", "people/0/phones\n"):
            with self.assertRaises(ValueError):
                self.store.view(path)
        with self.refused("syntax", 5):
            self.store.drop("n" * 32)

    def test_another_thread(self):
        found = []

        def other():
            for use in (lambda: self.store.size("people"), lambda: self.store.people, lambda: self.store.close(), lambda: rows[0]):
                try:
                    use()
                except zugcose.WrongThread as error:
                    found.append(str(error))

        rows = self.store.query("people")
        thread = threading.Thread(target=other)
        thread.start()
        thread.join()
        self.assertEqual(found, ["the store belongs to the thread that opened it"] * 4)

    def test_a_result_that_ends_in_another_thread(self):
        held = [self.store.query("people")]
        thread = threading.Thread(target=held.clear)
        thread.start()
        thread.join()
        self.assertEqual(len(self.store._session.given_up), 1)
        self.assertEqual(self.store.size("people"), 2)
        self.assertEqual(self.store._session.given_up, [])

    def test_a_forked_process(self):
        child = os.fork()
        if child == 0:
            status = 1
            try:
                self.store.people.append("Cy")
            except zugcose.WrongThread:
                status = 0
            finally:
                os._exit(status)
        self.assertEqual(os.waitpid(child, 0)[1], 0)

    def test_after_the_end(self):
        rows = self.store.query("people")
        few = list(rows)
        self.assertEqual((self.store.close(), self.store.close()), (0, 0))
        for use in (lambda: self.store.commit(), lambda: self.store.people, lambda: self.store.query("people"), lambda: self.store.view("people")[0]):
            with self.assertRaises(zugcose.Closed):
                use()
        self.assertEqual((rows[0], few[1].name), (few[0], "Bob"))

    def test_refusals_tell_all(self):
        with self.assertRaises(zugcose.RangeRefused) as caught:
            self.store.people.set(7, "born", 1)
        error = caught.exception
        self.assertEqual((error.number, error.word, error.values, error.line, error.row), (5, "range", (2,), "set people 7 born 1", None))
        self.assertEqual(str(error), "range 2: set people 7 born 1")
        self.assertIsInstance(error, zugcose.Error)
        again = pickle.loads(pickle.dumps(error))
        self.assertEqual((type(again), again.values), (zugcose.RangeRefused, (2,)))
        with self.assertRaises(zugcose.FloatingRefused) as caught:
            self.store.declare("f[x:F]")
        self.assertEqual(caught.exception.values, (10,))
        with self.assertRaises(zugcose.Refused) as caught:
            self.store.people.append("y" * 1_000, 5)
        self.assertLess(len(str(caught.exception)), 300)
