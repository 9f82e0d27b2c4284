"""Random sessions beside a plain list of rows: edits at both levels, refused ones, commits, rollbacks and openings."""

import copy
import random

import zugcose

from opened import InFolder

SEED = 11
SESSIONS, EDITS = 8, 500
STRUCTURE = "t[n:I,s:S,b:B,v[k:L,w:S]]"
TEXTS = ["", "a", "ab", 'q"', "b\\", "l\n", "é", "\u2028"]
DEFAULTS, INNER_DEFAULTS = (0, "", b"", ()), (0, "")


class Model:
    """The rows as lists, with a list of lists in the last place of each."""

    def __init__(self, chance):
        self.chance = chance
        self.rows, self.kept, self.before, self.number = [], [], None, 0

    def plain(self):
        return [tuple(tuple(map(tuple, value)) if isinstance(value, list) else value for value in row) for row in self.rows]

    def values(self, defaults):
        """Some first values of a row, and the whole row."""
        kinds = [self.number_of(31 if len(defaults) == 4 else 63), self.chance.choice(TEXTS)]
        if len(defaults) == 4:
            kinds += [bytes(self.chance.choices(range(256), k=self.chance.randrange(3))),
                      [list(self.values(INNER_DEFAULTS)[1]) for _ in range(self.chance.randrange(3))]]
        given = kinds[:self.chance.randint(1, len(kinds))]
        return given, [*given, *(list(value) if value == () else value for value in defaults[len(given):])]

    def number_of(self, bits):
        return self.chance.choice([0, 1, -1, self.chance.randrange(-(1 << bits), 1 << bits), (1 << bits) - 1, -(1 << bits)])

    def place(self):
        return self.chance.randrange(len(self.rows))


class Sessions(InFolder):
    def test_beside_a_list_of_rows(self):
        came = {}
        for number in range(SESSIONS):
            chance = random.Random(f"{SEED} {number}")
            self.model, self.path = Model(chance), f"f{number}"
            self.store = self.open(self.path)
            self.store.declare(STRUCTURE)
            self.results = []
            for at in range(EDITS):
                step = chance.choice(self.STEPS)
                came[step.__name__] = came.get(step.__name__, 0) + 1
                try:
                    step(self)
                    self.look(chance)
                except Exception as error:
                    raise AssertionError(f"session {number}, edit {at}, {step.__name__}: {error}") from error
            self.store.close()
        self.assertEqual(len(came), len(set(self.STEPS)))

    # Edits, each in the store and in the model.

    def append(self):
        given, row = self.model.values(DEFAULTS)
        self.assertEqual(self.store.t.append(*given), len(self.model.rows))
        self.model.rows.append(row)

    def extend(self):
        made = [self.model.values(DEFAULTS) for _ in range(self.model.chance.choice([0, 1, 3, 40]))]
        self.assertEqual(self.store.t.extend(given for given, _ in made), len(made))
        self.model.rows += [row for _, row in made]

    def extend_refused(self):
        made = [self.model.values(DEFAULTS) for _ in range(5)]
        wrong = self.model.chance.randrange(6)
        with self.assertRaises(zugcose.KindRefused) as caught:
            self.store.t.extend([given for given, _ in made[:wrong]] + [("wrong",)] + [given for given, _ in made[wrong:]])
        self.assertEqual(caught.exception.row, wrong)
        self.model.rows += [row for _, row in made[:wrong]]

    def insert(self):
        given, row = self.model.values(DEFAULTS)
        at, count = self.model.chance.randint(0, len(self.model.rows)), self.model.chance.randrange(4)
        self.model.rows[at:at] = [copy.deepcopy(row) for _ in range(count)]
        self.assertEqual(self.store.t.insert(at, *given, count=count), len(self.model.rows))

    def set(self):
        if self.model.rows:
            at, place = self.model.place(), self.model.chance.randrange(4)
            value = self.model.values(DEFAULTS)[1][place]
            self.store.t.set(at, "nsbv"[place], value)
            self.model.rows[at][place] = copy.deepcopy(value)

    def remove(self):
        if self.model.rows:
            at = self.model.place()
            count = self.model.chance.randint(0, min(3, len(self.model.rows) - at))
            del self.model.rows[at:at + count]
            self.assertEqual(self.store.t.remove(at, count), len(self.model.rows))

    def inside(self):
        """An edit of the view in a row."""
        if not self.model.rows:
            return
        at = self.model.place()
        view, rows = self.store.view(f"t/{at}/v"), self.model.rows[at][3]
        given, row = self.model.values(INNER_DEFAULTS)
        kind = self.model.chance.randrange(5)
        if kind == 0 and rows:
            place = self.model.chance.randrange(len(rows))
            view.set(place, "w", "set")
            rows[place][1] = "set"
        elif kind == 1 and rows:
            del rows[0]
            self.assertEqual(view.remove(0), len(rows))
        elif kind == 2:
            self.assertEqual(view.extend([given] * 3), 3)
            rows += [list(row) for _ in range(3)]
        elif kind == 3:
            rows.insert(0, list(row))
            self.assertEqual(view.insert(0, *given), len(rows))
        else:
            self.assertEqual(view.append(*given), len(rows))
            rows.append(list(row))

    def refused_edit(self):
        size = len(self.model.rows)
        for edit in (lambda: self.store.t.set(size, "n", 1), lambda: self.store.t.insert(size + 1), lambda: self.store.t.remove(size, 1),
                     lambda: self.store.t.append(1, 2), lambda: self.store.t.append(0, "", b"", [], 0), lambda: self.store.view(f"t/{size}/v").append()):
            with self.assertRaises(zugcose.Refused):
                edit()

    def commit(self):
        self.model.before, self.model.kept = self.model.kept, copy.deepcopy(self.model.rows)
        self.model.number += 1
        self.assertEqual(self.store.commit("n" * self.model.chance.randrange(3)), self.model.number)

    def rollback(self):
        if self.model.number:
            self.model.rows = copy.deepcopy(self.model.kept)
            self.assertEqual(self.model.chance.choice([self.store.rollback, self.store.reopen])(), self.model.number)

    def revert(self):
        if self.model.number > 1:
            self.model.rows = copy.deepcopy(self.model.before)
            self.assertEqual(self.store.revert(), self.model.number - 1)

    def open_again(self):
        if self.model.number:
            self.results.clear()
            self.store.close()
            self.store = self.open(self.path)
            self.assertEqual(self.store.number, self.model.number)
            self.model.rows = copy.deepcopy(self.model.kept)

    def keep_result(self):
        """A result that is looked at later."""
        self.results.append((self.store.query("t"), self.model.plain()))

    STEPS = [append] * 6 + [extend] * 3 + [extend_refused, insert, insert, insert] + [set] * 6 + [remove] * 3 + [inside] * 8 + [
        refused_edit, commit, commit, rollback, revert, open_again, keep_result]

    # What the store then shows.

    def look(self, chance):
        rows = self.model.plain()
        kind = chance.randrange(8)
        if kind == 0:
            self.assertEqual(list(self.store.t), rows)
        elif kind == 1:
            self.assertEqual(len(self.store.t), len(rows))
        elif kind == 2 and rows:
            at = chance.randrange(-len(rows), len(rows))
            self.assertEqual(self.store.t[at], rows[at])
            self.assertEqual(self.store.query("t")[at].v, rows[at][3])
        elif kind == 3:
            one, two, step = chance.randrange(-60, 60), chance.randrange(-60, 60), chance.choice([1, 1, 2, -1, -3])
            self.assertEqual(self.store.t[one:two:step], rows[one:two:step])
            self.assertEqual(self.store.query("t")[one:two:step], rows[one:two:step])
        elif kind == 4:
            self.assertEqual(self.store.t.column("n").tolist(), [row[0] for row in rows])
            self.assertEqual(self.store.t.column("s"), [row[1] for row in rows])
        elif kind == 5:
            text = chance.choice(TEXTS)
            found = self.store.query(f"project(select(t,s={zugcose.literal(text)}),v,n)")
            self.assertEqual(found, [(row[3], row[0]) for row in rows if row[1] == text])
            due = next((at for at, row in enumerate(rows) if row[1] == text), None)
            self.assertEqual(self.store.find("t", {"s": text}), due)
        elif kind == 6:
            self.assertEqual(self.store.query("sort(project(t,n),n)").column("n").tolist(), sorted(row[0] for row in rows))
            self.assertEqual([row.k for row in self.store.query("joinprop(project(t,v),v)")], [k for row in rows for k, _ in row[3]])
        elif self.results:
            result, due = self.results.pop(chance.randrange(len(self.results)))
            self.assertEqual(result, due)
