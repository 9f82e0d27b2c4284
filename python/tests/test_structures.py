"""Structures read from their texts, and the columns of expressions."""

import sys
import unittest
from pathlib import Path

from zugcose import Column, structure
from zugcose.expressions import columns_of
from zugcose.structures import spelled

sys.path.append(str(Path(__file__).resolve().parents[2] / "tests"))

from plain.worked import TABLES, WORKED


class Structures(unittest.TestCase):
    def test_kinds(self):
        found = structure("t[a:I,b:L,c:S,d:B,e[f:I]]")
        self.assertEqual(found.name, "t")
        self.assertEqual([column.kind for column in found.columns], ["I", "L", "S", "B", "view"])
        self.assertEqual(found.columns[4].columns, (Column("f", "I"),))

    def test_views_after_one_another(self):
        found = structure("a[b[c[d:I]],e[f:S,g:B],h:L]")
        self.assertEqual([column.name for column in found.columns], ["b", "e", "h"])
        self.assertEqual(found.columns[0].columns[0].columns[0], Column("d", "I"))

    def test_the_text_again(self):
        for text in ("a[b[c[d:I]],e[f:S,g:B],h:L]", "_2[x:I]", "view[view[view:S]]"):
            self.assertEqual(str(structure(text)), text)


class Expressions(unittest.TestCase):
    """Those whose columns were worked out by hand for tests/questions: expressions with the structure of their rows."""

    def setUp(self):
        found = (structure(table.split(" ")[0]) for table in TABLES)
        self.there = {one.name: one.columns for one in found}
        self.there.update({name: structure(f"{name}[a:I]").columns for name in ("many", "more")})

    def columns(self, expression):
        return spelled("", columns_of(expression, self.there.__getitem__))

    def test_worked_ones(self):
        tried = 0
        for expression, due in WORKED:
            if not due.startswith("err"):
                self.assertEqual(self.columns(expression), due.split(" ")[0], expression)
                tried += 1
        self.assertGreater(tried, 80)

    def test_spaces(self):
        self.assertEqual(self.columns("  project ( people , age )"), "[age:I]")
        self.assertEqual(self.columns("book / 0 / phones"), "[kind:S,number:S]")

    def test_signs_in_literals(self):
        self.assertEqual(self.columns('project(select(people,name=")(,\\"{"),age)'), "[age:I]")
        self.assertEqual(self.columns('concat(range(words,word="(":x"7b7d",size=-1:1),words)'), "[word:S,size:L]")

    def test_a_view_with_the_name_of_an_operator(self):
        self.there["sort"] = structure("sort[z:S]").columns
        self.assertEqual(self.columns("sort(sort)"), "[z:S]")
        self.assertEqual(self.columns("sort(sort,-z)"), "[z:S]")
        self.assertEqual(self.columns("join(sort,sort,z)"), "[z:S]")

    def test_paths_deep(self):
        self.there["t"] = structure("t[a[b[c:I,d:S]]]").columns
        self.assertEqual(self.columns("rename(t/0/a/12/b,c,d2)"), "[d2:I,d:S]")
