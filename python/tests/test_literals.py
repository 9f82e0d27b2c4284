"""Values as lines have them, and printed rows as values."""

import enum
import unittest

from zugcose import literal, structure
from zugcose.literals import numbers_in, text_of
from zugcose.rows import reader

WRITTEN = [
    (0, "0"), (-1, "-1"), (9223372036854775807, "9223372036854775807"), (-9223372036854775808, "-9223372036854775808"), (True, "1"),
    ("", '""'), ("Ann", '"Ann"'), ('a"b', '"a\\"b"'), ("a\\b", '"a\\\\b"'), ("a\nb", '"a\\nb"'), ("\\n", '"\\\\n"'), ("a\rb\tc", '"a\rb\tc"'),
    ("é\u2028\U0001f600", '"é\u2028\U0001f600"'), ("\x7f\x01", '"\x7f\x01"'),
    (b"", 'x""'), (b"\x00\xff", 'x"00ff"'), (bytearray(b"x"), 'x"78"'), (memoryview(b"x"), 'x"78"'),
    ([], "{}"), ((), "{}"), ([(1,), ["a", b"b"]], '{(1),("a",x"62")}'), ([(1, [(2, [])])], "{(1,{(2,{})})}"),
]
FOR_NONE = [None, 1.0, 1j, object(), {1: 2}, {1}, [1], ["ab"], [(1, None)], range(3), [{1}]]
OUT_OF_RANGE = [9223372036854775808, -9223372036854775809, "a\0", "\ud800", "a\udfff", [()], [(1,), []], [("\0",)]]


class Written(unittest.TestCase):
    def test_each_kind(self):
        for value, text in WRITTEN:
            self.assertEqual(literal(value), text)

    def test_values_of_other_types(self):
        class Color(enum.IntEnum):
            RED = 7

        class Indexed:
            def __index__(self):
                return -3

        class Word(str, enum.Enum):
            RED = 'r"'

        self.assertEqual(literal(Color.RED), "7")
        self.assertEqual(literal(Word.RED), '"r\\""')
        self.assertEqual(literal(Indexed()), "-3")

    def test_what_no_kind_takes(self):
        for value in FOR_NONE:
            with self.subTest(value), self.assertRaises(TypeError):
                literal(value)

    def test_what_is_out_of_range(self):
        for value in OUT_OF_RANGE:
            with self.subTest(repr(value)), self.assertRaises(ValueError):
                literal(value)

    def test_views_are_at_most_eight_deep(self):
        deep = [(1,)]
        for _ in range(7):
            deep = [(deep,)]
        self.assertEqual(literal(deep), "{(" * 8 + "1" + ")}" * 8)
        with self.assertRaises(ValueError):
            literal([(deep,)])
        endless = []
        endless.append((endless,))
        with self.assertRaises(ValueError):
            literal(endless)


class Read(unittest.TestCase):
    def read(self, text, printed):
        return reader(structure(text).columns)(printed)

    def test_each_kind(self):
        rows = self.read("t[a:I,b:L,c:S,d:B]", '(-1,9223372036854775807,"a\\"(,)\\\\{\\n",x"00ff")\n(0,0,"",x"")')
        self.assertEqual(rows, [(-1, 9223372036854775807, 'a"(,)\\{\n', b"\x00\xff"), (0, 0, "", b"")])

    def test_texts_that_look_like_others(self):
        self.assertEqual(self.read("t[a:S,b:S]", '("x\\"78\\"","-5")\n("\\\\","\\\\n")'), [('x"78"', "-5"), ("\\", "\\n")])
        self.assertEqual(self.read("t[a:S]", '("\u2028\x85\r")\n("é")'), [("\u2028\x85\r",), ("é",)])

    def test_views_inside(self):
        rows = self.read("t[a[b[c:I],d:S],e:I]", '({({(1),(2)},"x"),({},"y")},5)\n({},6)')
        self.assertEqual(rows, [((((((1,), (2,)), "x")), ((), "y")), 5), ((), 6)])
        self.assertEqual(rows[0].a[0].b[1].c, 2)
        self.assertEqual(rows[0].a[1].d, "y")

    def test_no_rows(self):
        self.assertEqual(self.read("t[a:I]", ""), [])

    def test_other_values_than_the_columns_say(self):
        with self.assertRaises(ValueError):
            self.read("t[a:I]", "(1,2)")

    def test_numbers(self):
        self.assertEqual(list(numbers_in("(1)\n(-2)\n(3)")), [1, -2, 3])
        self.assertEqual(list(numbers_in("(-7)")), [-7])

    def test_what_is_written_reads_back(self):
        for value, _ in WRITTEN:
            if isinstance(value, str):
                self.assertEqual(text_of(literal(value)), value)
