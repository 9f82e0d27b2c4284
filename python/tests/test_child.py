"""The program as a child: greetings, ends, and many lines at once. Programs of a few lines stand in for `mkshell` where the real one would not come to it."""

import os
import signal
import stat
import subprocess
import sys
import time
import warnings

import zugcose
from zugcose.child import Child, program

from opened import InFolder

ENDS = [
    ("exit 2", zugcose.WrongWords), ("exit 6", zugcose.OutOfMemory), ("exit 8", zugcose.NotOpened), ("exit 4", zugcose.NotServed),
    ("echo refused notastore; exit 3", zugcose.NotAStore), ("echo refused empty; exit 3", zugcose.NotAStore),
    ("echo refused damaged 128; exit 3", zugcose.Damaged), ("echo refused badbase; exit 3", zugcose.BadBase),
    ("echo refused aside 192; exit 3", zugcose.BadAside), ("echo refused otherbase 208 0 224 1; exit 3", zugcose.OtherBase),
    ("printf 'ok mk'; exit 0", zugcose.NotServed),
]


class WithFakes(InFolder):
    def program(self, text):
        """A program of these lines of sh."""
        path = self.folder / "fake"
        path.write_text(f"#!/bin/sh\n{text}\n")
        path.chmod(path.stat().st_mode | stat.S_IXUSR)
        return path

    def python(self, text):
        """A program of these lines of Python, which has said its greeting."""
        (self.folder / "fake.py").write_text("import os, sys\nprint('ok mkshell 0', flush=True)\n" + text)
        return self.program(f'exec "{sys.executable}" -S fake.py')


class Opening(WithFakes):
    def test_each_end_before_a_greeting(self):
        for text, kind in ENDS:
            with self.subTest(text):
                with self.assertRaises(kind) as caught:
                    zugcose.open("f", mkshell=self.program(text))
                self.assertIs(type(caught.exception), kind)

    def test_places(self):
        for word, at in (("damaged", 128), ("aside", 192)):
            with self.assertRaises(zugcose.NotServed) as caught:
                zugcose.open("f", mkshell=self.program(f"echo refused {word} {at}; exit 3"))
            self.assertEqual((caught.exception.at, str(caught.exception)), (at, f"refused {word} {at}"))

    def test_what_was_said_is_told(self):
        with self.assertRaisesRegex(zugcose.OtherBase, "refused otherbase 208 0 224 1"):
            zugcose.open("f", mkshell=self.program("echo refused otherbase 208 0 224 1; exit 3"))
        with self.assertRaisesRegex(zugcose.NotOpened, "another process"):
            zugcose.open("f", mkshell=self.program("exit 8"))

    def test_a_greeting(self):
        with zugcose.open("f", mkshell=self.program("echo ok mkshell 12; read quit; echo ok quit")) as store:
            self.assertEqual(store.number, 12)
        self.assertEqual(store.close(), 0)

    def test_the_words(self):
        said = self.program('echo "$*" >words; echo ok mkshell 0; read quit; echo ok quit')
        for options, words in [
            ({}, "-- f"), ({"read_only": True}, "--read -- f"), ({"cap": 500, "extend": True}, "--extend --cap 500 -- f"),
            ({"aside": "base"}, "--aside base -- f"),
        ]:
            zugcose.open("f", mkshell=said, **options).close()
            self.assertEqual((self.folder / "words").read_text(), words + "\n")

    def test_where_the_program_is_looked_for(self):
        before = dict(os.environ)
        self.addCleanup(os.environ.update, before)
        self.addCleanup(os.environ.clear)
        self.program("exit 8").rename(self.folder / "mkshell")
        os.environ["PATH"] = str(self.folder)
        os.environ["ZUGCOSE_MKSHELL"] = "by environment"
        self.assertEqual(program("given"), "given")
        self.assertEqual(program(), "by environment")
        del os.environ["ZUGCOSE_MKSHELL"]
        self.assertEqual(program(), str(self.folder / "mkshell"))
        os.environ["PATH"] = ""
        with self.assertRaisesRegex(zugcose.NoProgram, "ZUGCOSE_MKSHELL"):
            zugcose.open("f")

    def test_no_program_of_that_path(self):
        for path in ("nosuch", "."):
            with self.assertRaisesRegex(zugcose.NoProgram, "cannot be started"):
                zugcose.open("f", mkshell=self.folder / path)


class Ends(WithFakes):
    def test_in_the_midst(self):
        store = zugcose.open("f", mkshell=self.program("echo ok mkshell 0; read line; exit 7"))
        for _ in range(2):
            with self.assertRaises(zugcose.Ended) as caught:
                store.commit()
            self.assertEqual(caught.exception.status, 7)
        self.assertEqual(store.close(), 7)
        self.assertEqual(store.close(), 7)

    def test_half_a_reply(self):
        store = zugcose.open("f", mkshell=self.program("echo ok mkshell 0; read line; printf 'ok 2\\n(1)\\n'; exit 5"))
        with self.assertRaises(zugcose.Ended):
            store.ask("show t")

    def test_killed(self):
        store = self.open()
        store._session.transport._process.kill()
        with self.assertRaises(zugcose.Ended) as caught:
            store.ask("struct")
        self.assertEqual(caught.exception.status, -signal.SIGKILL)

    def test_killed_among_many_lines(self):
        store = self.open()
        store.declare("t[a:I]")

        def rows():
            for number in range(100_000):
                if number == 20_000:
                    store._session.transport._process.kill()
                yield (number,)

        with self.assertRaises(zugcose.Ended):
            store.t.extend(rows())

    def test_a_with_after_the_end(self):
        """What ended the block is told, and not that the program cannot be asked to quit."""
        with self.assertRaises(ZeroDivisionError):
            with self.open() as store:
                store._session.transport._process.kill()
                1 / 0

    def test_interrupted(self):
        """An exchange that was cut short gives no reply to a later line."""
        store = self.open()
        store.declare("t[a:I]")
        transport, send = store._session.transport, store._session.transport._send

        def interrupted(data):
            send(data)
            raise KeyboardInterrupt

        transport._send = interrupted
        with self.assertRaises(KeyboardInterrupt):
            store.t.append(1)
        transport._send = send
        with self.assertRaises(zugcose.Ended):
            store.size("t")
        self.assertEqual(store.close(), -signal.SIGKILL)

    def test_a_signal_from_the_terminal(self):
        """A script that SIGINT ends, wherever it stands, lets its file go, and what was committed is there."""
        (self.folder / "script.py").write_text(
            "import zugcose\n"
            "with zugcose.open('f') as store:\n"
            "    store.declare('t[a:I]')\n"
            "    store.t.append(7)\n"
            "    print(store.commit(), flush=True)\n"
            "    while True:\n"
            "        store.t.extend([(number,) for number in range(500)])\n"
            "        list(store.query('sort(t,-a)'))\n"
            "        store.rollback()\n"
        )
        for seconds in (0, 0.01, 0.05, 0.11):
            (self.folder / "f").unlink(missing_ok=True)
            script = subprocess.Popen([sys.executable, "script.py"], stdout=subprocess.PIPE, stderr=subprocess.PIPE, env={**os.environ, "PYTHONPATH": os.pathsep.join(sys.path)})
            self.assertEqual(script.stdout.readline(), b"1\n")
            time.sleep(seconds)
            script.send_signal(signal.SIGINT)
            _, errors = script.communicate(timeout=60)
            self.assertTrue(errors.endswith(b"KeyboardInterrupt\n"), errors)
            with zugcose.open("f") as store:
                self.assertEqual((store.number, list(store.t)), (1, [(7,)]))

    def test_the_terminal_does_not_reach_it(self):
        store = self.open()
        self.assertNotEqual(os.getpgid(store._session.transport._process.pid), os.getpgid(0))

    def test_forgotten(self):
        """A store that nobody holds any more lets its file go."""
        store = zugcose.open("f")
        with warnings.catch_warnings():
            warnings.simplefilter("ignore", ResourceWarning)
            del store
        for _ in range(500):
            try:
                zugcose.open("f").close()
                return
            except zugcose.NotOpened:
                time.sleep(0.01)
        self.fail("the file is still in use")


class ManyLines(WithFakes):
    def test_long_replies_to_many_lines(self):
        """More is sent, and more comes back, than both pipes hold: neither side waits for ever."""
        transport = Child([self.python("for line in sys.stdin:\n    print('ok ' + line.strip() * 50, flush=True)\n")])
        self.addCleanup(transport.close)
        lines = [b"%d" % number * 40 for number in range(10_000, 15_000)]
        self.assertEqual(transport.ask_all(lines), [b"ok " + line * 50 for line in lines])
        self.assertEqual(transport.ask(b"x"), b"ok " + b"x" * 50)

    def test_replies_before_all_is_read(self):
        """A program that answers late, and then all at once."""
        text = "lines = [sys.stdin.readline() for _ in range(20000)]\nfor line in lines:\n    print('ok', line.strip(), flush=False)\nsys.stdout.flush()\nsys.stdin.read()\n"
        transport = Child([self.python(text)])
        self.addCleanup(transport.close)
        self.addCleanup(transport._process.kill)
        lines = [b"%d" % number for number in range(20_000)]
        self.assertEqual(transport.ask_all(lines), [b"ok " + line for line in lines])

    def test_lists_in_pieces(self):
        """Replies of many lines, in pieces that end anywhere."""
        text = (
            "import time\n"
            "for line in sys.stdin:\n"
            "    said = (b'ok 3\\n(1)\\n(2)\\n(3)\\n' if line.split() == ['show', 't'] else b'ok 5\\n')\n"
            "    for at in range(0, len(said), 4):\n"
            "        os.write(1, said[at:at + 4]); time.sleep(0.001)\n"
        )
        transport = Child([self.python(text)])
        self.addCleanup(transport.close)
        listed = b"ok 3\n(1)\n(2)\n(3)"
        self.assertEqual(transport.ask_all([b"show t", b"size t", b"show  t", b"shown"]), [listed, b"ok 5", listed, b"ok 5"])
