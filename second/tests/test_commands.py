"""The commands themselves, as processes: standard input, output and status."""

import pathlib
import subprocess
import sys
import unittest

from samples import EXAMPLE_BOOK, EXAMPLE_LINES

SECOND = pathlib.Path(__file__).resolve().parent.parent


def run(name, *arguments, given=b""):
    """Status, standard output and standard error."""
    done = subprocess.run(
        [sys.executable, str(SECOND / name), *arguments], input=given, capture_output=True)
    return done.returncode, done.stdout, done.stderr


class Commands(unittest.TestCase):
    def test_main(self):
        expected = "".join(line + "\n" for line in EXAMPLE_LINES).encode()
        self.assertEqual(run("main.py", given=EXAMPLE_BOOK), (0, expected, b""))
        self.assertEqual(run("main.py"), (0, b"", b""))
        self.assertEqual(run("main.py", given=bytes(65537)), (0, b"book 0\n", b""))
        cut = run("main.py", given=EXAMPLE_BOOK[:-1])
        self.assertEqual(cut, (0, expected[:-len("5 2 0 -\n")] + b"book 47\n", b""))

    def test_text(self):
        status, text, _ = run("text.py", "to-text", given=EXAMPLE_BOOK)
        self.assertEqual(status, 0)
        self.assertEqual(run("text.py", "to-book", given=text), (0, EXAMPLE_BOOK, b""))
        self.assertEqual(
            run("text.py", "explain", given=b"3 12 0 -\n"), (0, b"draw: refused, reseed due\n", b""))

    def test_text_errors(self):
        self.assertEqual(
            run("text.py", "to-book", given=b"\nclose\n"),
            (1, b"", b"line 2: close needs handle=\n"))
        self.assertEqual(
            run("text.py", "to-text", given=bytes.fromhex("06 10 07")),
            (1, b"inquire handle=16\n", b"byte 2: an unknown kind\n"))
        self.assertEqual(run("text.py")[0], 2)

    def test_respond(self):
        text = b"[SHA-1]\nCOUNT = 05\nReturnedBits =\nx"
        self.assertEqual(run("respond.py", "1", given=text[:-2]), (0, b"5 passed over\n", b""))
        status, lines, told = run("respond.py", "2", given=text)
        self.assertEqual((status, lines), (0, b"5 passed over\nline 4\n"))
        self.assertRegex(told, rb"\Arespond: standard input, line 4.*\n\Z")
        self.assertRegex(run("respond.py", "1", "none/such")[2], rb"\Arespond: none/such can't be read.*\n\Z")
        self.assertEqual(run("respond.py", given=text)[:2], (0, b""))
