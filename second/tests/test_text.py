"""The text form of a book, both ways, and the words for lines of output."""

import unittest

from answers import WORDS
from book import record_bytes
from run import lines_of
from text import Unreadable, book_of, explained, text_of

from samples import EXAMPLE_BOOK, EXAMPLE_LINES, random_record, random_source

EXAMPLE_TEXT = """\
# The example of document 01
open mechanism=1 strength=128 interval=1 fresh=0 entropy={} nonce={} personalization=-
draw handle=16 strength=0 length=0 additional=-
  draw additional=- length=0 strength=0 handle=16   # the fields in another order

inquire handle=16
close handle=16
close handle=16
""".format("aa" * 16, "55" * 8)


def text(book):
    return "".join(line + "\n" for line in text_of(book))


class ToBook(unittest.TestCase):
    def test_example(self):
        self.assertEqual(book_of(EXAMPLE_TEXT.encode()), EXAMPLE_BOOK)
        self.assertEqual(book_of(EXAMPLE_TEXT.replace("\n", "\r\n").encode()), EXAMPLE_BOOK)
        self.assertEqual(book_of(b""), b"")
        self.assertEqual(book_of("# only a remark, with an é\n\n".encode()), b"")

    def check_error(self, line, words):
        """The line stands third, so the error names line 3."""
        with self.assertRaises(Unreadable) as caught:
            book_of(b"# first\nclose handle=16\n" + line + b"\nclose handle=16\n")
        self.assertTrue(str(caught.exception).startswith("line 3: "), caught.exception)
        self.assertIn(words, str(caught.exception))

    def test_errors_name_the_line(self):
        for line, words in (
                (b"shut handle=16", "no call is named 'shut'"),
                (b"close", "close needs handle="),
                (b"close 16", "'16' is not name=value"),
                (b"close handle=16 handle=16", "handle stands twice"),
                (b"close handle=16 strength=0", "close has no field 'strength'"),
                (b"close handle=0x10", "handle: not a decimal number"),
                (b"close handle=-1", "handle: not a decimal number"),
                (b"close handle=1_6", "handle: not a decimal number"),
                (b"close handle=", "handle: not a decimal number"),
                (b"close handle=016", "handle: a number that begins with 0"),
                ("close handle=\u0661".encode(), "handle: not a decimal number"),
                (b"close handle=18446744073709551616", "handle: a number above"),
                (b"close handle=16 \xff", "not UTF-8"),
                (b"reseed handle=16 entropy=abc additional=-", "entropy: not a hex string"),
                (b"reseed handle=16 entropy=zz additional=-", "entropy: not a hex string"),
                (b"reseed handle=16 entropy= additional=-", "entropy: no value"),
                (b"reseed handle=16 additional=- entropy=" + b"00" * 2049, "entropy: a string"),
                (b"draw handle=16 strength=0 length=65537 additional=-", "length: a length above"),
                (b"open mechanism=1 strength=0 interval=1 fresh=2 entropy=- nonce=- "
                 b"personalization=-", "fresh: a fresh right above 1")):
            self.check_error(line, words)

    def test_a_text_that_makes_too_long_a_book(self):
        line = b"draw handle=16 strength=0 length=0 additional=" + b"00" * 2048 + b"\n"
        self.assertEqual(len(book_of(line * 31)), 31 * 2054)
        with self.assertRaisesRegex(Unreadable, "^line 32: the book is above 65,536 bytes"):
            book_of(line * 40)


class ToText(unittest.TestCase):
    def test_example(self):
        shown = text(EXAMPLE_BOOK).splitlines()
        self.assertEqual(shown[0], EXAMPLE_TEXT.splitlines()[1])
        self.assertEqual(shown[1:3], ["draw handle=16 strength=0 length=0 additional=-"] * 2)
        self.assertEqual(shown[3:], ["inquire handle=16", "close handle=16", "close handle=16"])

    def test_round_trip_on_random_books(self):
        source = random_source()
        for _ in range(150):
            count = source.randint(0, 12)
            book = b"".join(record_bytes(random_record(source)) for _ in range(count))
            shown = text(book)
            self.assertEqual(len(shown.splitlines()), count)
            self.assertEqual(book_of(shown.encode()), book)
            self.assertEqual(text(book_of(shown.encode())), shown)

    def test_errors_name_the_byte(self):
        with self.assertRaisesRegex(Unreadable, "^byte 2: an unknown kind$"):
            text(bytes.fromhex("06 10 07"))
        with self.assertRaisesRegex(Unreadable, "^byte 0: a record cut short$"):
            text(bytes.fromhex("06"))
        with self.assertRaisesRegex(Unreadable, "above 65,536 bytes"):
            text(bytes(65537))


class Explain(unittest.TestCase):
    def check(self, line, words):
        self.assertEqual(list(explained(line + "\n")), [words])

    def test_example(self):
        output = "\n".join(EXAMPLE_LINES) + "\n"
        self.assertEqual(list(explained(output)), [
            "open: served, handle 16 (serial 1, slot 0), 18 blocks",
            "draw: served, no bytes, 8 blocks",
            "draw: refused, reseed due",
            "inquire: served, 0 draws left, 0 blocks",
            "close: served, slot freed, 0 blocks",
            "close: refused, no such generator",
        ])

    def test_with_the_book(self):
        output = "\n".join(EXAMPLE_LINES) + "\n"
        self.assertEqual(list(explained(output, EXAMPLE_BOOK)), [
            "open: served, handle 16 (serial 1, slot 0), 18 blocks",
            "draw under handle 16: served, no bytes, 8 blocks",
            "draw under handle 16: refused, reseed due",
            "inquire under handle 16: served, 0 draws left, 0 blocks",
            "close under handle 16: served, slot freed, 0 blocks",
            "close under handle 16: refused, no such generator",
        ])
        for wrong in (EXAMPLE_LINES[:-1], EXAMPLE_LINES + EXAMPLE_LINES[-1:], EXAMPLE_LINES[::-1]):
            with self.assertRaises(Unreadable):
                list(explained("\n".join(wrong), EXAMPLE_BOOK))

    def test_other_lines(self):
        self.check("2 0 8 -", "reseed: served, reseeded, 8 blocks")
        self.check("3 0 12 ab", "draw: served, 1 byte ab, 12 blocks")
        self.check("4 0 28 abcd", "fresh draw: served, 2 bytes abcd, 28 blocks")
        self.check("4 0 24 -", "fresh draw: served, no bytes, 24 blocks")
        self.check("6 0 0 1", "inquire: served, 1 draw left, 0 blocks")
        self.check("1 4 0 -", "open: refused, strength above 256")
        self.check("4 4 0 -", "fresh draw: refused, strength above the generator's own")
        self.check("book 17", "the record at byte 17 cannot be read; the run ended")
        self.assertEqual(list(explained("")), [])

    def test_every_reason_has_words(self):
        self.assertEqual(list(WORDS), list(range(15)))
        for number in range(1, 15):
            (words,) = explained(f"3 {number} 0 -\n")
            self.assertTrue(words.startswith("draw: refused, "))

    def test_the_output_of_random_books_can_be_explained(self):
        source = random_source()
        for _ in range(50):
            book = b"".join(record_bytes(random_record(source)) for _ in range(5))
            lines = list(lines_of(book + source.choice((b"", b"\x07"))))
            self.assertEqual(len(list(explained("\n".join(lines)))), len(lines))
            self.assertEqual(len(list(explained("\n".join(lines), book))), len(lines))

    def test_errors_name_the_line(self):
        for line in (
                "", "3 0 8", "3 0 8 - -", "3  0 8", "7 0 0 -", "0 0 0 -", "3 15 0 -", "3 12 1 -",
                "3 12 0 0", "3 0 8 AB", "3 0 8 abc", "3 0 8 ", "1 0 18 -", "6 0 0 ab", "5 0 0 0",
                "2 0 8 00", "x 0 0 -", "3 0 -8 -", "03 0 8 -", "book", "book x", "book 1 2"):
            with self.assertRaisesRegex(Unreadable, "^line 2: "):
                list(explained(f"6 0 0 0\n{line}\n6 0 0 0\n"))
        with self.assertRaisesRegex(Unreadable, "^line 3: nothing follows"):
            list(explained("6 0 0 0\nbook 17\n6 0 0 0\n"))
