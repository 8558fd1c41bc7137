"""The call book: document 01's example, every way of spoiling a book, lines of output."""

import unittest

from book import Reader, field_bytes, number_bytes, record_bytes
from hashing import Hasher
from mechanisms import MECHANISMS
from records import (
    CLOSE, DRAW, FIELDS, FRESH_DRAW, INQUIRE, LENGTH, MOST, NUMBER, OPEN, RESEED, RIGHT, STRING,
    BadRecord, Record,
)
from run import lines_of

from samples import EXAMPLE_BOOK, EXAMPLE_LINES, random_record, random_source

# A record of each kind, as document 01 lists its fields, and the same as bytes.
SAMPLES = {
    OPEN: (
        Record(OPEN, {
            "mechanism": 2, "strength": 256, "interval": 300, "fresh": 1,
            "entropy": b"E" * 32, "nonce": b"N" * 16, "personalization": b"PP"}),
        "01 02 8002 AC02 01 20" + "45" * 32 + "10" + "4E" * 16 + "02 5050"),
    RESEED: (
        Record(RESEED, {"handle": 16, "entropy": b"E" * 3, "additional": b"A"}),
        "02 10 03 454545 01 41"),
    DRAW: (
        Record(DRAW, {"handle": 300, "strength": 128, "length": 65536, "additional": b"A"}),
        "03 AC02 8001 808004 01 41"),
    FRESH_DRAW: (
        Record(FRESH_DRAW, {
            "handle": 16, "strength": 0, "length": 32, "entropy": b"E" * 32, "additional": b""}),
        "04 10 00 20 20" + "45" * 32 + "00"),
    CLOSE: (Record(CLOSE, {"handle": 2**64 - 1}), "05 FFFFFFFFFFFFFFFFFF01"),
    INQUIRE: (Record(INQUIRE, {"handle": 0}), "06 00"),
}
GOOD = bytes.fromhex("06 0F")        # inquire 15 on a fresh table
GOOD_LINE = "6 2 0 -"


def lines(book):
    return list(lines_of(book))


def pieces_of(record):
    """The record's bytes in pieces: the kind, then each field."""
    return [number_bytes(record.kind)] + [
        field_bytes(holds, record.fields[name]) for name, holds in FIELDS[record.kind]]


class Example(unittest.TestCase):
    def test_document_01(self):
        self.assertEqual(lines(EXAMPLE_BOOK), EXAMPLE_LINES)

    def test_empty_book(self):
        self.assertEqual(lines(b""), [])


class Numbers(unittest.TestCase):
    def read(self, text):
        reader = Reader(bytes.fromhex(text))
        value = reader.number()
        self.assertTrue(reader.at_end())
        return value

    def test_shortest_forms(self):
        for text, value in (
                ("00", 0), ("01", 1), ("7F", 127), ("80 01", 128), ("FF 01", 255),
                ("80 02", 256), ("FF 7F", 2**14 - 1), ("80 80 01", 2**14), ("80 80 04", 65536),
                ("80" * 9 + "01", 2**63), ("FF" * 9 + "01", 2**64 - 1)):
            self.assertEqual(self.read(text), value)
            self.assertEqual(number_bytes(value), bytes.fromhex(text))

    def test_bad_numbers(self):
        for text in (
                "", "80", "FF FF", "80 00", "81 00", "FF 80 00", "80" * 9, "80" * 9 + "00",
                "80" * 9 + "02", "FF" * 9 + "02", "FF" * 9 + "7F", "FF" * 9 + "81 00",
                "80" * 10 + "00", "80" * 10 + "01", "FF" * 20, "80" * 100 + "01"):
            with self.assertRaises(BadRecord, msg=text):
                self.read(text)


class Records(unittest.TestCase):
    def test_a_record_of_each_kind(self):
        for record, text in SAMPLES.values():
            book = bytes.fromhex(text)
            self.assertEqual(Reader(book).record(), record)
            self.assertEqual(record_bytes(record), book)

    def test_random_records_are_read_back(self):
        source = random_source()
        for _ in range(300):
            record = random_record(source)
            reader = Reader(record_bytes(record) + b"\x00")
            self.assertEqual(reader.record(), record)
            self.assertEqual(reader.taken(1), b"\x00")


class SpoiledBooks(unittest.TestCase):
    def check_bad(self, record):
        """As the first record, after others, and with more behind it."""
        for before in (0, 1, 3):
            expected = [GOOD_LINE] * before + [f"book {2 * before}"]
            self.assertEqual(lines(GOOD * before + record), expected)

    def check_bad_with_more(self, record):
        self.check_bad(record)
        self.check_bad(record + GOOD)

    def check_good(self, record):
        shown = lines(record)
        self.assertEqual(len(shown), 1)
        self.assertFalse(shown[0].startswith("book"))

    def each_field(self, *kinds_of_field):
        """Every field of the sample records that holds one of these."""
        for record, _ in SAMPLES.values():
            for at, (name, holds) in enumerate(FIELDS[record.kind]):
                if holds in kinds_of_field:
                    yield record, at + 1, name

    def with_piece(self, record, at, piece):
        pieces = pieces_of(record)
        pieces[at] = piece
        return b"".join(pieces)

    def with_value(self, record, name, value):
        return record_bytes(Record(record.kind, record.fields | {name: value}))

    def test_cut_short_at_every_byte(self):
        for record, _ in SAMPLES.values():
            whole = record_bytes(record)
            self.check_good(whole)
            for length in range(1, len(whole)):
                self.check_bad(whole[:length])

    def test_the_example_cut_at_every_byte(self):
        starts = [0, 33, 38, 43, 45, 47, 49]
        self.assertEqual(starts[-1], len(EXAMPLE_BOOK))
        for length in range(len(EXAMPLE_BOOK)):
            whole = sum(1 for start in starts[1:] if start <= length)
            expected = EXAMPLE_LINES[:whole]
            if length not in starts:
                expected = expected + [f"book {starts[whole]}"]
            self.assertEqual(lines(EXAMPLE_BOOK[:length]), expected)

    def test_unknown_kinds(self):
        for kind in [0] + list(range(7, 300)) + [2**64 - 1]:
            self.check_bad_with_more(number_bytes(kind) + bytes(8))
        self.check_bad_with_more(bytes.fromhex("86 00 0F"))      # 6, but not in shortest form

    def test_bad_numbers_in_every_field(self):
        for record, at, name in self.each_field(NUMBER, RIGHT, LENGTH):
            for bad in ("80 00", "81 00", "80" * 9 + "02", "FF" * 9 + "7F", "80" * 10 + "01"):
                self.check_bad_with_more(self.with_piece(record, at, bytes.fromhex(bad)))
        for record, at, name in self.each_field(STRING):
            text = record.fields[name]
            for bad in (bytes([len(text) | 0x80, 0]), bytes.fromhex("80" * 9 + "02")):
                self.check_bad_with_more(self.with_piece(record, at, bad + text))

    def test_the_largest_number_in_every_field(self):
        for record, _, name in self.each_field(NUMBER):
            self.check_good(self.with_value(record, name, 2**64 - 1))

    def test_fresh_right(self):
        for record, _, name in self.each_field(RIGHT):
            for value in (0, 1):
                self.check_good(self.with_value(record, name, value))
            for value in (2, 127, 128, 2**64 - 1):
                self.check_bad_with_more(self.with_value(record, name, value))

    def test_lengths_of_strings(self):
        for record, _, name in self.each_field(STRING):
            self.check_good(self.with_value(record, name, bytes(2048)))
            self.check_bad_with_more(self.with_value(record, name, bytes(2049)))
            self.check_bad_with_more(self.with_value(record, name, bytes(20000)))

    def test_lengths_of_draws(self):
        for record, _, name in self.each_field(LENGTH):
            self.check_good(self.with_value(record, name, MOST[LENGTH]))
            for value in (65537, 2**32, 2**64 - 1):
                self.check_bad_with_more(self.with_value(record, name, value))

    def book_of_length(self, length):
        """Draws with long strings, then inquiries, whole records to the last byte."""
        draw = Record(DRAW, {"handle": 15, "strength": 0, "length": 0, "additional": bytes(2048)})
        filler = GOOD * 8
        book = record_bytes(draw) * 31
        book += filler * ((length - len(book)) // len(filler))
        rest = length - len(book)
        if rest % 2 == 1:                       # a close whose handle takes two bytes
            book += bytes.fromhex("05 80 01")
            rest -= 3
        return book + GOOD * (rest // 2)

    def test_length_of_a_book(self):
        whole = self.book_of_length(65536)
        self.assertEqual(len(whole), 65536)
        shown = lines(whole)
        self.assertEqual(shown[:31], ["3 2 0 -"] * 31)
        self.assertEqual(set(shown[31:]), {GOOD_LINE})
        for length in (65537, 65538, 70001):
            above = self.book_of_length(length)
            self.assertEqual(len(above), length)
            self.assertEqual(lines(above), ["book 0"])
        self.assertEqual(lines(bytes(65537)), ["book 0"])
        self.assertEqual(lines(GOOD + bytes(65534)), [GOOD_LINE, "book 2"])


class Lines(unittest.TestCase):
    """What a served or refused call shows."""

    def run_book(self, *records):
        return lines(b"".join(record_bytes(Record(kind, fields)) for kind, fields in records))

    OPENING = (OPEN, {
        "mechanism": 2, "strength": 113, "interval": 2, "fresh": 1, "entropy": b"E" * 16,
        "nonce": b"N" * 8, "personalization": b""})

    def test_values(self):
        mechanism = MECHANISMS[2]
        state = mechanism.opened(Hasher(), b"E" * 16, b"N" * 8, b"")
        drawn, state = mechanism.drawn(Hasher(), state, 33, b"more")
        state = mechanism.reseeded(Hasher(), state, b"F" * 16, b"other")
        fresh, _ = mechanism.drawn(Hasher(), state, 1, b"")
        draw = {"handle": 16, "strength": 128, "length": 33, "additional": b"more"}
        again = {
            "handle": 16, "strength": 0, "length": 1, "entropy": b"F" * 16,
            "additional": b"other"}
        self.assertEqual(
            self.run_book(
                self.OPENING,
                (INQUIRE, {"handle": 16}),
                (DRAW, draw),
                (DRAW, draw | {"strength": 129}),
                (FRESH_DRAW, again),
                (INQUIRE, {"handle": 16}),
                (FRESH_DRAW, again | {"length": 0}),
                (RESEED, {"handle": 16, "entropy": b"F" * 15, "additional": b""}),
                (RESEED, {"handle": 16, "entropy": b"F" * 16, "additional": b""}),
                (CLOSE, {"handle": 16}),
                (FRESH_DRAW, again)),
            [
                "1 0 6 16",
                "6 0 0 2",
                f"3 0 6 {drawn.hex()}",
                "3 4 0 -",
                f"4 0 11 {fresh.hex()}",
                "6 0 0 1",
                "4 0 10 -",
                "2 8 0 -",
                "2 0 8 -",
                "5 0 0 -",
                "4 2 0 -",
            ])

    def test_the_refusals_that_a_book_can_reach(self):
        kind, fields = self.OPENING
        def changed(**changes):
            return (kind, fields | changes)
        draw = {"handle": 16, "strength": 0, "length": 4, "additional": b""}
        fresh = draw | {"entropy": b"E" * 16}
        shown = self.run_book(
            changed(mechanism=3), changed(strength=257), changed(interval=0),
            changed(personalization=bytes(513)), changed(entropy=bytes(15)),
            changed(nonce=bytes(7)), changed(fresh=0, interval=1),
            (FRESH_DRAW, fresh), (DRAW, draw | {"additional": bytes(1025)}), (DRAW, draw),
            (DRAW, draw), (DRAW, draw | {"handle": 17}), *[self.OPENING] * 16)
        numbers = [int(line.split()[1]) for line in shown]
        self.assertEqual(
            numbers, [3, 4, 5, 6, 8, 9, 0, 11, 7, 0, 12, 2] + [0] * 15 + [13])
