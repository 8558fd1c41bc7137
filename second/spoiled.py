"""Every way of spoiling a book."""

from book import number_bytes, record_bytes
from records import FIELDS, MOST, STRING
from text import NAMES, counted
from writer import close, draw, filler, fresh_draw, inquire, opening, reseed

# A good record before the spoiled one, so that its place is not 0, and one after it that must not run
BEFORE = record_bytes(inquire(16))
AFTER = record_bytes(close(16))

WHOLE = [
    opening(strength=192, interval=300, entropy=filler(24), nonce=filler(8), personalization=b"p"),
    reseed(300, filler(3), filler(2)),
    draw(300, 200, 192, filler(2)),
    fresh_draw(300, 200, 192, filler(3), filler(2)),
    close(300),
    inquire(2**64 - 1),
]


def cut():
    """Each kind of record, cut after each of its bytes."""
    for record in WHOLE:
        text = record_bytes(record)
        for count in range(1, len(text)):
            yield f"{NAMES[record.kind]} cut after {counted(count, 'byte')}", BEFORE + text[:count]


def bad_numbers():
    """As a handle, after the kind 6."""
    return [
        ("a needless group", "9000"),
        ("zero in two groups", "8000"),
        ("two needless groups", "908000"),
        ("a needless tenth group", "ff" * 9 + "00"),
        ("above 64 bits by one bit", "80" * 9 + "02"),
        ("above 64 bits by all bits", "ff" * 9 + "7f"),
        ("ten groups with an eleventh to come", "ff" * 9 + "81"),
        ("eleven groups", "80" * 10 + "01"),
        ("eleven groups, the last needless", "ff" * 9 + "8100"),
        ("twenty groups", "80" * 19 + "01"),
    ]


def bad_kinds():
    return [
        ("kind 0", "00"),
        ("kind 7", "07"),
        ("kind 127", "7f"),
        ("kind 128", "8001"),
        ("kind 257, which is 1 in its low byte", "8102"),
        ("kind 2^32 + 5, which is 5 in its low half", "8580808010"),
        ("kind 6 with a needless group", "8600"),
        ("kind in eleven groups", "86" + "80" * 9 + "01"),
    ]


def numbers():
    for name, text in bad_numbers():
        yield f"a handle of {name}", BEFORE + b"\x06" + bytes.fromhex(text) + AFTER
    for name, text in bad_kinds():
        yield name, BEFORE + bytes.fromhex(text) + b"\x10" + AFTER


def with_field(record, spoiled, text):
    """The record's bytes with one field given as bytes; an amount of 0 stands for the others."""
    whole = number_bytes(record.kind)
    for name, _ in FIELDS[record.kind]:
        whole += text if name == spoiled else b"\x00"
    return whole


def fields():
    """In every field a needless group; a value one above the limit where a field has its own."""
    for record in WHOLE:
        kind = NAMES[record.kind]
        for name, holds in FIELDS[record.kind]:
            needless = with_field(record, name, b"\x80\x00")
            yield f"{kind}, {name} with a needless group", BEFORE + needless + AFTER
            above = with_field(record, name, number_bytes(MOST[holds] + 1))
            yield f"{kind}, {name} of {MOST[holds] + 1:,}, nothing behind it", BEFORE + above + AFTER
            if holds == STRING:
                largest = with_field(record, name, number_bytes(2**64 - 1))
                yield f"{kind}, {name} of 2^64 - 1", BEFORE + largest + AFTER


def long_strings():
    """With all the bytes there: 2,048 are read (and the calls refuse them), 2,049 are not."""
    for count in (2048, 2049):
        text = number_bytes(count) + bytes(count)
        yield f"reseed, entropy of {count:,}", BEFORE + with_field(WHOLE[1], "entropy", text) + AFTER


def places():
    """Where the spoiled record begins decides the printed place."""
    yield "the first record spoiled", b"\x07" + AFTER
    yield "one byte, a group without its next", b"\x80"
    yield "a kind alone", b"\x01"
    yield "one byte at the end of a good book", BEFORE * 100 + b"\x06"
    yield "two spoiled records, the first of them named", BEFORE + b"\x00\x00"


def spoiled_books():
    """Pairs of name and book."""
    for part in (cut, numbers, fields, long_strings, places):
        yield from part()
