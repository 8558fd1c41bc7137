"""A call book as text for people, and its output in words.

    python3 second/text.py to-book < TEXT > BOOK
    python3 second/text.py to-text < BOOK > TEXT
    python3 second/text.py explain [BOOK] < OUTPUT

With the BOOK that was run, the words name the handle of each call too.

The text has one call a line, every field by its name, and comments from '#' on:

    # a generator at strength 128 that may draw once
    open mechanism=1 strength=128 interval=1 fresh=0 entropy=aa..aa nonce=55..55 personalization=-
    draw handle=16 strength=0 length=32 additional=-
    close handle=16

Numbers are decimal, strings are hex, and '-' is the empty string. The fields may stand
in any order; to-text writes them in the order of the book.
"""

import sys

from answers import SERVED, STRENGTH_TOO_HIGH, WORDS
from book import Reader, record_bytes
from records import (
    CLOSE, DRAW, FIELDS, FRESH_DRAW, INQUIRE, MOST_BOOK, OPEN, RESEED, STRING, BadRecord, Record,
    check_limit,
)

NAMES = {
    OPEN: "open",
    RESEED: "reseed",
    DRAW: "draw",
    FRESH_DRAW: "fresh-draw",
    CLOSE: "close",
    INQUIRE: "inquire",
}
KINDS = {name: kind for kind, name in NAMES.items()}


class Unreadable(Exception):
    """A text, book or output that cannot be read; the words name the place and the reason."""


# From text to book

def book_of(text):
    """The book of a text; both are bytes."""
    book = b""
    for count, line in enumerate(text.split(b"\n"), start=1):
        try:
            book += line_bytes(line)
        except (ValueError, BadRecord) as reason:
            raise Unreadable(f"line {count}: {reason}") from None
        if len(book) > MOST_BOOK:
            raise Unreadable(f"line {count}: the book is above 65,536 bytes")
    return book


def line_bytes(line):
    """The record of one line, or nothing for a line without a call."""
    words = decoded(line).split("#")[0].split()
    if words == []:
        return b""
    return record_bytes(record_of(words[0], words[1:]))


def decoded(line):
    try:
        return line.decode("utf-8")
    except UnicodeDecodeError:
        raise ValueError("not UTF-8") from None


def record_of(name, words):
    if name not in KINDS:
        raise ValueError(f"no call is named {name!r}")
    kind = KINDS[name]
    values = named_values(words)
    fields = {}
    for field, holds in FIELDS[kind]:
        if field not in values:
            raise ValueError(f"{name} needs {field}=")
        fields[field] = value_of(field, holds, values.pop(field))
    for field in values:
        raise ValueError(f"{name} has no field {field!r}")
    return Record(kind, fields)


def named_values(words):
    values = {}
    for word in words:
        name, equals, value = word.partition("=")
        if equals == "":
            raise ValueError(f"{word!r} is not name=value")
        if name in values:
            raise ValueError(f"{name} stands twice")
        values[name] = value
    return values


def value_of(field, holds, text):
    try:
        if holds == STRING:
            value = string_of(text)
            check_limit(holds, len(value))
        else:
            value = number_of(text)
            check_limit(holds, value)
    except (ValueError, BadRecord) as reason:
        raise ValueError(f"{field}: {reason}") from None
    return value


def number_of(text):
    if not (text.isascii() and text.isdigit()):
        raise ValueError("not a decimal number")
    if len(text) > 1 and text[0] == "0":
        raise ValueError("a number that begins with 0")
    return int(text)


def string_of(text):
    if text == "-":
        return b""
    if text == "":
        raise ValueError("no value (the empty string is written '-')")
    try:
        return bytes.fromhex(text)
    except ValueError:
        raise ValueError("not a hex string") from None


# From book to text

def text_of(book):
    """The text of a book, line by line."""
    if len(book) > MOST_BOOK:
        raise Unreadable("the book is above 65,536 bytes")
    reader = Reader(book)
    while not reader.at_end():
        first = reader.place
        try:
            record = reader.record()
        except BadRecord as reason:
            raise Unreadable(f"byte {first}: {reason}") from None
        yield record_line(record)


def record_line(record):
    words = [NAMES[record.kind]]
    for name, holds in FIELDS[record.kind]:
        words.append(f"{name}={value_text(holds, record.fields[name])}")
    return " ".join(words)


def value_text(holds, value):
    if holds == STRING:
        return value.hex() if value != b"" else "-"
    return str(value)


# From output to words

def explained(output, book=None):
    """The lines of a run's output in words, one by one; with the book that was run, each with its call's handle."""
    lines = output.split("\n")
    if lines[-1] == "":
        lines.pop()
    reader = None if book is None else Reader(book)
    ended = False
    for count, line in enumerate(lines, start=1):
        if ended:
            raise Unreadable(f"line {count}: nothing follows a 'book' line")
        ended = line.startswith("book")
        try:
            yield line_in_words(line, None if reader is None or ended else reader.record())
        except BadRecord:
            raise Unreadable(f"line {count}: the book has no such record") from None
        except ValueError:
            raise Unreadable(f"line {count}: {line!r} is not a line of output") from None
    if not (ended or reader is None or reader.at_end()):
        raise Unreadable(f"line {len(lines) + 1}: the book has more records")


def line_in_words(line, record=None):
    """Raises ValueError if no run prints such a line, or none for this record."""
    words = line.split(" ")
    if words[0] == "book":
        _, place = words
        return f"the record at byte {number_of(place)} cannot be read; the run ended"
    kind, number, blocks, value = words
    kind, number, blocks = number_of(kind), number_of(number), number_of(blocks)
    if kind not in NAMES or number not in WORDS or (record is not None and record.kind != kind):
        raise ValueError
    call = call_in_words(kind, record)
    if number == SERVED:
        return f"{call}: served, {result_in_words(kind, value)}, {counted(blocks, 'block')}"
    if (blocks, value) != (0, "-"):
        raise ValueError
    return f"{call}: refused, {reason_in_words(kind, number)}"


def call_in_words(kind, record):
    name = NAMES[kind].replace("-", " ")
    if record is None or "handle" not in record.fields:
        return name
    return f"{name} under handle {record.fields['handle']}"


def reason_in_words(kind, number):
    """Reason 4 has a meaning for openings and one for draws; the others have one."""
    if number == STRENGTH_TOO_HIGH:
        return "strength above 256" if kind == OPEN else "strength above the generator's own"
    return WORDS[number]


def result_in_words(kind, value):
    if kind == OPEN:
        handle = number_of(value)
        return f"handle {handle} (serial {handle // 16}, slot {handle % 16})"
    if kind == INQUIRE:
        return counted(number_of(value), "draw") + " left"
    if kind in (DRAW, FRESH_DRAW) and value != "-":
        drawn = bytes.fromhex(value)
        if drawn == b"" or drawn.hex() != value:
            raise ValueError
        return f"{counted(len(drawn), 'byte')} {value}"
    if value != "-":
        raise ValueError
    return {
        RESEED: "reseeded", DRAW: "no bytes", FRESH_DRAW: "no bytes", CLOSE: "slot freed",
    }[kind]


def counted(count, thing):
    return f"{count} {thing}" if count == 1 else f"{count} {thing}s"


# The command

def to_book():
    sys.stdout.buffer.write(book_of(sys.stdin.buffer.read()))


def to_text():
    for line in text_of(sys.stdin.buffer.read(MOST_BOOK + 1)):
        print(line)


def explain(book=None):
    if book is not None:
        with open(book, "rb") as file:
            book = file.read()
    for line in explained(sys.stdin.buffer.read().decode("ascii", errors="replace"), book):
        print(line)


COMMANDS = {"to-book": to_book, "to-text": to_text, "explain": explain}


def main(arguments):
    if not (arguments[:1] == ["explain"] and len(arguments) == 2 or len(arguments) == 1 and arguments[0] in COMMANDS):
        print("usage: text.py to-book | to-text | explain [BOOK]", file=sys.stderr)
        return 2
    try:
        COMMANDS[arguments[0]](*arguments[1:])
    except (Unreadable, OSError) as reason:
        sys.stdout.flush()
        print(reason, file=sys.stderr)
        return 1
    return 0


if __name__ == "__main__":
    sys.exit(main(sys.argv[1:]))
