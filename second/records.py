"""The records of the call book: their kinds and the fields of each, in order."""

from typing import NamedTuple

MOST_BOOK = 65536

OPEN = 1
RESEED = 2
DRAW = 3
FRESH_DRAW = 4
CLOSE = 5
INQUIRE = 6

# What a field can hold, and the most that it holds (of a string: its bytes)
NUMBER = "number"
RIGHT = "fresh right"
LENGTH = "length"
STRING = "string"

MOST = {NUMBER: 2**64 - 1, RIGHT: 1, LENGTH: 65536, STRING: 2048}

FIELDS = {
    OPEN: (
        ("mechanism", NUMBER), ("strength", NUMBER), ("interval", NUMBER), ("fresh", RIGHT),
        ("entropy", STRING), ("nonce", STRING), ("personalization", STRING),
    ),
    RESEED: (("handle", NUMBER), ("entropy", STRING), ("additional", STRING)),
    DRAW: (("handle", NUMBER), ("strength", NUMBER), ("length", LENGTH), ("additional", STRING)),
    FRESH_DRAW: (
        ("handle", NUMBER), ("strength", NUMBER), ("length", LENGTH),
        ("entropy", STRING), ("additional", STRING),
    ),
    CLOSE: (("handle", NUMBER),),
    INQUIRE: (("handle", NUMBER),),
}


class Record(NamedTuple):
    kind: int
    fields: dict        # from the field's name to a number or to bytes


class BadRecord(Exception):
    """What no record can be; the words say why."""


def check_limit(holds, amount):
    """The amount is the number itself, or a string's length."""
    if amount > MOST[holds]:
        raise BadRecord(f"a {holds} above {MOST[holds]:,}")
