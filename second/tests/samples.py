"""Tables, strings and books that the tests share."""

import random

from calls import open_call
from mechanisms import HASH_DRBG, HMAC_DRBG
from records import FIELDS, LENGTH, MOST, NUMBER, STRING, Record
from table import FRESH_TABLE

BOTH = (HMAC_DRBG, HASH_DRBG)
ENTROPY = bytes(range(32))
NONCE = bytes(range(100, 116))

# The example of document 01, and its output, whole.
EXAMPLE_BOOK = bytes.fromhex(
    "01 01 80 01 01 00 10" + "AA" * 16 + "08" + "55" * 8 + "00"
    "03 10 00 00 00"
    "03 10 00 00 00"
    "06 10"
    "05 10"
    "05 10"
)
EXAMPLE_LINES = [
    "1 0 18 16",
    "3 0 8 -",
    "3 12 0 -",
    "6 0 0 0",
    "5 0 0 -",
    "5 2 0 -",
]


def with_generators(count, mechanism=HMAC_DRBG, strength=256, interval=5, fresh_right=True):
    """A table with generators opened in its first slots."""
    table = FRESH_TABLE
    for _ in range(count):
        answer = open_call(
            table, mechanism, strength, interval, fresh_right, ENTROPY, NONCE, b"")
        assert answer.number == 0
        table = answer.table
    return table


def random_bytes(source, most):
    return source.randbytes(source.choice((0, 1, source.randint(0, most))))


def random_record(source):
    """Any record that a book can hold, long numbers and strings included."""
    kind = source.choice(list(FIELDS))
    fields = {}
    for name, holds in FIELDS[kind]:
        if holds == STRING:
            fields[name] = random_bytes(source, source.choice((40, MOST[STRING])))
        elif holds in (NUMBER, LENGTH):
            most = MOST[holds]
            fields[name] = source.choice((0, 1, 127, 128, most, source.randint(0, most)))
        else:
            fields[name] = source.randint(0, 1)
    return Record(kind, fields)


def random_source():
    """The same numbers at every run, so that a failure can be looked at again."""
    return random.Random("Purangsa")
