"""make_edges.py [--check]: makes, or compares, what the test program `test_edges` must print.

The same calls as crates/test_edges/src/main.rt makes, on the second program's table.
"""

import hashlib
import pathlib
from dataclasses import replace

from calls import close_call, draw_call, fresh_draw_call, inquire_call, open_call, reseed_call
from made_files import command
from table import FRESH_TABLE, with_slot

CRATE = pathlib.Path(__file__).resolve().parent.parent / "crates" / "test_edges"


def answer(name, a):
    return f"{name} {a.number} {a.blocks} {a.value}"


def drawn(name, a):
    return f"{answer(name, a)} {hashlib.sha256(a.output).hexdigest()}"


def open_with(table, mechanism, strength, entropy):
    return open_call(table, mechanism, strength, 2, 1, b"\xaa" * entropy, b"\x55" * 16, b"")


def requests(mechanism):
    table = open_with(FRESH_TABLE, mechanism, 128, 16).table
    for length in (65536, 65537):
        yield drawn(length, draw_call(table, 16, 128, b"\x07" * length, b""))


def openings():
    table = FRESH_TABLE
    for i in range(17):
        a = open_with(table, 1 + i % 2, 0, 14)
        yield answer("opening", a)
        table = a.table


def field(old, place):
    return old[:place] + b"\x01" + old[place + 1:]


def spoiled(k, slot):
    """One clause of soundness broken: of a used slot up to 11, of a free one from 12 on; past 18 none is."""
    broken = [
        {"mechanism": 3}, {"strength": 111}, {"interval": 0}, {"interval": 2**48 + 1}, {"counter": 0}, {"counter": 4},
        {"fresh": 2}, {"serial": 0}, {"serial": 2}, {"first": field(slot.first, 32)}, {"second": field(slot.second, 54)},
        {"mechanism": 0}, {"strength": 112}, {"interval": 1}, {"counter": 1}, {"fresh": 1}, {"serial": 1},
        {"first": field(slot.first, 0)}, {"second": field(slot.second, 54)}, {},
    ]
    return replace(slot, **broken[k])


def six_calls(table):
    lent = b"\x33" * 16
    yield answer("open", open_with(table, 1, 128, 16))
    yield answer("reseed", reseed_call(table, 16, lent, b""))
    first = draw_call(table, 16, 0, b"\x07" * 16, b"")
    yield drawn("draw", first)
    yield drawn("fresh-draw", fresh_draw_call(table, 16, 0, first.output, lent, b""))
    yield answer("close", close_call(table, 16))
    yield answer("inquire", inquire_call(table, 16))


def unsound(k):
    table = open_with(FRESH_TABLE, 1, 128, 16).table
    place = 0 if k < 12 else 1
    return six_calls(with_slot(table, place, spoiled(k, table.slots[place])))


def lines():
    yield from requests(1)
    yield from requests(2)
    yield answer(31, open_with(FRESH_TABLE, 1, 256, 31))
    yield answer(32, open_with(FRESH_TABLE, 1, 256, 32))
    yield from openings()
    for last in (2**32 - 2, 2**32 - 1):
        yield answer("serial", open_with(replace(FRESH_TABLE, last=last), 2, 112, 14))
    for k in range(20):
        yield from unsound(k)


def made():
    return {"stdout": "".join(f"{line}\n" for line in lines()).encode()}


if __name__ == "__main__":
    command(CRATE, ["stdout"], made)
