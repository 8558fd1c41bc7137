"""Calls on a table in bytes: the ones on both sides of each limit, and ones drawn by lot, on tables sound and spoiled."""

from dataclasses import replace
from itertools import combinations

from answers import SERVED
from hash_drbg import STATE_BYTES
from make_edges import spoiled
from mechanisms import HASH_DRBG
from records import CLOSE, DRAW, FRESH_DRAW, OPEN, RESEED
from run import performed
from stored import SLOT, TABLE_BYTES, slot_bytes, table_bytes, table_of
from table import FRESH_TABLE, LARGEST_SERIAL, LONGEST_INTERVAL, SLOTS
from writer import close, draw, filler, fresh_draw, inquire, opening, reseed

BOTH = (1, 2)
CLAUSES = range(19)     # of soundness, each broken by `spoiled`: of a used slot up to 11, of a free one from 12 on
FREE = 12

# both sides of a hash's end, and of one, two and three groups of four hashes
LENGTHS = (0, 1, 16, 31, 32, 33, 55, 56, 63, 64, 65, 96, 127, 128, 129, 160, 224, 255, 256, 257, 383, 384, 385, 1023, 1024, 1025)
LONG = (65535, 65536, 65537)
ENTROPY = (0, 13, 14, 15, 16, 23, 24, 31, 32, 33, 55, 56, 64, 1023, 1024, 1025, 65536, 65537)
NONCE = (0, 6, 7, 8, 9, 11, 12, 13, 15, 16, 17, 55, 56, 63, 64, 65, 1024)
PERSONALIZATION = (0, 1, 23, 55, 56, 64, 511, 512, 513, 1025, 65537)
ADDITIONAL = (0, 1, 22, 23, 55, 56, 63, 64, 1023, 1024, 1025, 65537)

# Numbers at the limits, and numbers that would be good ones if they were cut to a field's width
MECHANISMS = (0, 1, 2, 3, 257, 2**32 + 1, 2**64 - 1)
STRENGTHS = (0, 1, 112, 113, 128, 129, 192, 193, 256, 257, 65536 + 112, 2**32, 2**64 - 1)
INTERVALS = (0, 1, 2, 3, 2**48 - 1, 2**48, 2**48 + 1, 2**64 - 1)
FRESH = (0, 1, 2, 256, 2**32, 2**63, 2**64 - 1)
STRANGE_HANDLES = (0, 1, 15, 16, 17, 2**32 + 16, 2**36, 2**36 + 16, 2**64 - 1)
TABLE_LENGTHS = (0, 1, SLOT.size, TABLE_BYTES - 1, TABLE_BYTES + 1, 2 * TABLE_BYTES, 65536)
FIRST_HANDLE = 16

# Of a used slot, and of no sound one: beside the four strengths, and with the lowest bits or the lowest byte of a good one
UNSOUND_STRENGTHS = (0, 1, 111, 113, 127, 129, 191, 193, 255, 257, 112 + 256, 128 + 2**15)
UNSOUND_RIGHTS = (2, 3, 127, 128, 129, 255)

# Each by itself is a reason, in no order
OPENING_FAULTS = (
    {"mechanism": 3}, {"strength": 257}, {"interval": 0}, {"personalization": filler(513)}, {"entropy": b""}, {"nonce": b""})
RESEED_FAULTS = ({"additional": filler(1025)}, {"entropy": b""})
DRAW_FAULTS = ({"length": 65537}, {"strength": 257}, {"additional": filler(1025)})
FRESH_DRAW_FAULTS = DRAW_FAULTS + ({"entropy": b""},)


# The limits, one by one

def opened(mechanism, **settings):
    """A table whose one generator has the first handle."""
    return performed(FRESH_TABLE, opening(mechanism=mechanism, **settings)).table


def openings():
    for mechanism in MECHANISMS:
        yield opening(mechanism=mechanism)
    for mechanism in BOTH:
        yield from (opening(mechanism, strength=number) for number in STRENGTHS)
        yield from (opening(mechanism, interval=number) for number in INTERVALS)
        yield from (opening(mechanism, fresh=number) for number in FRESH)
        yield from (opening(mechanism, strength, entropy=filler(count)) for strength in (0, 128, 192, 256) for count in ENTROPY)
        yield from (opening(mechanism, strength, nonce=filler(count)) for strength in STRENGTHS for count in NONCE)
        yield from (opening(mechanism, personalization=filler(count)) for count in PERSONALIZATION)


def calls_on(handle):
    """All but openings."""
    for count in ENTROPY:
        yield reseed(handle, filler(count))
        yield fresh_draw(handle, 16, entropy=filler(count))
    for count in ADDITIONAL:
        yield reseed(handle, additional=filler(count))
        yield draw(handle, 16, additional=filler(count))
        yield fresh_draw(handle, 16, additional=filler(count))
    for number in STRENGTHS:
        yield draw(handle, 16, number)
        yield fresh_draw(handle, 16, number)
    for length in LENGTHS + LONG:
        yield draw(handle, length)
        yield fresh_draw(handle, length)
    for number in (handle,) + STRANGE_HANDLES:
        yield close(number)
        yield inquire(number)


def six_calls(handle):
    return opening(), reseed(handle), draw(handle, 33), fresh_draw(handle, 33), close(handle), inquire(handle)


def full_table():
    table = FRESH_TABLE
    for place in range(SLOTS):
        table = performed(table, opening(mechanism=1 + place % 2)).table
    return table


def spoiled_tables():
    """Each clause of soundness broken in a table of one generator, and in the last slot of a full one."""
    for mechanism in BOTH:
        one = opened(mechanism, interval=2)
        for clause in CLAUSES:
            place = 0 if clause < FREE else SLOTS - 1
            yield with_slot_bytes(table_bytes(one), place, slot_bytes(spoiled(clause, one.slots[place])))
    full = table_bytes(full_table())
    last = table_of(full).slots[-1]
    for clause in range(FREE):
        yield with_slot_bytes(full, SLOTS - 1, slot_bytes(spoiled(clause, replace(last, interval=2))))


def in_first_slot(table, **changes):
    return with_slot_bytes(table_bytes(table), 0, slot_bytes(replace(table.slots[0], **changes)))


def unsound_numbers():
    """Strengths and fresh rights that a slot never has, as (table, call)."""
    for mechanism in BOTH:
        one = opened(mechanism)
        for text in (
                *(in_first_slot(one, strength=number) for number in UNSOUND_STRENGTHS),
                *(in_first_slot(one, fresh=number) for number in UNSOUND_RIGHTS)):
            for record in six_calls(FIRST_HANDLE):
                yield text, record


def carries():
    """Hash_DRBG draws on a V whose lowest bytes are FF, one of them or more, but the last, which may be less: whatever V is cut into, a
    carry goes from each part to the next. In a draw of four blocks, hashed one by one, it comes at V + 1 or V + 2; in one of two groups
    of four and two more blocks at each step, from V + 1 to V + 9; as (table, call)."""
    one = opened(HASH_DRBG)
    for count in range(1, STATE_BYTES + 1):
        for step in range(1, 10):
            value = filler(STATE_BYTES - count, 1) + b"\xff" * (count - 1) + bytes([0x100 - step])
            yield in_first_slot(one, first=value), draw(FIRST_HANDLE, 289)
            if step <= 2:
                for additional in (b"", filler(1)):
                    yield in_first_slot(one, first=value), draw(FIRST_HANDLE, 97, additional=additional)


def one_or_two(faults):
    """Each by itself, and every two of them."""
    return [dict(one) for one in faults] + [one | other for one, other in combinations(faults, 2)]


def two_reasons():
    """Calls for which two reasons or more hold: the first of them in the call's order is told; as (table, call)."""
    for text in (table_bytes(table) for table in (
            FRESH_TABLE, full_table(), replace(FRESH_TABLE, last=LARGEST_SERIAL), replace(full_table(), last=LARGEST_SERIAL))):
        for faults in one_or_two(OPENING_FAULTS):
            yield text, opening(**faults)
    for mechanism in BOTH:
        plain = opened(mechanism, interval=1, fresh=0)
        for table in (plain, performed(plain, draw(FIRST_HANDLE)).table, opened(mechanism)):
            for handle in (FIRST_HANDLE, FIRST_HANDLE + 1):
                yield from ((table_bytes(table), reseed(handle, **faults)) for faults in one_or_two(RESEED_FAULTS))
                yield from ((table_bytes(table), draw(handle, **faults)) for faults in one_or_two(DRAW_FAULTS))
                yield from ((table_bytes(table), fresh_draw(handle, **faults)) for faults in one_or_two(FRESH_DRAW_FAULTS))


def with_slot_bytes(text, place, slot):
    at = place * SLOT.size
    return text[:at] + slot + text[at + SLOT.size:]


def cut_or_longer(text, length):
    return (text + bytes(length))[:length]


def edges():
    """As (table, call): every limit, every clause of soundness, every wrong length, every carry and every two reasons."""
    fresh, full = table_bytes(FRESH_TABLE), table_bytes(full_table())
    for record in openings():
        yield fresh, record
    yield full, opening()
    for last in (LARGEST_SERIAL - 1, LARGEST_SERIAL):
        yield table_bytes(replace(FRESH_TABLE, last=last)), opening()
        yield table_bytes(replace(full_table(), last=last)), opening()
    for mechanism in BOTH:
        for record in calls_on(FIRST_HANDLE):
            yield table_bytes(opened(mechanism)), record
        for record in six_calls(FIRST_HANDLE):
            yield table_bytes(opened(mechanism, fresh=0)), record
        due = performed(opened(mechanism, interval=1), draw(FIRST_HANDLE)).table
        for record in six_calls(FIRST_HANDLE):
            yield table_bytes(due), record
        longest = opened(mechanism, interval=LONGEST_INTERVAL)
        for counter in (LONGEST_INTERVAL, LONGEST_INTERVAL + 1, LONGEST_INTERVAL + 2):
            slot = replace(longest.slots[0], counter=counter)
            for record in six_calls(FIRST_HANDLE):
                yield with_slot_bytes(table_bytes(longest), 0, slot_bytes(slot)), record
    for text in spoiled_tables():
        for record in six_calls(table_of(text).slots[0].serial * SLOTS):
            yield text, record
    for length in TABLE_LENGTHS:
        for text in (fresh, full):
            for record in six_calls(FIRST_HANDLE):
                yield cut_or_longer(text, length), record
    yield from unsound_numbers()
    yield from carries()
    yield from two_reasons()


# Drawn by lot

class Lot:
    """Draws calls from a source of random numbers; the table goes on from call to call."""

    def __init__(self, source):
        self.source = source
        self.table = table_bytes(FRESH_TABLE)
        self.handles = []
        self.openings = source.choice((4, 30))      # beside 30 other calls; 30 of them fill the table

    def string(self, counts):
        count = self.source.choice(counts)
        if self.source.random() < 0.3:
            count = self.source.randint(0, min(count, 2048))
        return self.source.randbytes(count)

    def length(self):
        if self.source.random() < 0.01:
            return self.source.choice(LONG)
        return self.source.choice(LENGTHS)

    def handle(self):
        """Mostly one that was issued, and is closed or not."""
        if self.handles != [] and self.source.random() < 0.9:
            return self.source.choice(self.handles[-self.source.choice((2, 20)):])
        return self.source.choice(STRANGE_HANDLES)

    def opening(self):
        """Most of them with settings that are served, as one refused setting is enough."""
        choice = self.source.choice
        if self.source.random() < 0.7:
            return opening(
                choice(BOTH), choice((0, 112, 128, 192, 256)), choice((1, 2, 3, 2**48)), choice(FRESH),
                self.source.randbytes(choice((32, 33, 64, 1024))), self.source.randbytes(choice((16, 17, 64))),
                self.source.randbytes(choice((0, 1, 512))))
        return opening(
            choice(MECHANISMS), choice(STRENGTHS), choice(INTERVALS), choice(FRESH), self.string(ENTROPY),
            self.string(NONCE), self.string(PERSONALIZATION))

    def good(self, kind):
        """Of the three that take strings; strings and strength that any generator of strength 256 takes."""
        handle, source = self.handle(), self.source
        entropy, additional = source.randbytes(source.choice((32, 64))), source.randbytes(source.choice((0, 1, 64)))
        if kind == RESEED:
            return reseed(handle, entropy, additional)
        if kind == DRAW:
            return draw(handle, self.length(), 0, additional)
        return fresh_draw(handle, self.length(), 0, entropy, additional)

    def any(self, kind):
        handle, source = self.handle(), self.source
        if kind == RESEED:
            return reseed(handle, self.string(ENTROPY), self.string(ADDITIONAL))
        if kind == DRAW:
            return draw(handle, self.length(), source.choice(STRENGTHS), self.string(ADDITIONAL))
        return fresh_draw(
            handle, self.length(), source.choice(STRENGTHS), self.string(ENTROPY), self.string(ADDITIONAL))

    def record(self):
        (kind,) = self.source.choices((OPEN, RESEED, DRAW, FRESH_DRAW, CLOSE, inquire), (self.openings, 5, 12, 8, 2, 3))
        if kind == OPEN:
            return self.opening()
        if kind in (RESEED, DRAW, FRESH_DRAW):
            return self.good(kind) if self.source.random() < 0.6 else self.any(kind)
        return close(self.handle()) if kind == CLOSE else inquire(self.handle())

    # Ways of spoiling a table; a changed byte may leave a sound one, but another

    def bytes_changed(self):
        text = bytearray(self.table)
        for _ in range(self.source.choice((1, 1, 2, 20))):
            text[self.source.randrange(len(text))] ^= self.source.randint(1, 255)
        return bytes(text)

    def bit_changed(self):
        text = bytearray(self.table)
        text[self.source.randrange(len(text))] ^= 1 << self.source.randrange(8)
        return bytes(text)

    def length_changed(self):
        return cut_or_longer(self.table, self.source.choice(TABLE_LENGTHS + (self.source.randrange(4096),)))

    def clause_broken(self):
        place = self.source.randrange(SLOTS)
        slot = table_of(self.table).slots[place]
        clause = self.source.choice(CLAUSES[:FREE] if slot.mechanism else CLAUSES[FREE:])
        return with_slot_bytes(self.table, place, slot_bytes(spoiled(clause, slot)))

    def nothing_but_noise(self):
        return self.source.randbytes(TABLE_BYTES)

    def next(self):
        """As (table, call)."""
        text = self.table
        if self.source.random() < 0.25:
            text = self.source.choice((
                self.bytes_changed, self.bit_changed, self.length_changed, self.clause_broken,
                self.nothing_but_noise))()
        return text, self.record()

    def answered(self, record, outcome):
        """The table goes on from a served call; a refused one leaves the one before, which may have been spoiled."""
        if outcome.answer == SERVED:
            self.table = outcome.table
            if record.kind == OPEN:
                self.handles.append(outcome.value)
