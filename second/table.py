"""The generator table of document 01: slots, handles, counters and soundness.

Slots and tables are values that are never changed; a call makes new ones. Any value
can be a table, sound or not.
"""

from dataclasses import dataclass, replace

from mechanisms import MECHANISMS

SLOTS = 16
FIELD_BYTES = 55
STRENGTHS = (112, 128, 192, 256)
LONGEST_INTERVAL = 2**48
LARGEST_SERIAL = 2**32 - 1


@dataclass(frozen=True)
class Slot:
    mechanism: int = 0                    # 0 in a free slot
    strength: int = 0
    interval: int = 0
    counter: int = 0
    fresh: int = 0                        # the fresh right: 0 no, 1 yes
    serial: int = 0
    first: bytes = bytes(FIELD_BYTES)     # HMAC_DRBG: K; Hash_DRBG: V
    second: bytes = bytes(FIELD_BYTES)    # HMAC_DRBG: V; Hash_DRBG: C


@dataclass(frozen=True)
class Table:
    slots: tuple
    last: int                             # the last serial given


FREE_SLOT = Slot()
FRESH_TABLE = Table(slots=(FREE_SLOT,) * SLOTS, last=0)


# Soundness

def sound(table):
    return (
        len(table.slots) == SLOTS
        and 0 <= table.last <= LARGEST_SERIAL
        and all(slot_sound(slot, table.last) for slot in table.slots)
    )


def slot_sound(slot, last):
    """A free slot is all zero."""
    return slot == FREE_SLOT or used_slot_sound(slot, last)


def used_slot_sound(slot, last):
    return (
        slot.mechanism in MECHANISMS
        and slot.strength in STRENGTHS
        and 1 <= slot.interval <= LONGEST_INTERVAL
        and 1 <= slot.counter <= slot.interval + 1
        and slot.fresh in (0, 1)
        and 1 <= slot.serial <= last
        and field_sound(slot.mechanism, slot.first)
        and field_sound(slot.mechanism, slot.second)
    )


def field_sound(mechanism, field):
    """FIELD_BYTES bytes, of which those that the mechanism does not use are zero."""
    used = MECHANISMS[mechanism].STATE_BYTES
    return len(field) == FIELD_BYTES and field[used:] == bytes(FIELD_BYTES - used)


# Slots and handles

def in_use(slot):
    return slot.mechanism != 0


def handle_of(serial, place):
    return SLOTS * serial + place


def place_of(handle):
    return handle % SLOTS


def generator(table, handle):
    """The slot that the handle names, or None."""
    slot = table.slots[place_of(handle)]
    if in_use(slot) and slot.serial == handle // SLOTS:
        return slot
    return None


def lowest_free(table):
    """The place of the lowest free slot, or None."""
    for place, slot in enumerate(table.slots):
        if not in_use(slot):
            return place
    return None


def with_slot(table, place, slot):
    """The table with one slot exchanged."""
    return replace(table, slots=table.slots[:place] + (slot,) + table.slots[place + 1:])


# Strength and counter

def rounded(strength):
    """SP 800-90A section 9.1, step 4. The strength asked for is at most 256 here."""
    return min(one for one in STRENGTHS if one >= strength)


def reseed_due(slot):
    return slot.counter > slot.interval


def draws_left(slot):
    return slot.interval + 1 - slot.counter


# The standard's working state, held in the slot's two fields and its counter

def state_of(slot):
    mechanism = MECHANISMS[slot.mechanism]
    used = mechanism.STATE_BYTES
    return mechanism.State(slot.first[:used], slot.second[:used], slot.counter)


def with_state(slot, state):
    first, second, counter = state
    return replace(slot, first=field_of(first), second=field_of(second), counter=counter)


def field_of(text):
    """The bytes in use, then zeros up to FIELD_BYTES."""
    return text + bytes(FIELD_BYTES - len(text))
