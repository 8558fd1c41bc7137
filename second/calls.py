"""The six calls of document 01.

Each call has two parts: a function that gives the first reason to refuse it, or 0,
and the call itself. The reasons stand in the order of checks that document 01 names.
A refusal gives the table and the lent output back as they came.
"""

from dataclasses import dataclass, replace

from answers import (
    ADDITIONAL_TOO_LONG, BAD_ENTROPY, BAD_INTERVAL, BAD_MECHANISM, BAD_NONCE, NO_FREE_SLOT,
    NO_FRESH_RIGHT, NO_SUCH_GENERATOR, PERSONALIZATION_TOO_LONG, REQUEST_TOO_LONG, RESEED_DUE,
    SERIALS_USED_UP, SERVED, STRENGTH_TOO_HIGH, TABLE_UNSOUND,
)
from hashing import Hasher
from mechanisms import MECHANISMS, fresh_drawn
from table import (
    FREE_SLOT, LARGEST_SERIAL, LONGEST_INTERVAL, Slot, Table, draws_left, generator, handle_of,
    lowest_free, place_of, reseed_due, rounded, sound, state_of, with_slot, with_state,
)

MOST_STRENGTH = 256
MOST_PERSONALIZATION = 512
MOST_ADDITIONAL = 1024
MOST_ENTROPY = 1024
MOST_NONCE = 64
MOST_REQUEST = 65536


@dataclass(frozen=True)
class Answer:
    number: int
    table: Table
    blocks: int = 0
    value: int = 0
    output: bytes = b""     # a draw's lent output as it is after the call


def refused(reason, table, output=b""):
    """Answers 1 to 14: table and output as they came, count and value 0."""
    return Answer(reason, table, output=output)


def entropy_fits(entropy, strength):
    """Reason 8, by the rounded strength."""
    return strength // 8 <= len(entropy) <= MOST_ENTROPY


def nonce_fits(nonce, strength):
    """Reason 9, by the rounded strength: half of it (section 8.6.7)."""
    return strength // 16 <= len(nonce) <= MOST_NONCE


# Open (SP 800-90A section 9.1)

def open_refusal(table, mechanism, strength, interval, entropy, nonce, personalization):
    """Order of checks: 1, 3, 4, 5, 6, 8, 9, 13, 14."""
    if not sound(table):
        return TABLE_UNSOUND
    if mechanism not in MECHANISMS:
        return BAD_MECHANISM
    if strength > MOST_STRENGTH:
        return STRENGTH_TOO_HIGH
    if not 1 <= interval <= LONGEST_INTERVAL:
        return BAD_INTERVAL
    if len(personalization) > MOST_PERSONALIZATION:
        return PERSONALIZATION_TOO_LONG
    if not entropy_fits(entropy, rounded(strength)):
        return BAD_ENTROPY
    if not nonce_fits(nonce, rounded(strength)):
        return BAD_NONCE
    if lowest_free(table) is None:
        return NO_FREE_SLOT
    if table.last == LARGEST_SERIAL:
        return SERIALS_USED_UP
    return SERVED


def open_call(table, mechanism, strength, interval, fresh_right, entropy, nonce, personalization):
    reason = open_refusal(table, mechanism, strength, interval, entropy, nonce, personalization)
    if reason != SERVED:
        return refused(reason, table)
    hasher = Hasher()
    state = MECHANISMS[mechanism].opened(hasher, entropy, nonce, personalization)
    serial = table.last + 1
    place = lowest_free(table)
    slot = Slot(
        mechanism=mechanism,
        strength=rounded(strength),
        interval=interval,
        fresh=1 if fresh_right else 0,
        serial=serial,
    )
    after = replace(with_slot(table, place, with_state(slot, state)), last=serial)
    return Answer(SERVED, after, blocks=hasher.blocks, value=handle_of(serial, place))


# What every call with a handle asks first, and both kinds of draw next

def lookup_refusal(table, handle):
    """Order of checks: 1, 2."""
    if not sound(table):
        return TABLE_UNSOUND
    if generator(table, handle) is None:
        return NO_SUCH_GENERATOR
    return SERVED


def request_refusal(table, handle, strength, output, additional):
    """Order of checks: 1, 2, 10, 4, 7."""
    reason = lookup_refusal(table, handle)
    if reason != SERVED:
        return reason
    if len(output) > MOST_REQUEST:
        return REQUEST_TOO_LONG
    if strength > generator(table, handle).strength:
        return STRENGTH_TOO_HIGH
    if len(additional) > MOST_ADDITIONAL:
        return ADDITIONAL_TOO_LONG
    return SERVED


# Reseed (section 9.2)

def reseed_refusal(table, handle, entropy, additional):
    """Order of checks: 1, 2, 7, 8."""
    reason = lookup_refusal(table, handle)
    if reason != SERVED:
        return reason
    slot = generator(table, handle)
    if len(additional) > MOST_ADDITIONAL:
        return ADDITIONAL_TOO_LONG
    if not entropy_fits(entropy, slot.strength):
        return BAD_ENTROPY
    return SERVED


def reseed_call(table, handle, entropy, additional):
    reason = reseed_refusal(table, handle, entropy, additional)
    if reason != SERVED:
        return refused(reason, table)
    slot = generator(table, handle)
    hasher = Hasher()
    state = MECHANISMS[slot.mechanism].reseeded(hasher, state_of(slot), entropy, additional)
    after = with_slot(table, place_of(handle), with_state(slot, state))
    return Answer(SERVED, after, blocks=hasher.blocks)


# Draw (section 9.3, without its step 7: a plain draw never reseeds)

def draw_refusal(table, handle, strength, output, additional):
    """Order of checks: 1, 2, 10, 4, 7, 12."""
    reason = request_refusal(table, handle, strength, output, additional)
    if reason != SERVED:
        return reason
    if reseed_due(generator(table, handle)):
        return RESEED_DUE
    return SERVED


def draw_call(table, handle, strength, output, additional):
    """The request is the length of the lent output."""
    reason = draw_refusal(table, handle, strength, output, additional)
    if reason != SERVED:
        return refused(reason, table, output)
    slot = generator(table, handle)
    hasher = Hasher()
    mechanism = MECHANISMS[slot.mechanism]
    drawn, state = mechanism.drawn(hasher, state_of(slot), len(output), additional)
    after = with_slot(table, place_of(handle), with_state(slot, state))
    return Answer(SERVED, after, blocks=hasher.blocks, output=drawn)


# Fresh draw (section 9.3, with prediction resistance)

def fresh_draw_refusal(table, handle, strength, output, entropy, additional):
    """Order of checks: 1, 2, 10, 4, 7, 11, 8. Reseed due (12) is no reason here."""
    reason = request_refusal(table, handle, strength, output, additional)
    if reason != SERVED:
        return reason
    slot = generator(table, handle)
    if slot.fresh == 0:
        return NO_FRESH_RIGHT
    if not entropy_fits(entropy, slot.strength):
        return BAD_ENTROPY
    return SERVED


def fresh_draw_call(table, handle, strength, output, entropy, additional):
    """The request is the length of the lent output."""
    reason = fresh_draw_refusal(table, handle, strength, output, entropy, additional)
    if reason != SERVED:
        return refused(reason, table, output)
    slot = generator(table, handle)
    hasher = Hasher()
    mechanism = MECHANISMS[slot.mechanism]
    drawn, state = fresh_drawn(
        mechanism, hasher, state_of(slot), len(output), entropy, additional)
    after = with_slot(table, place_of(handle), with_state(slot, state))
    return Answer(SERVED, after, blocks=hasher.blocks, output=drawn)


# Close (section 9.4) and inquire

def close_call(table, handle):
    reason = lookup_refusal(table, handle)
    if reason != SERVED:
        return refused(reason, table)
    return Answer(SERVED, with_slot(table, place_of(handle), FREE_SLOT))


def inquire_call(table, handle):
    reason = lookup_refusal(table, handle)
    if reason != SERVED:
        return refused(reason, table)
    return Answer(SERVED, table, value=draws_left(generator(table, handle)))
