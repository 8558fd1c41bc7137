"""HMAC_DRBG over SHA-256 (SP 800-90A Rev. 1, section 10.1.2).

The comments name the steps of the section that stands above them. The first step
of the generate process, "reseed required", is answer 12 and is asked in calls.py.
Section 10.1.2.3 and steps 3 to 6 of section 10.1.2.2 are missing from the parts of the
standard that we hold; they follow the published whole and document 01.
"""

from typing import NamedTuple

from hashing import HASH_BYTES
from keyed_hash import hmac

STATE_BYTES = HASH_BYTES


class State(NamedTuple):
    """Section 10.1.2.1: the working state, in the order of the slot's fields."""

    key: bytes
    value: bytes
    counter: int


def update(hasher, data, key, value):
    """Section 10.1.2.2. Returns the new key and value."""
    key = hmac(hasher, key, value + b"\x00" + data)           # step 1
    value = hmac(hasher, key, value)                          # step 2
    if data == b"":                                           # step 3
        return key, value
    key = hmac(hasher, key, value + b"\x01" + data)           # step 4
    value = hmac(hasher, key, value)                          # step 5
    return key, value                                         # step 6


def opened(hasher, entropy, nonce, personalization):
    """Section 10.1.2.3."""
    seed_material = entropy + nonce + personalization         # step 1
    key = b"\x00" * STATE_BYTES                               # step 2
    value = b"\x01" * STATE_BYTES                             # step 3
    key, value = update(hasher, seed_material, key, value)    # step 4
    return State(key, value, counter=1)                       # steps 5 and 6


def reseeded(hasher, state, entropy, additional):
    """Section 10.1.2.4."""
    seed_material = entropy + additional                                   # step 1
    key, value = update(hasher, seed_material, state.key, state.value)     # step 2
    return State(key, value, counter=1)                                    # steps 3 and 4


def drawn(hasher, state, length, additional):
    """Section 10.1.2.5. Returns the drawn bytes and the new state."""
    key, value, counter = state
    if additional != b"":                                     # step 2
        key, value = update(hasher, additional, key, value)
    output = b""                                              # step 3
    while len(output) < length:                               # step 4
        value = hmac(hasher, key, value)                      # step 4.1
        output += value                                       # step 4.2
    output = output[:length]                                  # step 5
    key, value = update(hasher, additional, key, value)       # step 6
    return output, State(key, value, counter + 1)             # steps 7 and 8
