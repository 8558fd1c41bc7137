"""Hash_DRBG over SHA-256 (SP 800-90A Rev. 1, section 10.1.1).

The comments name the steps of the section that stands above them. The first step
of the generate process, "reseed required", is answer 12 and is asked in calls.py.
In the parts of the standard that we hold, step 2 of section 10.3.1 has lost its
rounding up; the published whole and document 01 have it.
"""

from typing import NamedTuple

from hashing import HASH_BYTES

SEED_BITS = 440                 # Table 2 of section 10.1: seedlen for SHA-256
STATE_BYTES = SEED_BITS // 8


class State(NamedTuple):
    """Section 10.1.1.1: the working state, in the order of the slot's fields."""

    value: bytes
    constant: bytes
    counter: int


def summed(*parts):
    """The sum of big-endian numbers modulo 2^440, as 55 bytes."""
    total = sum(int.from_bytes(part, "big") for part in parts)
    return (total % 2**SEED_BITS).to_bytes(STATE_BYTES, "big")


def derive(hasher, text):
    """Section 10.3.1, Hash_df, for 440 bits."""
    output = b""                                              # step 1
    times = -(-STATE_BYTES // HASH_BYTES)                     # step 2: rounded up
    bits = SEED_BITS.to_bytes(4, "big")                       # 000001B8
    for count in range(1, times + 1):                         # steps 3, 4 and 4.2
        output += hasher.hash(bytes([count]) + bits + text)   # step 4.1
    return output[:STATE_BYTES]                               # steps 5 and 6


def opened(hasher, entropy, nonce, personalization):
    """Section 10.1.1.2."""
    seed_material = entropy + nonce + personalization         # step 1
    value = derive(hasher, seed_material)                     # steps 2 and 3
    constant = derive(hasher, b"\x00" + value)                # step 4
    return State(value, constant, counter=1)                  # steps 5 and 6


def reseeded(hasher, state, entropy, additional):
    """Section 10.1.1.3."""
    seed_material = b"\x01" + state.value + entropy + additional   # step 1
    value = derive(hasher, seed_material)                     # steps 2 and 3
    constant = derive(hasher, b"\x00" + value)                # step 4
    return State(value, constant, counter=1)                  # steps 5 and 6


def generated(hasher, length, value):
    """Section 10.1.1.4, Hashgen."""
    output = b""                                              # step 3
    data = value                                              # step 2
    while len(output) < length:                               # steps 1 and 4
        output += hasher.hash(data)                           # steps 4.1 and 4.2
        data = summed(data, b"\x01")                          # step 4.3
    return output[:length]                                    # steps 5 and 6


def drawn(hasher, state, length, additional):
    """Section 10.1.1.4. Returns the drawn bytes and the new state."""
    value, constant, counter = state
    if additional != b"":                                     # step 2
        w = hasher.hash(b"\x02" + value + additional)         # step 2.1
        value = summed(value, w)                              # step 2.2
    output = generated(hasher, length, value)                 # step 3
    h = hasher.hash(b"\x03" + value)                          # step 4
    steps = counter.to_bytes(8, "big")                        # the counter before its step
    value = summed(value, h, constant, steps)                 # step 5
    return output, State(value, constant, counter + 1)        # steps 6 and 7
