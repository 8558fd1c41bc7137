"""SHA-256 (FIPS 180-4), with a count of the blocks that it consumes.

The bytes come from Python's own hashlib. The count comes from padding each
message as the standard says and counting the blocks that this gives; no closed
form of document 01 is used here, so that the tests can compare the two.
"""

import hashlib

BLOCK_BYTES = 64
HASH_BYTES = 32
LENGTH_BYTES = 8


def padded(message):
    """FIPS 180-4 section 5.1.1: a bit 1, then zeros, then the length in bits."""
    text = bytearray(message)
    text.append(0x80)
    while len(text) % BLOCK_BYTES != BLOCK_BYTES - LENGTH_BYTES:
        text.append(0x00)
    text += (8 * len(message)).to_bytes(LENGTH_BYTES, "big")
    return bytes(text)


def blocks_of(text):
    """FIPS 180-4 section 5.2.1: the padded message, parsed into its blocks."""
    return [text[at:at + BLOCK_BYTES] for at in range(0, len(text), BLOCK_BYTES)]


class Hasher:
    """Hashes messages and keeps the number of blocks consumed so far.

    Each served call has a Hasher of its own; its blocks are the call's count.
    """

    def __init__(self):
        self.blocks = 0

    def hash(self, message):
        self.blocks += len(blocks_of(padded(message)))
        return hashlib.sha256(message).digest()
