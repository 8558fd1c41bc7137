"""HMAC over SHA-256 (FIPS 198-1, section 4, Table 1)."""

from hashing import BLOCK_BYTES

INNER_PAD = 0x36
OUTER_PAD = 0x5C


def xor_each(text, byte):
    return bytes(one ^ byte for one in text)


def block_key(hasher, key):
    """Steps 1 to 3: the key as one block."""
    if len(key) > BLOCK_BYTES:
        key = hasher.hash(key)                                # step 2, first half
    return key + bytes(BLOCK_BYTES - len(key))                # step 2, second half; step 3


def hmac(hasher, key, text):
    whole_key = block_key(hasher, key)                        # steps 1 to 3
    inner = hasher.hash(xor_each(whole_key, INNER_PAD) + text)   # steps 4 to 6
    return hasher.hash(xor_each(whole_key, OUTER_PAD) + inner)   # steps 7 to 9
