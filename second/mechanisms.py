"""The two mechanisms by their number in document 01, and the fresh draw over either."""

import hash_drbg
import hmac_drbg

HMAC_DRBG = 1
HASH_DRBG = 2

# Both modules have the same parts: State, STATE_BYTES, opened, reseeded, drawn.
MECHANISMS = {HMAC_DRBG: hmac_drbg, HASH_DRBG: hash_drbg}


def fresh_drawn(mechanism, hasher, state, length, entropy, additional):
    """SP 800-90A section 9.3.1, steps 7 and 8, with prediction resistance asked for.

    The additional input goes to the reseed (step 7.1). The draw then has none (step
    7.4), so it is not given to the draw a second time.
    """
    state = mechanism.reseeded(hasher, state, entropy, additional)
    return mechanism.drawn(hasher, state, length, b"")
