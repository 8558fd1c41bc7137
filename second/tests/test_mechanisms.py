"""The mechanisms: edge 6, the slips that drafts have made, and HMAC against Python's own."""

import hashlib
import hmac as library_hmac
import unittest

import hash_drbg
import hmac_drbg
from hashing import Hasher
from keyed_hash import hmac
from mechanisms import MECHANISMS, fresh_drawn

from samples import BOTH, ENTROPY, NONCE, random_source


def sha256(message):
    return hashlib.sha256(message).digest()


class Hmac(unittest.TestCase):
    def test_against_the_library(self):
        source = random_source()
        for length in range(0, 150):
            key, text = source.randbytes(length), source.randbytes(length * 3 % 131)
            self.assertEqual(
                hmac(Hasher(), key, text), library_hmac.digest(key, text, "sha256"))

    def test_pads(self):
        """Inner 36, outer 5C (document 002 exchanges them)."""
        inner = sha256(b"\x36" * 64 + b"text")
        self.assertEqual(hmac(Hasher(), b"", b"text"), sha256(b"\x5c" * 64 + inner))


class HmacDrbg(unittest.TestCase):
    def test_open_starts_from_00_and_01(self):
        key = library_hmac.digest(bytes(32), b"\x01" * 32 + b"\x00" + b"seed", "sha256")
        value = library_hmac.digest(key, b"\x01" * 32, "sha256")
        key = library_hmac.digest(key, value + b"\x01" + b"seed", "sha256")
        value = library_hmac.digest(key, value, "sha256")
        self.assertEqual(
            hmac_drbg.opened(Hasher(), b"se", b"e", b"d"), hmac_drbg.State(key, value, 1))

    def test_update_without_data_is_half_an_update(self):
        key = library_hmac.digest(b"k" * 32, b"v" * 32 + b"\x00", "sha256")
        value = library_hmac.digest(key, b"v" * 32, "sha256")
        self.assertEqual(
            hmac_drbg.update(Hasher(), b"", b"k" * 32, b"v" * 32), (key, value))


class HashDrbg(unittest.TestCase):
    def test_edge_6(self):
        self.assertEqual(hash_drbg.summed(b"\xff" * 55, b"\x01"), bytes(55))
        self.assertEqual(hash_drbg.summed(b"\xff" * 54 + b"\xfe", b"\x01"), b"\xff" * 55)

    def test_output_goes_over_the_end(self):
        """Hash(V), Hash(V+1) with V + 1 = 0; then V steps by H + C + counter."""
        state = hash_drbg.State(b"\xff" * 55, bytes(54) + b"\x07", counter=9)
        drawn, after = hash_drbg.drawn(Hasher(), state, 64, b"")
        self.assertEqual(drawn, sha256(b"\xff" * 55) + sha256(bytes(55)))
        h = int.from_bytes(sha256(b"\x03" + b"\xff" * 55), "big")
        self.assertEqual(int.from_bytes(after.value, "big"), -1 + h + 7 + 9)
        self.assertEqual((after.constant, after.counter), (state.constant, 10))

    def test_derive(self):
        bits = bytes.fromhex("000001B8")
        whole = sha256(b"\x01" + bits + b"x") + sha256(b"\x02" + bits + b"x")
        self.assertEqual(hash_drbg.derive(Hasher(), b"x"), whole[:55])

    def test_constant_is_derived(self):
        """C = Derive(00, V), not a single hash (document 003)."""
        state = hash_drbg.opened(Hasher(), b"s", b"e", b"ed")
        self.assertEqual(state.value, hash_drbg.derive(Hasher(), b"seed"))
        self.assertEqual(state.constant, hash_drbg.derive(Hasher(), b"\x00" + state.value))


class Both(unittest.TestCase):
    def test_a_longer_draw_begins_with_the_shorter_and_no_block_repeats(self):
        for number in BOTH:
            mechanism = MECHANISMS[number]
            state = mechanism.opened(Hasher(), ENTROPY, NONCE, b"")
            long, _ = mechanism.drawn(Hasher(), state, 320, b"")
            for length in range(0, 100):
                short, _ = mechanism.drawn(Hasher(), state, length, b"")
                self.assertEqual(short, long[:length])
            self.assertEqual(len({long[at:at + 32] for at in range(0, 320, 32)}), 10)

    def test_the_state_steps_at_every_draw_even_of_0_bytes(self):
        for number in BOTH:
            mechanism = MECHANISMS[number]
            state = mechanism.opened(Hasher(), ENTROPY, NONCE, b"")
            values = {state.value}
            for count in range(2, 12):
                _, state = mechanism.drawn(Hasher(), state, 0, b"")
                self.assertEqual(state.counter, count)
                self.assertNotIn(state.value, values)
                values.add(state.value)

    def test_fresh_draw_is_a_reseed_then_a_draw_with_no_additional(self):
        for number in BOTH:
            mechanism = MECHANISMS[number]
            state = mechanism.opened(Hasher(), ENTROPY, NONCE, b"")
            reseeded = mechanism.reseeded(Hasher(), state, b"e" * 32, b"more")
            expected = mechanism.drawn(Hasher(), reseeded, 50, b"")
            slip = mechanism.drawn(Hasher(), reseeded, 50, b"more")
            fresh = fresh_drawn(mechanism, Hasher(), state, 50, b"e" * 32, b"more")
            self.assertEqual(fresh, expected)
            self.assertNotEqual(fresh, slip)
            self.assertEqual(fresh[1].counter, 2)
