"""The closed forms of document 01's table 'Blocks' against the blocks that are counted."""

import unittest

from calls import draw_call, fresh_draw_call, open_call, reseed_call
from hashing import Hasher, blocks_of, padded
from keyed_hash import hmac
from mechanisms import HASH_DRBG, HMAC_DRBG, MECHANISMS, fresh_drawn
from table import FRESH_TABLE

from samples import BOTH, ENTROPY, NONCE, with_generators

SEEDS = list(range(1, 330)) + [1023, 1024, 1087, 1088, 1599, 1600, 2047, 2048]
REQUESTS = list(range(0, 200)) + [1023, 1024, 1025]
ADDITIONALS = list(range(1, 200)) + [1022, 1023, 1024]


def ceil32(length):
    return -(-length // 32)


def open_blocks(mechanism, d):
    if mechanism == HMAC_DRBG:
        return 2 * ((d + 41) // 64) + 16
    return 2 * ((d + 13) // 64) + 6


def reseed_blocks(mechanism, d):
    if mechanism == HMAC_DRBG:
        return open_blocks(mechanism, d)
    return 2 * ((d + 5) // 64) + 8


def draw_blocks(mechanism, b, a):
    if mechanism == HMAC_DRBG:
        return 4 * ceil32(b) + (8 if a == 0 else 4 * ((a + 41) // 64) + 32)
    return ceil32(b) + (2 if a == 0 else a // 64 + 4)


class HashAndHmac(unittest.TestCase):
    def test_padding_is_the_standard_s(self):
        for length in range(0, 300):
            message = b"\xff" * length
            text = padded(message)
            self.assertEqual(text[:length], message)
            self.assertEqual(text[length], 0x80)
            self.assertEqual(set(text[length + 1:-8]) - {0}, set())
            self.assertEqual(int.from_bytes(text[-8:], "big"), 8 * length)
            self.assertTrue(all(len(block) == 64 for block in blocks_of(text)))
            self.assertLess(len(text) - length, 9 + 64)     # no needless block

    def test_hash(self):
        for length in range(0, 300):
            hasher = Hasher()
            hasher.hash(bytes(length))
            self.assertEqual(hasher.blocks, (length + 8) // 64 + 1, length)

    def test_hmac(self):
        for length in range(0, 300):
            hasher = Hasher()
            hmac(hasher, bytes(32), bytes(length))
            self.assertEqual(hasher.blocks, (length + 8) // 64 + 4, length)


class Mechanisms(unittest.TestCase):
    """By the mechanisms alone, so that every length can be had."""

    def test_open(self):
        for mechanism in BOTH:
            for d in SEEDS:
                hasher = Hasher()
                MECHANISMS[mechanism].opened(hasher, bytes(d), b"", b"")
                self.assertEqual(hasher.blocks, open_blocks(mechanism, d), (mechanism, d))

    def test_reseed(self):
        for mechanism in BOTH:
            state = MECHANISMS[mechanism].opened(Hasher(), ENTROPY, NONCE, b"")
            for d in SEEDS:
                hasher = Hasher()
                MECHANISMS[mechanism].reseeded(hasher, state, bytes(d), b"")
                self.assertEqual(hasher.blocks, reseed_blocks(mechanism, d), (mechanism, d))

    def check_draw(self, mechanism, state, b, a):
        hasher = Hasher()
        drawn, _ = MECHANISMS[mechanism].drawn(hasher, state, b, bytes(a))
        self.assertEqual(len(drawn), b)
        self.assertEqual(hasher.blocks, draw_blocks(mechanism, b, a), (mechanism, b, a))

    def test_draw(self):
        for mechanism in BOTH:
            state = MECHANISMS[mechanism].opened(Hasher(), ENTROPY, NONCE, b"")
            for b in REQUESTS:
                self.check_draw(mechanism, state, b, 0)
                self.check_draw(mechanism, state, b, 23)
            for a in ADDITIONALS:
                for b in (0, 1, 32, 33):
                    self.check_draw(mechanism, state, b, a)

    def test_fresh_draw_is_reseed_plus_draw_without_additional(self):
        for mechanism in BOTH:
            state = MECHANISMS[mechanism].opened(Hasher(), ENTROPY, NONCE, b"")
            for a in range(0, 100):
                for b in (0, 1, 33, 64):
                    hasher = Hasher()
                    fresh_drawn(MECHANISMS[mechanism], hasher, state, b, ENTROPY, bytes(a))
                    expected = reseed_blocks(mechanism, 32 + a) + draw_blocks(mechanism, b, 0)
                    self.assertEqual(hasher.blocks, expected, (mechanism, a, b))


class Calls(unittest.TestCase):
    """What the calls report, at lengths that they accept."""

    def test_open(self):
        for mechanism in BOTH:
            for entropy, nonce, personalization in (
                    (32, 16, 0), (33, 17, 1), (1024, 64, 512), (64, 64, 64), (32, 16, 2),
                    (32, 16, 3)):
                answer = open_call(
                    FRESH_TABLE, mechanism, 256, 1, False,
                    bytes(entropy), bytes(nonce), bytes(personalization))
                self.assertEqual(answer.number, 0)
                d = entropy + nonce + personalization
                self.assertEqual(answer.blocks, open_blocks(mechanism, d))

    def test_reseed(self):
        for mechanism in BOTH:
            table = with_generators(1, mechanism)
            for entropy, additional in ((32, 0), (32, 27), (32, 26), (1024, 1024)):
                answer = reseed_call(table, 16, bytes(entropy), bytes(additional))
                self.assertEqual(answer.number, 0)
                self.assertEqual(answer.blocks, reseed_blocks(mechanism, entropy + additional))

    def test_draw_and_fresh_draw(self):
        for mechanism in BOTH:
            table = with_generators(1, mechanism)
            for b, a in ((0, 0), (1, 1), (32, 22), (33, 23), (100, 1024)):
                answer = draw_call(table, 16, 0, bytes(b), bytes(a))
                self.assertEqual(answer.number, 0)
                self.assertEqual(answer.blocks, draw_blocks(mechanism, b, a))
                answer = fresh_draw_call(table, 16, 0, bytes(b), ENTROPY, bytes(a))
                self.assertEqual(answer.number, 0)
                self.assertEqual(
                    answer.blocks, reseed_blocks(mechanism, 32 + a) + draw_blocks(mechanism, b, 0))

    def test_the_largest_calls(self):
        """No call reports more than 8,288 blocks; the longest HMAC draw reports that many."""
        most = {}
        for mechanism in BOTH:
            table = with_generators(1, mechanism)
            draw = draw_call(table, 16, 0, bytes(65536), bytes(1024))
            fresh = fresh_draw_call(table, 16, 0, bytes(65536), bytes(1024), bytes(1024))
            most[mechanism] = (draw.blocks, fresh.blocks)
        self.assertEqual(most[HMAC_DRBG], (8288, 8280))
        self.assertEqual(most[HASH_DRBG], (2068, 2122))
