"""The limits of random_calls.py find wrong programs: each is the second program with one thing changed, and some call tells the two apart."""

import unittest
from unittest import mock

import calls
import hash_drbg
import table
from compare_calls import expected, lent_output
from random_calls import carries, two_reasons, unsound_numbers

right_sum = hash_drbg.summed


def losing_carry_at(bits):
    """V + 1 in two parts, of which the upper one never hears of the lower."""
    def summed(*parts):
        if parts[1:] != (b"\x01",):
            return right_sum(*parts)
        value = int.from_bytes(parts[0], "big")
        upper, lower = value >> bits, (value + 1) % 2**bits
        return (upper << bits | lower).to_bytes(hash_drbg.STATE_BYTES, "big")
    return summed


def additional_before_request(held, handle, strength, output, additional):
    """The draws' reasons with 7 told before 10 and 4."""
    reason = calls.lookup_refusal(held, handle)
    if reason == 0 and len(additional) > calls.MOST_ADDITIONAL:
        return calls.ADDITIONAL_TOO_LONG
    return right_request_refusal(held, handle, strength, output, additional)


right_request_refusal = calls.request_refusal
right_used_slot_sound = table.used_slot_sound


class Limits(unittest.TestCase):
    def check_found(self, limits, change):
        cases = [(text, record, lent_output(record)) for text, record in limits]
        right = [expected(*case) for case in cases]
        with change:
            wrong = [expected(*case) for case in cases]
        self.assertNotEqual(right, wrong)

    def test_lost_carries(self):
        for bits in range(8, hash_drbg.SEED_BITS, 8):
            with self.subTest(bits):
                self.check_found(carries(), mock.patch.object(hash_drbg, "summed", losing_carry_at(bits)))

    def test_strengths_and_fresh_rights(self):
        for name, number in (
                ("strength", 0), ("strength", 113), ("strength", 257), ("fresh", 2), ("fresh", 128), ("fresh", 255)):
            with self.subTest(name, number=number):
                self.check_found(
                    unsound_numbers(), mock.patch.object(table, "used_slot_sound", lambda slot, last: (
                        getattr(slot, name) == number or right_used_slot_sound(slot, last))))

    def test_order_of_a_draw(self):
        self.check_found(two_reasons(), mock.patch.object(calls, "request_refusal", additional_before_request))


if __name__ == "__main__":
    unittest.main()
