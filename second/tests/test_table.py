"""Soundness of every kind of table, handles, and edges 7 and 8."""

import unittest
from dataclasses import replace

from calls import (
    close_call, draw_call, fresh_draw_call, inquire_call, open_call, reseed_call,
)
from table import (
    FREE_SLOT, FRESH_TABLE, Slot, Table, draws_left, generator, handle_of, lowest_free,
    reseed_due, rounded, sound, with_slot,
)

from samples import ENTROPY, NONCE, with_generators

HMAC_SLOT = Slot(
    mechanism=1, strength=128, interval=5, counter=2, fresh=1, serial=3,
    first=b"K" * 32 + bytes(23), second=b"V" * 32 + bytes(23))
HASH_SLOT = Slot(
    mechanism=2, strength=256, interval=5, counter=2, fresh=0, serial=3,
    first=b"V" * 55, second=b"C" * 55)


def holding(slot, place=6, last=3):
    return replace(with_slot(FRESH_TABLE, place, slot), last=last)


class Soundness(unittest.TestCase):
    def check_sound(self, table):
        self.assertTrue(sound(table), table)

    def check_unsound(self, table):
        """Every call on it is answered 1 and gives it back."""
        self.assertFalse(sound(table), table)
        old = b"old bytes"
        for answer in (
                open_call(table, 1, 256, 1, True, ENTROPY, NONCE, b""),
                reseed_call(table, 54, ENTROPY, b""),
                draw_call(table, 54, 0, old, b""),
                fresh_draw_call(table, 54, 0, old, ENTROPY, b""),
                close_call(table, 54),
                inquire_call(table, 54)):
            self.assertEqual((answer.number, answer.blocks, answer.value), (1, 0, 0))
            self.assertIs(answer.table, table)
            self.assertIn(answer.output, (b"", old))

    def test_fresh_table(self):
        self.check_sound(FRESH_TABLE)
        self.check_sound(replace(FRESH_TABLE, last=2**32 - 1))

    def test_used_slots(self):
        for slot in (HMAC_SLOT, HASH_SLOT):
            for place in range(16):
                self.check_sound(holding(slot, place))

    def test_every_field_of_a_used_slot_at_its_edges(self):
        for slot in (HMAC_SLOT, HASH_SLOT):
            for changes in (
                    {"strength": 112}, {"strength": 128}, {"strength": 192}, {"strength": 256},
                    {"interval": 1}, {"interval": 2**48}, {"counter": 1}, {"counter": 6},
                    {"interval": 2**48, "counter": 2**48 + 1},
                    {"fresh": 0}, {"fresh": 1}, {"serial": 1}, {"serial": 3}):
                self.check_sound(holding(replace(slot, **changes)))
            for changes in (
                    {"mechanism": 0}, {"mechanism": 3}, {"mechanism": 255},
                    {"strength": 0}, {"strength": 111}, {"strength": 113}, {"strength": 257},
                    {"interval": 0}, {"interval": 2**48 + 1}, {"interval": 0, "counter": 1},
                    {"counter": 0}, {"counter": 7}, {"counter": 2**64 - 1},
                    {"fresh": 2}, {"fresh": 255}, {"serial": 0}, {"serial": 4},
                    {"first": slot.first[:54]}, {"first": slot.first + b"\x00"}, {"first": b""},
                    {"second": slot.second[:54]}, {"second": slot.second + b"\x00"}):
                self.check_unsound(holding(replace(slot, **changes)))

    def test_the_unused_end_of_hmac_fields(self):
        for at in range(32, 55):
            spoiled = bytearray(55)
            spoiled[at] = 1
            self.check_unsound(holding(replace(HMAC_SLOT, first=bytes(spoiled))))
            self.check_unsound(holding(replace(HMAC_SLOT, second=bytes(spoiled))))
            self.check_sound(holding(replace(HASH_SLOT, first=bytes(spoiled))))
        for field in (bytes(55), b"\xff" * 32 + bytes(23)):
            self.check_sound(holding(replace(HMAC_SLOT, first=field, second=field)))
        self.check_sound(holding(replace(HASH_SLOT, first=bytes(55), second=b"\xff" * 55)))

    def test_a_free_slot_is_all_zero(self):
        for changes in (
                {"strength": 112}, {"interval": 1}, {"counter": 1}, {"fresh": 1}, {"serial": 1},
                {"first": bytes(54) + b"\x01"}, {"first": b"\x01" + bytes(54)},
                {"second": bytes(54) + b"\x01"}, {"first": bytes(54)}):
            for place in (0, 7, 15):
                self.check_unsound(holding(replace(FREE_SLOT, **changes), place))

    def test_one_unsound_slot_spoils_a_full_table(self):
        table = with_generators(16)
        self.check_sound(table)
        for place in range(16):
            self.check_unsound(with_slot(table, place, replace(table.slots[place], fresh=2)))

    def test_serials(self):
        """Two used slots may hold equal serials; none is above the last."""
        table = with_slot(holding(HMAC_SLOT, 0), 1, HASH_SLOT)
        self.check_sound(table)
        self.assertEqual(generator(table, 48), HMAC_SLOT)
        self.assertEqual(generator(table, 49), HASH_SLOT)
        self.check_unsound(replace(table, last=2))
        self.check_unsound(replace(table, last=0))

    def test_shape(self):
        self.check_unsound(replace(FRESH_TABLE, last=2**32))
        self.check_unsound(Table(FRESH_TABLE.slots[:15], 0))
        self.check_unsound(Table(FRESH_TABLE.slots + (FREE_SLOT,), 0))


class Handles(unittest.TestCase):
    def test_a_handle_names_slot_and_serial(self):
        table = holding(HMAC_SLOT, place=6)
        for handle in range(0, 200):
            named = generator(table, handle)
            self.assertEqual(named is not None, handle == handle_of(3, 6), handle)

    def test_no_handle_names_a_free_slot(self):
        for handle in range(0, 40):
            self.assertIsNone(generator(FRESH_TABLE, handle))

    def test_lowest_free(self):
        table = with_generators(16)
        self.assertIsNone(lowest_free(table))
        self.assertEqual(lowest_free(with_slot(with_slot(table, 9, FREE_SLOT), 4, FREE_SLOT)), 4)
        self.assertEqual(lowest_free(FRESH_TABLE), 0)

    def test_edge_8(self):
        for call in (close_call, inquire_call):
            self.assertEqual(call(FRESH_TABLE, 15).number, 2)
        self.assertEqual(draw_call(FRESH_TABLE, 15, 0, b"", b"").number, 2)
        answer = open_call(FRESH_TABLE, 1, 0, 1, False, ENTROPY, NONCE, b"")
        self.assertEqual((answer.number, answer.value), (0, 16))


class StrengthAndCounter(unittest.TestCase):
    def test_edge_7(self):
        for asked, expected in (
                (0, 112), (1, 112), (111, 112), (112, 112), (113, 128), (128, 128), (129, 192),
                (192, 192), (193, 256), (256, 256)):
            self.assertEqual(rounded(asked), expected)
            answer = open_call(FRESH_TABLE, 2, asked, 1, False, ENTROPY, NONCE, b"")
            self.assertEqual(answer.number, 0)
            self.assertEqual(answer.table.slots[0].strength, expected)
        answer = open_call(FRESH_TABLE, 2, 257, 1, False, ENTROPY, NONCE, b"")
        self.assertEqual(answer.number, 4)

    def test_reseed_due_when_no_draws_are_left(self):
        for counter, left, due in ((1, 5, False), (5, 1, False), (6, 0, True)):
            slot = replace(HMAC_SLOT, counter=counter)
            self.assertEqual((draws_left(slot), reseed_due(slot)), (left, due))
