"""The table in a caller's bytes: where each field stands."""

import unittest
from dataclasses import replace

from stored import LAST, SLOT as SLOT_FIELDS, TABLE_BYTES, table_bytes, table_of
from table import FRESH_TABLE, Slot, with_slot

SLOT = Slot(
    mechanism=1, strength=0x0203, interval=0x0405060708090A0B, counter=0x0C0D0E0F10111213, fresh=0x14,
    serial=0x15161718, first=bytes(range(100, 155)), second=bytes(range(200, 255)))


class Stored(unittest.TestCase):
    def test_fresh(self):
        self.assertEqual(table_bytes(FRESH_TABLE), bytes(TABLE_BYTES))
        self.assertEqual((SLOT_FIELDS.size, LAST.size, TABLE_BYTES), (134, 4, 2148))

    def test_fields(self):
        text = table_bytes(replace(with_slot(FRESH_TABLE, 15, SLOT), last=0x191A1B1C))
        before, slot, last = text[:15 * SLOT_FIELDS.size], text[15 * SLOT_FIELDS.size:-LAST.size], text[-LAST.size:]
        self.assertEqual(before, bytes(15 * SLOT_FIELDS.size))
        self.assertEqual(slot[0:1], bytes([1]))
        self.assertEqual(slot[1:3], bytes([3, 2]))
        self.assertEqual(slot[3:11], bytes(range(0x0B, 0x03, -1)))
        self.assertEqual(slot[11:19], bytes(range(0x13, 0x0B, -1)))
        self.assertEqual(slot[19:20], bytes([0x14]))
        self.assertEqual(slot[20:24], bytes(range(0x18, 0x14, -1)))
        self.assertEqual(slot[24:79], SLOT.first)
        self.assertEqual(slot[79:], SLOT.second)
        self.assertEqual(last, bytes(range(0x1C, 0x18, -1)))

    def test_back(self):
        text = bytes(place * 7 % 256 for place in range(TABLE_BYTES))
        self.assertEqual(table_bytes(table_of(text)), text)
        self.assertEqual(table_of(bytes(TABLE_BYTES)), FRESH_TABLE)
