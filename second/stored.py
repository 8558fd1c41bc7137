"""The table as it stands in a caller's bytes: slot after slot, then the last serial, with no gap."""

import struct

from table import FIELD_BYTES, SLOTS, Slot, Table

# mechanism, strength, interval, counter, fresh, serial, first, second; numbers little-endian
SLOT = struct.Struct(f"<BHQQBI{FIELD_BYTES}s{FIELD_BYTES}s")
LAST = struct.Struct("<I")
TABLE_BYTES = SLOTS * SLOT.size + LAST.size


def slot_bytes(slot):
    return SLOT.pack(
        slot.mechanism, slot.strength, slot.interval, slot.counter, slot.fresh, slot.serial,
        slot.first, slot.second)


def table_bytes(table):
    return b"".join(map(slot_bytes, table.slots)) + LAST.pack(table.last)


def table_of(text):
    """Of TABLE_BYTES bytes; any of them are a table, sound or not."""
    slots, last = text[:-LAST.size], text[-LAST.size:]
    return Table(tuple(Slot(*fields) for fields in SLOT.iter_unpack(slots)), *LAST.unpack(last))
