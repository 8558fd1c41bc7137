"""The six functions of include/purangsa.h, called on a shared object.

Everything lent stands between guard bytes, so that a write beside it is seen as well as one to it.
"""

import ctypes
from typing import NamedTuple

from records import CLOSE, DRAW, FIELDS, FRESH_DRAW, INQUIRE, LENGTH, OPEN, RESEED, STRING

FUNCTIONS = {
    OPEN: "purangsa_open", RESEED: "purangsa_reseed", DRAW: "purangsa_draw",
    FRESH_DRAW: "purangsa_fresh_draw", CLOSE: "purangsa_close", INQUIRE: "purangsa_inquire",
}
GUARD = bytes(range(0xA0, 0xE0))
UNSET = 0x5A5A5A5A5A5A5A5A      # in blocks and value before the call, which must set them


class Lent:
    """Bytes lent to a call: a pointer and a length."""

    def __init__(self, text):
        self.text = text
        self.buffer = ctypes.create_string_buffer(GUARD + text + GUARD, len(text) + 2 * len(GUARD))

    def arguments(self, nowhere):
        """An empty one may be lent from nowhere."""
        at = None if nowhere and self.text == b"" else ctypes.addressof(self.buffer) + len(GUARD)
        return ctypes.c_void_p(at), ctypes.c_size_t(len(self.text))

    def now(self):
        return self.buffer.raw[len(GUARD):-len(GUARD)]

    def guarded(self):
        """Nothing was written beside it."""
        return self.buffer.raw[:len(GUARD)] == GUARD and self.buffer.raw[-len(GUARD):] == GUARD

    def unchanged(self):
        return self.guarded() and self.now() == self.text


class Outcome(NamedTuple):
    """All that a call may set."""

    answer: int
    blocks: int
    value: int
    table: bytes
    output: bytes       # of the two draws; else empty


class Library:
    def __init__(self, path):
        shared = ctypes.CDLL(path)
        self.functions = {kind: getattr(shared, name) for kind, name in FUNCTIONS.items()}
        for function in self.functions.values():
            function.restype = ctypes.c_uint64

    def call(self, table, record, output, nowhere=False):
        """The outcome of the record's call, and whether all that was only lent is as it was."""
        kind, fields = record
        lent_table, lent_output = Lent(table), Lent(output)
        strings = []
        arguments = [*lent_table.arguments(nowhere)]
        for name, holds in FIELDS[kind]:
            if holds == STRING:
                strings.append(Lent(fields[name]))
                arguments += strings[-1].arguments(nowhere)
            elif holds != LENGTH:       # the length of a draw is that of the output
                arguments.append(ctypes.c_uint64(fields[name]))
        if kind in (DRAW, FRESH_DRAW):
            arguments += lent_output.arguments(nowhere)
        blocks, value = ctypes.c_uint64(UNSET), ctypes.c_uint64(UNSET)
        answer = self.functions[kind](*arguments, ctypes.byref(blocks), ctypes.byref(value))
        outcome = Outcome(answer, blocks.value, value.value, lent_table.now(), lent_output.now())
        kept = lent_table.guarded() and lent_output.guarded() and all(lent.unchanged() for lent in strings)
        return outcome, kept
