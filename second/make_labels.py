"""make_labels.py [--check]: makes, or compares, what the examples must print.

The same calls as examples/labels.c and examples/labels.rs make, on the second program's table.
"""

import pathlib

from calls import close_call, draw_call, open_call, reseed_call
from made_files import command
from mechanisms import HMAC_DRBG
from table import FRESH_TABLE

EXAMPLES = pathlib.Path(__file__).resolve().parent.parent / "examples"

ENTROPY = b"this is an example, not entropy!"
MORE_ENTROPY = b"nor is this: take a real source."
NONCE = b"example nonce 01"
PERSONALIZATION = b"labels of volumes"
INTERVAL = 3
LABEL = bytes(16)       # as it is lent


class Printed:
    """The lines so far, and the table that the calls have led to."""

    def __init__(self):
        self.lines = []
        self.table = FRESH_TABLE

    def note(self, name, answer, more=""):
        self.table = answer.table
        self.lines.append(f"{name}: answer {answer.number}, {answer.blocks} blocks{more}")
        return answer

    def draws(self, handle, times):
        for _ in range(times):
            answer = draw_call(self.table, handle, 128, LABEL, b"")
            self.note("draw", answer, f", label {answer.output.hex()}" if answer.number == 0 else "")


def lines():
    printed = Printed()
    opened = open_call(
        FRESH_TABLE, HMAC_DRBG, 128, INTERVAL, False, ENTROPY, NONCE, PERSONALIZATION)
    handle = opened.value
    printed.note("open", opened, f", handle {handle}")
    printed.draws(handle, INTERVAL + 1)
    printed.note("reseed", reseed_call(printed.table, handle, MORE_ENTROPY, b""))
    printed.draws(handle, 1)
    printed.note("close", close_call(printed.table, handle))
    printed.draws(handle, 1)
    return printed.lines


def made():
    return {"labels.lines": "".join(f"{line}\n" for line in lines()).encode()}


if __name__ == "__main__":
    command(EXAMPLES, ["labels.lines"], made)
