"""python3 second/compare_calls.py LIBRARY [SEED]: the library's six functions beside the second program.

LIBRARY is crates/capi as a shared object. Compared after each call: the answer, the blocks, the value, every byte of the
table and of the output; and that the lent strings, and the bytes beside all that was lent, are as they were. First the
calls at each limit, on tables with each clause of soundness broken and of wrong lengths; then calls drawn by lot. SEED
repeats those of an earlier run. A call that differs is shown with its place in the run.
"""

import collections
import random

from answers import SERVED, TABLE_UNSOUND
from library import Library, Outcome
from random_calls import Lot, edges
from records import CLOSE, DRAW, FRESH_DRAW, INQUIRE, OPEN, RESEED
from run import performed
from seeds import command
from stored import TABLE_BYTES, table_bytes, table_of
from tally import Tally
from text import NAMES

RUNS = 120
CALLS = 50      # of a run

# Document 01's order of checks, as the answers that each call can give
ANSWERS = {
    OPEN: (0, 1, 3, 4, 5, 6, 8, 9, 13, 14), RESEED: (0, 1, 2, 7, 8), DRAW: (0, 1, 2, 10, 4, 7, 12),
    FRESH_DRAW: (0, 1, 2, 10, 4, 7, 11, 8), CLOSE: (0, 1, 2), INQUIRE: (0, 1, 2),
}


def lent_output(record):
    """A pattern, so that a refused draw that touches it is seen."""
    return bytes(0x80 | place % 127 for place in range(record.fields.get("length", 0)))


def expected(table, record, output):
    """By the second program. A table of another length is answered 1."""
    if len(table) != TABLE_BYTES:
        return Outcome(TABLE_UNSOUND, 0, 0, table, output)
    answer = performed(table_of(table), record, output)
    after = answer.output if record.kind in (DRAW, FRESH_DRAW) else output
    return Outcome(answer.number, answer.blocks, answer.value, table_bytes(answer.table), after)


class Comparison:
    def __init__(self, library):
        self.library = library
        self.tally = Tally()
        self.met = collections.Counter()        # by kind and answer

    def compare(self, name, table, record):
        output = lent_output(record)
        wanted = expected(table, record, output)
        nowhere = self.met.total() % 2 == 1         # empty strings in every other call
        outcome, kept = self.library.call(table, record, output, nowhere)
        self.met[record.kind, wanted.answer] += 1
        differing = [part for part in Outcome._fields if getattr(outcome, part) != getattr(wanted, part)]
        if not kept:
            differing.append("what was only lent")
        self.tally.note(differing == [], f"{name}, {NAMES[record.kind]}: {', '.join(differing)} (answer {wanted.answer})")
        return wanted


def compare_edges(comparison):
    for count, (table, record) in enumerate(edges()):
        comparison.compare(f"limit {count}", table, record)


def compare_random(comparison, seed):
    for run in range(RUNS):
        lot = Lot(random.Random(f"{seed} {run}"))
        for count in range(CALLS):
            table, record = lot.next()
            wanted = comparison.compare(f"call {count} of run {run} of seed {seed}", table, record)
            lot.answered(record, wanted)


def note_answers(comparison):
    """A call that never gave one of its answers was not tried there."""
    for kind, answers in ANSWERS.items():
        for answer in answers:
            comparison.tally.note(comparison.met[kind, answer] > 0, f"{NAMES[kind]} never answered {answer}")


def counted(comparison, name, compare):
    before, served = comparison.met.total(), served_calls(comparison)
    compare()
    ran = comparison.met.total() - before
    print(f"{name}: {ran} calls, {served_calls(comparison) - served} of them served")
    if ran == 0:
        comparison.tally.note(False, f"{name}: none")


def served_calls(comparison):
    return sum(count for (_, answer), count in comparison.met.items() if answer == SERVED)


def main(path, seed):
    comparison = Comparison(Library(path))
    counted(comparison, "at the limits", lambda: compare_edges(comparison))
    counted(comparison, f"random calls, seed {seed}", lambda: compare_random(comparison, seed))
    note_answers(comparison)
    print(comparison.tally.line())
    return comparison.tally.status()


if __name__ == "__main__":
    command(main, "LIBRARY")
