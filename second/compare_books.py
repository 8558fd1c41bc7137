"""python3 second/compare_books.py PROGRAM [SEED]: the program beside the second program.

Runs the program on NIST's DRBG cases as books, on the stored books, on random books, on books
that come in small pieces, and on a small stack. It must print what NIST published and what the
second program prints, byte for byte. SEED repeats the random books of an earlier run. A book
that fails is kept in target/failed/.
"""

import random
import subprocess

from book import record_bytes
from calls import MOST_ADDITIONAL, MOST_PERSONALIZATION, entropy_fits, nonce_fits
from check_drbg import CHECKS, DRAWS, opening as opening_strings, steps_of
from compared import SECONDS, counted, in_pieces, keep, small_stack
from file_runs import CRATE
from make_books import output_of
from mechanisms import HASH_DRBG, HMAC_DRBG
from random_books import random_book
from records import DRAW, MOST_BOOK, RESEED
from seeds import command
from tally import Tally
from vectors import PUBLISHED, cases
from writer import Writer, close, draw, fresh_draw, inquire, reseed

SLOTS = 16
RANDOM_BOOKS = 600


class Program:
    """The program under comparison, and the tally of its runs."""

    def __init__(self, path):
        self.path = path
        self.tally = Tally()

    def output(self, book, **settings):
        """What it prints; None if it fails, hangs or complains."""
        try:
            ran = subprocess.run(
                [self.path], input=book, capture_output=True, timeout=SECONDS, **settings)
        except subprocess.TimeoutExpired:
            return None
        return ran.stdout if ran.returncode == 0 and ran.stderr == b"" else None

    def note(self, held, name, book):
        self.tally.note(held, name)
        if not held:
            keep(f"{name}.book", book)

    def prints(self, name, book, expected, **settings):
        self.note(self.output(book, **settings) == expected, name, book)


# NIST's cases

def case_fits(case):
    """Whether all of the case's strings lie within document 01's limits."""
    entropy, nonce, personalization = opening_strings(case)
    strength = int(case.headings["EntropyInputLen"])
    return (
        nonce_fits(nonce, strength)
        and len(personalization) <= MOST_PERSONALIZATION
        and entropy_fits(entropy, strength)
        and all(
            (kind == DRAW or entropy_fits(fresh, strength))
            and len(additional) <= MOST_ADDITIONAL
            for kind, fresh, additional in steps_of(case)))


def record_of_step(step, handle, length):
    kind, entropy, additional = step
    if kind == RESEED:
        return reseed(handle, entropy, additional)
    if kind == DRAW:
        return draw(handle, length, additional=additional)
    return fresh_draw(handle, length, entropy=entropy, additional=additional)


def book_of_cases(mechanism, group):
    """All cases opened, then step by step together, then closed. Also the lines of the last draws."""
    writer = Writer()
    handles = [
        writer.opened(
            mechanism=mechanism, strength=int(case.headings["EntropyInputLen"]), interval=DRAWS,
            fresh=int(case.headings["PredictionResistance"] == "True"),
            **dict(zip(("entropy", "nonce", "personalization"), opening_strings(case))))
        for case in group]
    rounds = list(zip(*map(steps_of, group), strict=True))
    for steps in rounds:
        for case, handle, step in zip(group, handles, steps):
            writer.call(record_of_step(step, handle, len(case.string("ReturnedBits"))))
    writer.calls(*map(close, handles))
    first_line = len(group) * len(rounds)
    return writer.book, range(first_line, first_line + len(group))


def value_in(lines, place):
    """The value that a line of output shows, if there is such a line."""
    return lines[place].split(" ")[-1] if place < len(lines) else None


def compare_group(program, path, mechanism, group):
    book, last_draws = book_of_cases(mechanism, group)
    output = program.output(book) or b""
    lines = output.decode("ascii", errors="replace").splitlines()
    for place, case in zip(last_draws, group):
        held = value_in(lines, place) == case.value("ReturnedBits")
        program.note(held, f"{path} line {case.line}", book)
    whole = f"{path} lines {group[0].line} to {group[-1].line}, whole output"
    program.note(output == output_of(book), whole, book)


def compare_file(program, path):
    """Prints how many cases were passed over, as a case outside our limits cannot be a book's."""
    mechanism = HMAC_DRBG if "HMAC" in path else HASH_DRBG
    every = [case for case in cases(PUBLISHED / path) if case.headings["hash"] == "SHA-256"]
    fitting = [case for case in every if case_fits(case)]
    print(f"{path}: {len(fitting)} cases, {len(every) - len(fitting)} passed over")
    if fitting == []:
        program.tally.note(False, f"{path}: no case ran")
    for first in range(0, len(fitting), SLOTS):
        compare_group(program, path, mechanism, fitting[first:first + SLOTS])


def compare_nist(program):
    for path, _ in CHECKS:
        compare_file(program, path)


# The stored books

def compare_stored(program):
    """`test_files` runs them by the same code; here the program itself reads them."""
    for path in sorted((CRATE / "data" / "books").rglob("*.book")):
        book = path.read_bytes()
        program.prints(f"stored book {path.stem}", book, output_of(book))


# Random books

def compare_random(program, seed):
    print(f"{RANDOM_BOOKS} random books, seed {seed}")
    for count in range(RANDOM_BOOKS):
        book = random_book(random.Random(f"{seed} {count}"))
        program.prints(f"random book {count} of seed {seed}", book, output_of(book))


# The way that a book comes in, and a small stack

def compare_pieces(program):
    for name, size in (("example", 1), ("interleaved", 7), ("longest-book", 1000), ("too-long", 1000)):
        book = (CRATE / "data" / "books" / f"{name}.book").read_bytes()
        output = in_pieces([program.path], book, size)
        program.note(output == output_of(book), f"stored book {name} in pieces of {size}", book)


def compare_far_too_long(program):
    """More than the program will read: the rest is left in the pipe."""
    book = record_bytes(inquire(16)) * MOST_BOOK * 2
    program.prints("a book of four times the limit", book, b"book 0\n")


def compare_stack(program):
    for mechanism in (HMAC_DRBG, HASH_DRBG):
        writer = Writer()
        handle = writer.opened(mechanism=mechanism)
        writer.calls(draw(handle, 65536), fresh_draw(handle, 65536), close(handle))
        program.prints(
            f"a stack of 1 MiB, mechanism {mechanism}", writer.book, output_of(writer.book),
            preexec_fn=small_stack)


def main(path, seed):
    program = Program(path)
    counted(program.tally, "NIST's cases as books", lambda: compare_nist(program))
    counted(program.tally, "stored books", lambda: compare_stored(program))
    counted(program.tally, "random books", lambda: compare_random(program, seed))
    counted(program.tally, "books in pieces", lambda: compare_pieces(program))
    counted(program.tally, "a book far too long", lambda: compare_far_too_long(program))
    counted(program.tally, "a stack of 1 MiB", lambda: compare_stack(program))
    print(program.tally.line())
    return program.tally.status()


if __name__ == "__main__":
    command(main, "PROGRAM")
