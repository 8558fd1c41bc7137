"""python3 second/make_books.py [--check]: the stored books, which the program `test_files` is run on.

Writes crates/test_files/data/books/, the spoiled ones (spoiled.py) in a folder of their own,
with args and stdout (file_runs.py): for each book the program must print its name and its
lines, which are the second program's. --check writes nothing and compares all of it with
what stands there.
"""

import re

from mechanisms import HASH_DRBG, HMAC_DRBG
from records import MOST_BOOK
from run import lines_of
from spoiled import spoiled_books
from table import LONGEST_INTERVAL
from writer import Writer, close, draw, filler, fresh_draw, inquire, opening, reseed

BOTH = (HMAC_DRBG, HASH_DRBG)
LEAST_ENTROPY = {112: 14, 128: 16, 192: 24, 256: 32}
LEAST_NONCE = {112: 7, 128: 8, 192: 12, 256: 16}
ROUNDED_UP = (0, 1, 113, 129, 193)     # to the next strength, whose least strings then decide


def example(writer):
    """Document 01's own."""
    writer.calls(
        opening(strength=128, interval=1, fresh=0, entropy=b"\xaa" * 16, nonce=b"\x55" * 8),
        draw(16), draw(16), inquire(16), close(16), close(16))


def answers(writer):
    """Every answer that a book can reach, with nothing else wrong; the table full at the end."""
    handle = writer.opened(interval=1, fresh=0)
    writer.calls(
        draw(handle, 16),                               # 0
        inquire(15),                                    # 2
        opening(mechanism=3),                           # 3
        opening(strength=257),                          # 4
        opening(interval=0),                            # 5
        opening(personalization=filler(513)),           # 6
        reseed(handle, additional=filler(1025)),        # 7
        opening(entropy=filler(15)),                    # 8
        opening(nonce=filler(7)),                       # 9
        fresh_draw(handle, 16),                         # 11
        draw(handle, 16),                               # 12
        *[opening() for _ in range(16)])                # the last of them 13


OPENING_FAULTS = [
    {"mechanism": 0}, {"strength": 257}, {"interval": LONGEST_INTERVAL + 1},
    {"personalization": filler(513)}, {"entropy": filler(1025)}, {"nonce": filler(65)},
]


def faults_from(faults, first):
    """All faults from one on, in the order of checks: that one must be answered."""
    return {name: value for fault in faults[first:] for name, value in fault.items()}


def order(writer):
    """The order of checks: each reason, with every later one holding too."""
    handle = writer.opened(interval=1, fresh=0)
    writer.call(draw(handle))       # so that a reseed is due
    for record in (reseed, draw, fresh_draw, inquire, close):
        writer.call(record(handle + 16))
    writer.calls(
        reseed(handle, entropy=b"", additional=filler(1025)),
        reseed(handle, entropy=b""),
        draw(handle, 65536, strength=129, additional=filler(1025)),
        draw(handle, 65536, additional=filler(1025)),
        draw(handle, 65536),
        fresh_draw(handle, 65536, strength=129, entropy=b"", additional=filler(1025)),
        fresh_draw(handle, 65536, entropy=b"", additional=filler(1025)),
        fresh_draw(handle, 65536, entropy=b""))
    for _ in range(15):
        writer.opened()
    for first in range(len(OPENING_FAULTS) + 1):
        writer.call(opening(**faults_from(OPENING_FAULTS, first)))
    writer.call(inquire(handle))


def opening_limits(writer):
    for mechanism in (0, 1, 2, 3, 2**32 + 1, 2**64 - 1):
        writer.tried(mechanism=mechanism)
    for mechanism in BOTH:
        for strength in (0, 1, 111, 112, 113, 128, 129, 192, 193, 255, 256, 257, 2**32, 2**64 - 1):
            writer.tried(mechanism=mechanism, strength=strength)
        for interval in (0, 1, 2, 2**48 - 1, 2**48, 2**48 + 1, 2**64 - 1):
            writer.tried(mechanism=mechanism, interval=interval)
        for count in (0, 1, 512, 513):
            writer.tried(mechanism=mechanism, personalization=filler(count))
    writer.tried(personalization=filler(2048))


def least_of(leasts, strength):
    """The least bytes that serve where this strength is asked."""
    return min(count for own, count in leasts.items() if own >= strength)


def entropy_limits(writer):
    """At opening, reseed and fresh draw, for the four strengths."""
    for strength, least in LEAST_ENTROPY.items():
        for count in (least - 1, least, 1024, 1025):
            writer.tried(mechanism=HASH_DRBG, strength=strength, entropy=filler(count))
        handle = writer.opened(mechanism=HMAC_DRBG, strength=strength)
        for count in (least - 1, least, 1024, 1025):
            writer.calls(
                reseed(handle, filler(count)), fresh_draw(handle, 8, entropy=filler(count)))
    for strength in ROUNDED_UP:
        least = least_of(LEAST_ENTROPY, strength)
        for count in (least - 1, least):
            writer.tried(strength=strength, entropy=filler(count))


def nonce_limits(writer):
    """For the strengths as they are, and for those that are rounded up."""
    for mechanism in BOTH:
        for strength in (*LEAST_NONCE, *ROUNDED_UP):
            least = least_of(LEAST_NONCE, strength)
            for count in (0, least - 1, least, 64, 65):
                writer.tried(mechanism=mechanism, strength=strength, nonce=filler(count))


def draw_limits(writer):
    """The strength asked for beside the generator's own (the rounded one), and additional input."""
    for mechanism in BOTH:
        for strength in (0, 112, 113, 128, 192, 256):
            handle = writer.opened(mechanism=mechanism, strength=strength)
            own = writer.table.slots[handle % 16].strength
            for asked in (own, own + 1, 2**64 - 1):
                writer.calls(draw(handle, 5, asked), fresh_draw(handle, 5, asked))
            writer.call(close(handle))
        handle = writer.opened(mechanism=mechanism)
        for count in (0, 1, 1024, 1025):
            additional = filler(count, 9)
            writer.calls(
                reseed(handle, additional=additional),
                draw(handle, 5, additional=additional),
                fresh_draw(handle, 5, additional=additional))


def lengths(writer):
    """Lengths around an output block's end, and seeds and additional inputs around a hash block's."""
    for mechanism in BOTH:
        handle = writer.opened(mechanism=mechanism)
        for length in (0, 1, 31, 32, 33, 63, 64, 65, 127, 128, 129):
            writer.call(draw(handle, length))
        for count in (1, 22, 23, 63, 64, 86, 87, 127, 128):
            writer.call(draw(handle, 33, additional=filler(count, 2)))
        for count in (17, 22, 23, 26, 27, 58, 59, 86, 87, 90, 91):
            writer.calls(reseed(handle, filler(count)), fresh_draw(handle, 3, entropy=filler(count)))
        for count in (16, 42, 43, 78, 79, 106, 107):      # with a nonce of 8: 24, 50, 51, ..
            writer.tried(mechanism=mechanism, entropy=filler(count), nonce=filler(8))


def intervals(writer):
    """The counter: refusal 12, what ends it, and what is left."""
    for mechanism in BOTH:
        for interval in (1, 2, 3):
            handle = writer.opened(mechanism=mechanism, interval=interval)
            for again in (reseed, fresh_draw, reseed):
                for _ in range(interval + 1):
                    writer.calls(inquire(handle), draw(handle, 4))
                writer.calls(inquire(handle), again(handle))
            writer.calls(inquire(handle), close(handle))


def handles(writer):
    """17 openings, then slots freed and taken again; old, strange and near handles."""
    live = [writer.call(opening(mechanism=1 + count % 2)).value for count in range(17)][:16]
    for place in (3, 0, 15):
        writer.calls(close(live[place]), close(live[place]), draw(live[place], 4))
    for _ in range(4):
        writer.call(opening())
    for record in (reseed, draw, fresh_draw, close, inquire):
        for handle in (0, 1, 15, 32, 16 * 17 + 1, 2**32 + 33, 2**63 + 33, 2**64 - 1):
            writer.call(record(handle))
    for handle in live:
        writer.call(inquire(handle))


def interleaved(writer):
    """Two generators on each mechanism; each keeps its own state and counter."""
    live = [
        writer.opened(mechanism=mechanism, strength=strength, interval=4, personalization=who)
        for mechanism in BOTH for strength, who in ((128, b"one"), (256, b"two"))]
    for turn in range(3):
        for handle in live:
            writer.call(draw(handle, 20 + turn, additional=filler(turn, handle % 16)))
        for handle in reversed(live):
            writer.calls(draw(handle, 40), inquire(handle))
        writer.calls(
            reseed(live[turn], filler(32, turn), b"between"),
            fresh_draw(live[3 - turn], 33, entropy=filler(40, turn), additional=b"fresh"))
    for handle in live:
        writer.calls(close(handle), inquire(handle))


def longest_draw(writer):
    """65,536 bytes, then a short one from the state that it left."""
    handle = writer.opened(mechanism=HASH_DRBG)
    writer.calls(draw(handle, 65536), draw(handle, 32))


def filled(writer, size):
    """Good records to exactly so many bytes; few and cheap calls, as nothing is open."""
    while size - len(writer.book) > 4096:
        writer.call(reseed(16, filler(2048, len(writer.book))))
    rest = size - len(writer.book) - 6      # of a reseed: kind, handle, two lengths of two bytes
    writer.call(reseed(16, filler(rest // 2), filler(rest - rest // 2)))
    assert len(writer.book) == size


def longest_book(writer):
    filled(writer, MOST_BOOK)


def too_long(writer):
    """By one byte, and every record of it good: nothing of it is run."""
    filled(writer, MOST_BOOK + 1)


def empty(writer):
    """Prints nothing."""


WRITERS = {
    "example": example, "answers": answers, "order": order, "opening-limits": opening_limits,
    "entropy-limits": entropy_limits, "nonce-limits": nonce_limits, "draw-limits": draw_limits,
    "lengths": lengths, "intervals": intervals, "handles": handles, "interleaved": interleaved,
    "longest-draw": longest_draw, "longest-book": longest_book, "too-long": too_long,
    "empty": empty,
}


def output_of(book):
    return "".join(f"{line}\n" for line in lines_of(book)).encode()


def file_of(name):
    """A file for a spoiled book: its name's letters and digits."""
    return f"books/spoiled/{'-'.join(re.findall('[A-Za-z0-9]+', name))}.book"


def books():
    """By their files' names."""
    found = {}
    for name, write_calls in WRITERS.items():
        writer = Writer()
        write_calls(writer)
        found[f"books/{name}.book"] = writer.book
    for name, book in spoiled_books():
        assert file_of(name) not in found
        found[file_of(name)] = book
    return found


def runs():
    """By the files' names: a book, and what must be printed for it."""
    return {name: (book, f"{name}\n".encode() + output_of(book)) for name, book in books().items()}


if __name__ == "__main__":
    from file_runs import command
    command("books")
