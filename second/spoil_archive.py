"""python3 second/spoil_archive.py ARCHIVE FOLDER: copies of the library with one byte changed.

Writes the copies into FOLDER and prints a line for each: its path, the answer that its self
test must give ('other': any but 0), and what was changed. The places are those of SHA-256's
constants, which stand in the code as numbers of four bytes, and of the strings of NIST's
cases: whole, or in pieces of 16 bytes where the compiler has cut them. What stands nowhere
in the archive is an error: nothing would be tried.
"""

import pathlib
import sys

from make_self_test import CASES, chosen, strings

PRIMES = [n for n in range(2, 312) if all(n % d for d in range(2, n))]


def fraction(n, power):
    """The first 32 bits of the fraction of n's root of that power (FIPS 180-4, 4.2.2, 5.3.3)."""
    root = 0
    for bit in reversed(range(40)):
        if (root + 2 ** bit) ** power <= n << (32 * power):
            root += 2 ** bit
    return root % 2 ** 32


PIECE = 16


def whole(archive, text):
    """Where each byte after the text's last one stands."""
    found = []
    at = archive.find(text)
    while at >= 0:
        found.append(at + len(text))
        at = archive.find(text, at + 1)
    return found


def ends(archive, text):
    """The ends of the text in the archive, or of each of its pieces."""
    found = whole(archive, text)
    if found == [] and len(text) > PIECE:
        pieces = [whole(archive, text[at:at + PIECE]) for at in range(0, len(text), PIECE)]
        found = [end for piece in pieces for end in piece] if all(pieces) else []
    if found == []:
        raise SystemExit(f"{text.hex()} stands nowhere in the archive")
    return found


def wanted():
    """What is looked for, with the answer that a change of it must give."""
    for at, prime in enumerate(PRIMES):
        yield fraction(prime, 3).to_bytes(4, "little"), "other", f"round constant {at}"
    for at, prime in enumerate(PRIMES[:8]):
        yield fraction(prime, 2).to_bytes(4, "little"), "other", f"initial word {at}"
    for number, (name, _, fields, path) in enumerate(CASES, start=1):
        for ours, text in strings(chosen(path), fields).items():
            yield text, str(number), f"{ours} of {name}"


def main(path, folder):
    archive = pathlib.Path(path).read_bytes()
    count = 0
    for text, answer, name in wanted():
        for end in ends(archive, text):
            count += 1
            copy = pathlib.Path(folder) / f"{count}.a"
            last = end - 1
            copy.write_bytes(archive[:last] + bytes([archive[last] ^ 1]) + archive[last + 1:])
            print(copy, answer, name)


if __name__ == "__main__":
    if len(sys.argv) != 3:
        raise SystemExit(f"usage: {sys.argv[0]} ARCHIVE FOLDER")
    main(*sys.argv[1:])
