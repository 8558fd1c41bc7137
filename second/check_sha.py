"""python3 second/check_sha.py [DIR]: SHA-256 against NIST's messages."""

import sys

from hashing import Hasher
from tally import checked, folder_named
from vectors import PUBLISHED, cases


def check_messages(path, tally):
    for case in cases(path):
        length = int(case.value("Len")) // 8
        message = case.string("Msg")[:length]       # Len = 0 stands with Msg = 00
        held = len(message) == length and Hasher().hash(message) == case.string("MD")
        tally.note(held, f"{path.name} line {case.line}")


def check_monte(path, tally):
    """NIST's Monte Carlo test: each counted digest is the seed of the next."""
    seed_case, *counted_cases = cases(path)
    seed = seed_case.string("Seed")
    for case in counted_cases:
        seed = thousandth(seed)
        tally.note(seed == case.string("MD"), f"{path.name} line {case.line}")


def thousandth(seed):
    """A thousand digests, each of the three before it; the first three are the seed."""
    hasher = Hasher()
    three = [seed, seed, seed]
    for _ in range(1000):
        three = three[1:] + [hasher.hash(b"".join(three))]
    return three[-1]


CHECKS = [
    ("sha2/SHA256ShortMsg.rsp", check_messages),
    ("sha2/SHA256LongMsg.rsp", check_messages),
    ("sha2/SHA256Monte.rsp", check_monte),
]

if __name__ == "__main__":
    sys.exit(checked(folder_named(sys.argv[1:], PUBLISHED), CHECKS))
