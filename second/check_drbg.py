"""python3 second/check_drbg.py [DIR]: both mechanisms against NIST's DRBG cases.

Every case under a SHA-256 heading is run twice: by the mechanism alone, and by the
calls on a fresh table. Both must give the returned bits in the last of two draws.
"""

import sys

import case_calls
from hashing import Hasher
from mechanisms import HASH_DRBG, HMAC_DRBG, MECHANISMS, fresh_drawn
from records import DRAW, RESEED
from tally import checked, folder_named
from vectors import PUBLISHED, cases

DRAWS = 2       # in every case, so the interval is 2 as well
OPENING = ("EntropyInput", "Nonce", "PersonalizationString")
OTHERS = ("COUNT", "ReturnedBits")


def opening(case):
    return [case.string(name) for name in OPENING]


def steps_of(case):
    return case_calls.steps_of(
        (name, bytes.fromhex(value)) for name, value in case.fields
        if name not in OPENING and name not in OTHERS)


def by_mechanism(number, case, length):
    """Every draw's bytes, from the mechanism alone."""
    mechanism = MECHANISMS[number]
    hasher = Hasher()
    state = mechanism.opened(hasher, *opening(case))
    draws = []
    for kind, entropy, additional in steps_of(case):
        if kind == RESEED:
            state = mechanism.reseeded(hasher, state, entropy, additional)
        elif kind == DRAW:
            drawn, state = mechanism.drawn(hasher, state, length, additional)
            draws.append(drawn)
        else:
            drawn, state = fresh_drawn(mechanism, hasher, state, length, entropy, additional)
            draws.append(drawn)
    return draws


def by_calls(number, case, length):
    """Every draw's bytes, from the calls on a fresh table."""
    strength = int(case.headings["EntropyInputLen"])
    fresh_right = case.headings["PredictionResistance"] == "True"
    return case_calls.draws(
        (number, strength, DRAWS, fresh_right, *opening(case)), steps_of(case), strength, length)


def case_holds(number, case):
    expected = case.string("ReturnedBits")
    alone = by_mechanism(number, case, len(expected))
    try:
        called = by_calls(number, case, len(expected))
    except case_calls.Refused:
        return False
    return alone == called and len(alone) == DRAWS and alone[-1] == expected


def check_with(number):
    """The check of a file with one of the mechanisms."""
    def check(path, tally):
        for case in cases(path):
            if case.headings["hash"] == "SHA-256":
                tally.note(case_holds(number, case), f"{path} line {case.line}")
    return check


CHECKS = [
    ("drbg/no_reseed/HMAC_DRBG.rsp", check_with(HMAC_DRBG)),
    ("drbg/no_reseed/Hash_DRBG.rsp", check_with(HASH_DRBG)),
    ("drbg/pr_false/HMAC_DRBG.rsp", check_with(HMAC_DRBG)),
    ("drbg/pr_false/Hash_DRBG.rsp", check_with(HASH_DRBG)),
    ("drbg/pr_true/HMAC_DRBG.rsp", check_with(HMAC_DRBG)),
    ("drbg/pr_true/Hash_DRBG.rsp", check_with(HASH_DRBG)),
]

if __name__ == "__main__":
    sys.exit(checked(folder_named(sys.argv[1:], PUBLISHED), CHECKS))
