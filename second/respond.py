"""python3 second/respond.py 1|2|FILE..: runs the cases of NIST's response files, and prints a line for each.

A word 1 or 2 sets the mechanism for what follows it (1 HMAC_DRBG, 2 Hash_DRBG), any other
names a file. Without a file standard input is read. The status is 0 always, as the program's is.
"""

import sys

from case_calls import Refused, draws, steps_of
from mechanisms import HASH_DRBG, HMAC_DRBG
from response_cases import UnreadLine, cases_in
from table import LONGEST_INTERVAL

MECHANISMS = {"1": HMAC_DRBG, "2": HASH_DRBG}
KNOWN = "1 is HMAC_DRBG, 2 is Hash_DRBG"
STANDARD_INPUT = "standard input"
STRENGTH = 0        # the drawn bytes do not depend on it


class Stop(Exception):
    """Why nothing more is run, in words, and of which file they speak."""

    def __init__(self, words, name=""):
        super().__init__(words)
        self.name = name


def passes(mechanism, case):
    """Whether every call is served and the last draw gives the returned bits."""
    (_, entropy), (_, nonce), (_, personalization), *fields, (_, returned) = case.fields
    opening = (mechanism, STRENGTH, LONGEST_INTERVAL, case.resists, entropy, nonce, personalization)
    try:
        return draws(opening, steps_of(fields), STRENGTH, len(returned))[-1] == returned
    except Refused:
        return False


def verdict(mechanism, case):
    if not case.ours:
        return "passed over"
    return "pass" if passes(mechanism, case) else "fail"


def report(mechanism, name, text):
    """The lines for a file's bytes, one by one."""
    try:
        for case in cases_in(text):
            yield f"{case.count} {verdict(mechanism, case)}"
    except UnreadLine as unread:
        yield f"line {unread.line}"
        raise Stop(f"{name}, line {unread.line}: can't be read", name) from None


def bytes_of(file, name):
    """The bytes of a file, which is a path, or 0 for standard input."""
    try:
        with open(file, "rb") as opened:
            return opened.read()
    except OSError as error:
        raise Stop(f"{name} can't be read: {error.strerror}", name) from None


def standard_input():
    return bytes_of(0, STANDARD_INPUT)


def reports(words, given=standard_input):
    """The lines that the words ask for, one by one. Standard input is what is given."""
    mechanism = None
    files = 0
    for word in words:
        if word in MECHANISMS:
            mechanism = MECHANISMS[word]
        elif mechanism is None:
            raise Stop(f"no mechanism before {word}: {KNOWN}")
        else:
            files += 1
            yield from report(mechanism, word, bytes_of(word, word))
    if mechanism is None:
        raise Stop(f"no mechanism: {KNOWN}")
    if files == 0:
        yield from report(mechanism, STANDARD_INPUT, given())


def main(words):
    try:
        for line in reports(words):
            print(line)
    except Stop as why:
        print(f"respond: {why}", file=sys.stderr)


if __name__ == "__main__":
    main(sys.argv[1:])
