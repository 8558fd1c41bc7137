"""The files of response_files.py find wrong programs.

Each is the second program with one thing changed, and some file tells the two apart.
"""

import unittest
from unittest import mock

import respond
import response_cases
import response_lines
from mechanisms import HMAC_DRBG
from records import RESEED
from respond import Stop, report
from response_files import good, groups, long_lines, orders, rooms, spoiled_lines, strings

right_lines_of = response_lines.lines_of
right_read = response_cases.Reader.read
right_read_field = response_cases.Reader.read_field
right_draws = respond.draws
right_steps_of = respond.steps_of


def outcome(text):
    """What is printed, and whether anything is told."""
    printed = []
    try:
        for line in report(HMAC_DRBG, "", text):
            printed.append(line)
    except Stop:
        return printed, True
    except (IndexError, ValueError, UnboundLocalError):    # a wrong program may have no answer at all
        return printed, None
    return printed, False


def constant(module, name, value):
    return mock.patch.object(module, name, value)


def reader(name, wrong):
    return mock.patch.object(response_cases.Reader, name, wrong)


def last_cr_taken(text):
    return right_lines_of(text.removesuffix(b"\r"))


def all_crs_taken(text):
    return [line.rstrip(b"\r") for line in right_lines_of(text)]


def crs_kept(text):
    return text.split(b"\n")[:-1] if text.endswith(b"\n") else text.split(b"\n")


def keeping(*kept):
    """A hash heading that leaves these as they are."""
    def read(self, what):
        before = {name: getattr(self, name) for name in kept}
        case = right_read(self, what)
        for name in kept if isinstance(what, response_lines.Hash) else ():
            setattr(self, name, before[name])
        return case
    return read


def heading_in_case(self, what):
    """A heading inside a case is taken as one outside."""
    inside = None if isinstance(what, (response_lines.Count, response_lines.Field)) else self.case
    if inside is not None:
        self.case = None
    case = right_read(self, what)
    if inside is not None:
        self.case = inside
    return case


def count_in_case(self, what):
    if isinstance(what, response_lines.Count):
        self.case = None
    return right_read(self, what)


def count_anywhere(self, what):
    if isinstance(what, response_lines.Count) and self.ours is None:
        self.ours = True
    return right_read(self, what)


def others_checked(self, what):
    if self.case is not None and not self.case.ours:
        self.check(what)
        self.case.fields.append((what.name, what.value))
    return right_read_field(self, what)


def first_draw(*given):
    return right_draws(*given)[:1]


def reseeds_first(fields):
    return sorted(right_steps_of(fields), key=lambda step: step[0] != RESEED)


def without(table, name, place):
    return {**table, name: tuple(one for one in table[name] if one != place)}


class Found(unittest.TestCase):
    @classmethod
    def setUpClass(cls):
        parts = {
            "good": good(HMAC_DRBG), "orders": orders(HMAC_DRBG), "groups": groups(HMAC_DRBG), "strings": strings(HMAC_DRBG),
            "long": long_lines(HMAC_DRBG, ("R A A",)), "rooms": rooms(HMAC_DRBG), "spoiled": spoiled_lines(HMAC_DRBG, ("P P",)),
            "reseeds": spoiled_lines(HMAC_DRBG, ("R A A",))}
        cls.files = {part: [(text, outcome(text)) for _, text in files] for part, files in parts.items()}

    def check_found(self, change, part):
        with change:
            self.assertTrue(any(outcome(text) != right for text, right in self.files[part]))

    def test_limits(self):
        for module, name, part, values in (
                (response_lines, "MOST_CHARACTERS", "long", (4095, 4097)),
                (response_lines, "NUMBERS", "spoiled", (2**64 - 1, 2**64 + 1, 2**63)),
                (response_cases, "ROOM", "rooms", (65535, 65537)), (response_cases, "MORE", "rooms", (2, 4)),
                (response_lines, "DIGITS", "spoiled", [frozenset(digits) for digits in (
                    b"0123456789abcdef", b"0123456789ABCDEF", b"0123456789abcdefgABCDEF", b"0123456789abcdefABCDEFG",
                    b"/0123456789abcdefABCDEF", b"0123456789:abcdefABCDEF", b"0123456789`abcdefABCDEF", b"0123456789abcdef@ABCDEF")])):
            for value in values:
                with self.subTest(name, value=value):
                    self.check_found(constant(module, name, value), part)

    def test_ends_of_lines(self):
        for wrong in (last_cr_taken, all_crs_taken, crs_kept):
            with self.subTest(wrong.__name__):
                self.check_found(constant(response_cases, "lines_of", wrong), "spoiled")

    def test_order(self):
        """Each place of each field refused, and each other one allowed."""
        places = ("COUNT", *response_lines.FIELDS)
        for name, behind in response_cases.BEHIND.items():
            for place in places:
                if place == "ReturnedBits":     # nothing of the case stands behind it
                    continue
                with self.subTest(name, place=place):
                    wrong = without(response_cases.BEHIND, name, place)
                    if place not in behind:
                        wrong = {**wrong, name: (*behind, place)}
                    self.check_found(constant(response_cases, "BEHIND", wrong), "orders")

    def test_lengths(self):
        for name in response_cases.LENGTH_OF:
            part = "reseeds" if name.endswith("Reseed") else "spoiled"
            with self.subTest(name):
                self.check_found(constant(response_cases, "LENGTH_OF", {**response_cases.LENGTH_OF, name: "none"}), part)

    def test_headings(self):
        for name, wrong in (
                ("resists", keeping("resists")), ("lengths", keeping("lengths")), ("hash", keeping("ours")),
                ("COUNT before them", count_anywhere)):
            with self.subTest(name):
                self.check_found(reader("read", wrong), "groups")
        for name, wrong in (("inside a case", heading_in_case), ("COUNT inside a case", count_in_case)):
            with self.subTest(name):
                self.check_found(reader("read", wrong), "spoiled")

    def test_other_hashes(self):
        self.check_found(reader("read_field", others_checked), "good")
        self.check_found(constant(response_lines, "OUR_HASH", b"SHA-1"), "good")

    def test_runs(self):
        self.check_found(constant(respond, "draws", first_draw), "good")
        self.check_found(constant(respond, "steps_of", reseeds_first), "good")
        self.check_found(constant(respond, "LONGEST_INTERVAL", 1), "good")
        self.check_found(constant(respond, "STRENGTH", 113), "strings")


if __name__ == "__main__":
    unittest.main()
