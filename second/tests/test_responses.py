"""Response files: which line may stand where, cases run, and the program's words."""

import io
import pathlib
import tempfile
import unittest

from case_calls import draws, steps_of
from mechanisms import HASH_DRBG, HMAC_DRBG
from respond import Stop, report, reports
from vectors import PUBLISHED

from samples import BOTH

HEADINGS = ["[SHA-256]", "[PredictionResistance = False]"]
FRESH_HEADINGS = ["[SHA-256]", "[PredictionResistance = True]"]
OPENING = [("EntropyInput", bytes(range(16))), ("Nonce", bytes(range(8))), ("PersonalizationString", b"p")]
DRAW = [("AdditionalInput", b"a")]
FRESH_DRAW = [("AdditionalInput", b"a"), ("EntropyInputPR", bytes(range(20, 36)))]
RESEED = [("EntropyInputReseed", bytes(range(40, 56))), ("AdditionalInputReseed", b"r")]
SHAPES = {
    "A A": DRAW + DRAW, "R A A": RESEED + DRAW + DRAW, "A R A": DRAW + RESEED + DRAW, "A": DRAW,
    "A R R A": DRAW + RESEED + RESEED + DRAW}
FRESH_SHAPES = {"P P": FRESH_DRAW + FRESH_DRAW, "P": FRESH_DRAW, "A P R A": DRAW + FRESH_DRAW + RESEED + DRAW}
LENGTHS = {
    "EntropyInputLen": 128, "NonceLen": 64, "PersonalizationStringLen": 8, "AdditionalInputLen": 8, "ReturnedBitsLen": 256}


def lines(fields):
    return [f"{name} = {value.hex()}" for name, value in fields]


def returned(mechanism, steps, fresh=False, length=32):
    """The bits that the case gives, as a field."""
    opening = (mechanism, 0, 2**48, fresh, *(value for _, value in OPENING))
    return [("ReturnedBits", draws(opening, steps_of(steps), 0, length)[-1])]


def case(steps=DRAW, count=0, mechanism=HMAC_DRBG, fresh=False):
    return [f"COUNT = {count}", *lines(OPENING + steps + returned(mechanism, steps, fresh))]


def text_of(lines, end="\n"):
    return "".join(line + end for line in lines).encode()


def printed(text, mechanism=HMAC_DRBG):
    """The lines, and whether the run was stopped."""
    found = []
    try:
        for line in report(mechanism, "FILE", text):
            found.append(line)
    except Stop:
        return found, True
    return found, False


class Reading(unittest.TestCase):
    def check_prints(self, file_lines, *expected, mechanism=HMAC_DRBG):
        self.assertEqual(printed(text_of(file_lines), mechanism), (list(expected), False))

    def check_unread(self, file_lines, line, *before):
        """This line, counted from 1, can't be read; these are printed before."""
        self.assertEqual(printed(text_of(file_lines)), ([*before, f"line {line}"], True))


class Shapes(Reading):
    def test_every_shape_passes(self):
        for mechanism in BOTH:
            for name, steps in SHAPES.items():
                with self.subTest(name, mechanism=mechanism):
                    self.check_prints(HEADINGS + case(steps, 7, mechanism), "7 pass", mechanism=mechanism)
            for name, steps in (FRESH_SHAPES | SHAPES).items():
                with self.subTest(name, mechanism=mechanism, fresh=True):
                    self.check_prints(FRESH_HEADINGS + case(steps, 7, mechanism, True), "7 pass", mechanism=mechanism)

    def test_ends_of_lines_do_not_matter(self):
        whole = HEADINGS + case() + [""] + case(count=1)
        expected = (["0 pass", "1 pass"], False)
        self.assertEqual(printed(text_of(whole, "\r\n")), expected)
        self.assertEqual(printed(text_of(whole)[:-1]), expected)
        self.assertEqual(printed(text_of(whole[:5], "\r\n") + text_of(whole[5:])), expected)

    def test_a_cr_at_the_end_of_a_file(self):
        whole = HEADINGS + case()
        self.assertEqual(printed(text_of(whole)[:-1] + b"\r"), ([f"line {len(whole)}"], True))
        self.assertEqual(printed(text_of(whole) + b"\r"), (["0 pass", f"line {len(whole) + 1}"], True))

    def test_empty_lines_and_comments_stand_anywhere(self):
        plain = HEADINGS + case()
        loose = [line for each in plain for line in (each, "", "# a remark")]
        self.check_prints(["#", ""] + loose, "0 pass")

    def test_no_case(self):
        self.check_prints([])
        self.check_prints(HEADINGS)

    def test_counts_are_printed_as_numbers(self):
        self.check_prints(HEADINGS + case(count="007") + case(count=2**64 - 1) + case(count="0"), "7 pass", f"{2**64 - 1} pass", "0 pass")
        self.check_unread(HEADINGS + case(count=2**64), 3)

    def test_upper_case_digits(self):
        upper = [name + "=" + value.upper() for name, _, value in (line.partition("=") for line in case())]
        self.assertNotEqual(upper, case())
        self.check_prints(HEADINGS + upper, "0 pass")


class Runs(Reading):
    def test_every_changed_field_fails(self):
        for fresh, headings, shapes in ((False, HEADINGS, SHAPES), (True, FRESH_HEADINGS, FRESH_SHAPES)):
            for name, steps in shapes.items():
                good = case(steps, fresh=fresh)
                for at in range(1, len(good)):
                    last = good[at][-1]
                    changed = good[:at] + [good[at][:-1] + ("0" if last != "0" else "1")] + good[at + 1:]
                    with self.subTest(name, field=good[at]):
                        self.check_prints(headings + changed, "0 fail")

    def test_the_other_mechanism_fails(self):
        self.check_prints(HEADINGS + case(mechanism=HASH_DRBG), "0 fail")
        self.check_prints(HEADINGS + case(), "0 fail", mechanism=HASH_DRBG)

    def test_a_failed_case_does_not_end_the_run(self):
        self.check_prints(HEADINGS + case(mechanism=HASH_DRBG) + case(count=1), "0 fail", "1 pass")

    def test_each_case_has_a_table_of_its_own(self):
        self.check_prints(HEADINGS + 20 * case(), *20 * ["0 pass"])

    def test_refused_calls_fail(self):
        """Entropy of 13 bytes at each place, a nonce of 6, strings too long, a fresh draw without its right."""
        short = "00" * 13
        for steps, name, value in (
                (DRAW, "EntropyInput", short), (DRAW, "EntropyInput", "00" * 1025), (DRAW, "Nonce", "00" * 6), (DRAW, "Nonce", "00" * 65),
                (DRAW, "PersonalizationString", "00" * 513), (DRAW, "AdditionalInput", "00" * 1025),
                (RESEED + DRAW, "EntropyInputReseed", short), (RESEED + DRAW, "AdditionalInputReseed", "00" * 1025),
                (FRESH_DRAW, "EntropyInputPR", short)):
            fresh = steps is FRESH_DRAW
            changed = [f"{name} = {value}" if line.startswith(f"{name} ") else line for line in case(steps, fresh=fresh)]
            with self.subTest(name, length=len(value) // 2):
                self.check_prints((FRESH_HEADINGS if fresh else HEADINGS) + changed, "0 fail")
        self.check_prints(HEADINGS + case(FRESH_DRAW, fresh=True), "0 fail")

    def test_a_refused_first_draw_fails(self):
        """Though the last draw gives what would have been returned without it."""
        good = case(DRAW)
        self.check_prints(HEADINGS + good[:4] + ["AdditionalInput = " + "00" * 1025] + good[4:], "0 fail")

    def test_the_least_strings_pass(self):
        """Strength 0: 14 bytes of entropy, 7 of nonce."""
        opening = [("EntropyInput", bytes(14)), ("Nonce", bytes(7)), ("PersonalizationString", b"")]
        drawn = draws((HMAC_DRBG, 0, 2**48, False, bytes(14), bytes(7), b""), steps_of(DRAW), 0, 32)[-1]
        self.check_prints(HEADINGS + ["COUNT = 0", *lines(opening + DRAW), f"ReturnedBits = {drawn.hex()}"], "0 pass")

    def test_no_returned_bits(self):
        for empty in ("ReturnedBits = ", "ReturnedBits ="):
            self.check_prints(HEADINGS + case()[:-1] + [empty], "0 pass")
        self.check_prints(HEADINGS + case(FRESH_DRAW, fresh=True)[:-1] + ["ReturnedBits ="], "0 fail")


class Order(Reading):
    def test_fields_in_any_other_order(self):
        """Behind each line of a case that has all fields, every field: read where the order says so, and else the line is named."""
        steps = DRAW + RESEED + FRESH_DRAW
        whole = FRESH_HEADINGS + case(steps, fresh=True)
        ends = ("PersonalizationString", "AdditionalInput", "AdditionalInputReseed", "EntropyInputPR")
        behind = {
            "EntropyInput": ("COUNT",), "Nonce": ("EntropyInput",), "PersonalizationString": ("Nonce",), "AdditionalInput": ends,
            "EntropyInputReseed": ends, "AdditionalInputReseed": ("EntropyInputReseed",), "EntropyInputPR": ("AdditionalInput",),
            "ReturnedBits": ("AdditionalInput", "EntropyInputPR")}
        for at in range(2, len(whole) - 1):
            before = whole[at].split(" ")[0]
            for name, places in behind.items():
                with self.subTest(before, name=name):
                    text = whole[:at + 1] + [f"{name} = "]
                    if before not in places:
                        self.check_unread(text, at + 2)
                    elif name == "ReturnedBits":
                        self.check_prints(text, "0 pass")
                    else:
                        self.check_unread(text, at + 3)     # it ends in mid-case

    def test_a_field_outside_a_case(self):
        self.check_unread(HEADINGS + ["EntropyInput = 00"], 3)
        self.check_unread(HEADINGS + case() + ["ReturnedBits = 00"], 9, "0 pass")
        self.check_unread(["Nonce = 00"], 1)
        self.check_unread(["[SHA-1]", "ReturnedBits = 00"], 2)

    def test_a_heading_inside_a_case(self):
        good = HEADINGS + case()
        for heading in ("[SHA-256]", "[SHA-1]", "[PredictionResistance = False]", "[NonceLen = 64]"):
            for at in range(3, len(good)):
                self.check_unread(good[:at] + [heading] + good[at:], at + 1)

    def test_a_count_inside_a_case(self):
        good = HEADINGS + case()
        for at in range(3, len(good)):
            self.check_unread(good[:at] + ["COUNT = 1"] + good[at:], at + 1)

    def test_a_count_before_a_hash_heading(self):
        self.check_unread(case(), 1)
        self.check_unread(["[PredictionResistance = False]", "[NonceLen = 64]"] + case(), 3)

    def test_a_file_that_ends_in_mid_case(self):
        good = HEADINGS + case()
        for at in range(3, len(good)):
            self.check_unread(good[:at], at + 1)
            self.assertEqual(printed(text_of(good[:at])[:-1]), ([f"line {at + 1}"], True))
            self.check_unread(good[:at] + ["", "# a remark"], at + 3)
        self.check_unread(["[SHA-1]", "COUNT = 0"], 3)


class Headings(Reading):
    def test_every_length(self):
        """Eight fields, each with its heading: of its length, one bit and one byte off, and not there."""
        steps = RESEED + FRESH_DRAW
        good = case(steps, fresh=True)
        measured = {
            "EntropyInput": "EntropyInputLen", "Nonce": "NonceLen", "PersonalizationString": "PersonalizationStringLen",
            "EntropyInputReseed": "EntropyInputLen", "AdditionalInputReseed": "AdditionalInputLen",
            "AdditionalInput": "AdditionalInputLen", "EntropyInputPR": "EntropyInputLen", "ReturnedBits": "ReturnedBitsLen"}
        every = [f"[{name} = {bits}]" for name, bits in LENGTHS.items()]
        self.check_prints(FRESH_HEADINGS + every + good, "0 pass")
        for left_out in range(len(every)):
            self.check_prints(FRESH_HEADINGS + every[:left_out] + every[left_out + 1:] + good, "0 pass")
        self.assertEqual([line.split(" ")[0] for line in good[1:]], list(measured))
        for at, (field, heading) in enumerate(measured.items(), start=1):
            longer = good[:at] + [good[at] + "00"] + good[at + 1:]
            with self.subTest(field):
                self.check_unread(FRESH_HEADINGS + [f"[{heading} = {LENGTHS[heading]}]"] + longer, 4 + at)
                self.check_prints(FRESH_HEADINGS + longer, "0 fail")
        for name, bits in LENGTHS.items():
            first = list(measured.values()).index(name)
            for off in (bits + 1, bits - 1, bits + 8, 8 * 2**61 - 1, bits // 8):
                self.check_unread(FRESH_HEADINGS + [f"[{name} = {off}]"] + good, 5 + first)

    def test_a_hash_heading_clears_the_others(self):
        self.check_prints(["[SHA-256]", "[NonceLen = 8]", "[SHA-256]"] + case(), "0 pass")
        fresh = case(FRESH_DRAW, fresh=True)
        self.check_prints(FRESH_HEADINGS + fresh + fresh + ["[SHA-256]"] + fresh, "0 pass", "0 pass", "0 fail")

    def test_headings_before_a_hash_heading_are_cleared(self):
        self.check_prints(["[NonceLen = 8]", "[PredictionResistance = True]", "[SHA-256]"] + case(FRESH_DRAW, fresh=True), "0 fail")

    def test_the_last_of_two_headings_counts(self):
        self.check_prints(["[SHA-256]", "[NonceLen = 8]", "[NonceLen = 64]"] + case(), "0 pass")
        self.check_unread(["[SHA-256]", "[NonceLen = 64]", "[NonceLen = 8]"] + case(), 6)
        fresh = case(FRESH_DRAW, fresh=True)
        self.check_prints(FRESH_HEADINGS + ["[PredictionResistance = False]"] + fresh, "0 fail")

    def test_headings_between_cases_of_one_hash(self):
        self.check_prints(HEADINGS + case() + ["[NonceLen = 64]"] + case(count=1), "0 pass", "1 pass")
        self.check_unread(HEADINGS + case() + ["[NonceLen = 8]"] + case(count=1), 12, "0 pass")

    def test_no_resistance_heading_is_false(self):
        self.check_prints(["[SHA-256]"] + case(), "0 pass")
        self.check_prints(["[SHA-256]"] + case(FRESH_DRAW, fresh=True), "0 fail")


class OtherHashes(Reading):
    def test_passed_over(self):
        for name in ("SHA-1", "SHA-512/256", "AES-128 no df", ""):
            self.check_prints([f"[{name}]"] + case(count=3), "3 passed over")

    def test_order_and_lengths_and_room_are_not_looked_at(self):
        self.check_prints(
            ["[SHA-1]", "[NonceLen = 8]", "COUNT = 5", "Nonce = ", "EntropyInputPR = 00", "Nonce = 0000"]
            + 40 * ["AdditionalInput = " + "00" * 2000] + ["ReturnedBits ="], "5 passed over")
        self.check_prints(["[SHA-1]", "COUNT = 5", "ReturnedBits = 00"], "5 passed over")

    def test_lines_must_still_be_lines(self):
        self.check_unread(["[SHA-1]", "COUNT = 5", "Nonce = 0"], 3)
        self.check_unread(["[SHA-1]", "COUNT = 5", "Key = 00"], 3)
        self.check_unread(["[SHA-1]", "COUNT = 5", "COUNT = 6"], 3)
        self.check_unread(["[SHA-1]", "COUNT = 5", "[SHA-256]"], 3)

    def test_between_ours(self):
        self.check_prints(
            HEADINGS + case() + ["[SHA-224]"] + case(count=1) + HEADINGS + case(count=2), "0 pass", "1 passed over", "2 pass")


class Room(Reading):
    def filled(self, more):
        """A case whose fields take 65,536 bytes and this many more: draws of long additional input, the last of them shorter."""
        fields = OPENING + 32 * [("AdditionalInput", bytes(1024))]
        kept = sum(len(value) + 3 for _, value in fields)
        rest = 65536 - kept - (3 + 32)
        full, last = divmod(rest, 1027)
        fields += full * [("AdditionalInput", bytes(1024))]
        self.assertGreaterEqual(last, 3)
        fields.append(("AdditionalInput", bytes(last - 3 + more)))
        steps = fields[3:]
        return HEADINGS + ["COUNT = 0", *lines(fields + returned(HMAC_DRBG, steps))]

    def test_the_edge(self):
        self.check_prints(self.filled(0), "0 pass")
        over = self.filled(1)
        self.check_unread(over, len(over))

    def test_another_field(self):
        """Any field can be the one that does not fit, an empty one too."""
        over = self.filled(0)[:-1] + ["EntropyInputReseed = " + "00" * 32]
        self.check_unread(over, len(over) + 1)      # it fits, and the file ends in mid-case
        self.check_unread(over + ["AdditionalInputReseed ="], len(over) + 1)

    def test_each_case_has_its_own(self):
        whole = self.filled(0)
        self.check_prints(whole + whole[2:], "0 pass", "0 pass")


class Words(unittest.TestCase):
    def setUp(self):
        folder = tempfile.TemporaryDirectory()
        self.addCleanup(folder.cleanup)
        self.folder = pathlib.Path(folder.name)
        self.good = self.write("good", HEADINGS + case())
        self.hash = self.write("hash", HEADINGS + case(count=1, mechanism=HASH_DRBG))
        self.bad = self.write("bad", HEADINGS + case() + ["x"])

    def write(self, name, file_lines):
        path = self.folder / name
        path.write_bytes(text_of(file_lines))
        return str(path)

    def ran(self, *words, given=b""):
        """The lines, and what is told in the end."""
        found = []
        try:
            for line in reports(words, io.BytesIO(given).read):
                found.append(line)
        except Stop as why:
            return found, str(why)
        return found, None

    def test_files_and_mechanisms_in_turn(self):
        self.assertEqual(self.ran("1", self.good), (["0 pass"], None))
        self.assertEqual(self.ran("1", self.good, "2", self.hash), (["0 pass", "1 pass"], None))
        self.assertEqual(self.ran("1", "2", self.good, self.hash, "1", self.good), (["0 fail", "1 pass", "0 pass"], None))
        self.assertEqual(self.ran("1", self.good, "2"), (["0 pass"], None))

    def test_standard_input(self):
        given = pathlib.Path(self.hash).read_bytes()
        self.assertEqual(self.ran("2", given=given), (["1 pass"], None))
        self.assertEqual(self.ran("1", "2", given=given), (["1 pass"], None))
        self.assertEqual(self.ran("2", "1", given=given), (["1 fail"], None))
        lines, told = self.ran("2", given=b"x")
        self.assertEqual(lines, ["line 1"])
        self.assertIn("standard input", told)

    def test_no_mechanism(self):
        for words in ((), (self.good,), (self.good, "1"), ("3",), ("01", self.good), ("", "1")):
            lines, told = self.ran(*words, given=b"x")
            self.assertEqual(lines, [])
            self.assertIn("no mechanism", told)

    def test_a_line_that_cannot_be_read_ends_the_whole_run(self):
        lines, told = self.ran("1", self.good, self.bad, self.good)
        self.assertEqual(lines, ["0 pass", "0 pass", "line 9"])
        self.assertIn(self.bad, told)

    def test_lines_are_counted_in_each_file(self):
        self.assertEqual(self.ran("1", self.good, self.bad)[0][-1], "line 9")

    def test_each_file_begins_anew(self):
        begun = self.write("begun", HEADINGS)
        rest = self.write("rest", case())
        self.assertEqual(self.ran("1", begun, rest)[0], ["line 1"])

    def test_files_that_cannot_be_read(self):
        for name in (str(self.folder / "none"), str(self.folder), ""):
            lines, told = self.ran("1", self.good, name, self.good)
            self.assertEqual(lines, ["0 pass"])
            self.assertIn(name, told)


class Published(unittest.TestCase):
    def test_every_file(self):
        for path in sorted((PUBLISHED / "drbg").rglob("*.rsp")):
            mechanism = HASH_DRBG if path.name.startswith("Hash") else HMAC_DRBG
            found, stopped = printed(path.read_bytes(), mechanism)
            with self.subTest(str(path)):
                self.assertFalse(stopped)
                passed = [line for line in found if line.endswith(" pass")]
                over = [line for line in found if line.endswith(" passed over")]
                self.assertEqual(len(passed), 0 if path.name.startswith("CTR") else 240)
                self.assertEqual(len(passed) + len(over), len(found))
                self.assertEqual(len(found), path.read_bytes().count(b"COUNT"))


if __name__ == "__main__":
    unittest.main()
