"""The reader of NIST's files, and that the checks notice what is wrong or missing."""

import contextlib
import io
import pathlib
import tempfile
import unittest

import check_drbg
import check_hmac
import check_sha
from tally import checked
from vectors import PUBLISHED, cases

SMALL_FILE = """\
# a remark\r
\r
[SHA-1]\r
[EntropyInputLen = 128]\r
\r
COUNT = 0\r
Nonce = ab\r
AdditionalInput = \r
AdditionalInput = cd\r
\r
COUNT = 1\r
Nonce = \r
\r
[SHA-256]\r
[PredictionResistance = True]\r
COUNT = 0\r
# a remark inside\r
Nonce = ef\r
"""


class InFolder(unittest.TestCase):
    """Tests that write files of their own."""

    def setUp(self):
        folder = tempfile.TemporaryDirectory()
        self.addCleanup(folder.cleanup)
        self.folder = pathlib.Path(folder.name)

    def write(self, name, text):
        path = self.folder / name
        path.parent.mkdir(parents=True, exist_ok=True)
        path.write_bytes(text.encode("ascii"))
        return path


class Reading(InFolder):
    def test_small_file(self):
        first, second, third = cases(self.write("small.rsp", SMALL_FILE))
        self.assertEqual(first.headings, {"hash": "SHA-1", "EntropyInputLen": "128"})
        self.assertEqual(second.headings, first.headings)
        self.assertEqual(third.headings, {"hash": "SHA-256", "PredictionResistance": "True"})
        self.assertEqual(
            first.fields,
            [("COUNT", "0"), ("Nonce", "ab"), ("AdditionalInput", ""), ("AdditionalInput", "cd")])
        self.assertEqual(second.string("Nonce"), b"")
        self.assertEqual(third.fields, [("COUNT", "0"), ("Nonce", "ef")])
        self.assertEqual([case.line for case in (first, second, third)], [6, 11, 16])

    def test_bad_lines_are_named(self):
        for text in ("a\n", "[SHA-256\n", "Nonce\n"):
            with self.assertRaisesRegex(ValueError, "line 2 cannot be read"):
                list(cases(self.write("bad.rsp", "\n" + text)))


class Checks(InFolder):
    def run_checks(self, checks):
        """The status and the last line."""
        shown = io.StringIO()
        with contextlib.redirect_stdout(shown):
            status = checked(self.folder, checks)
        return status, shown.getvalue().splitlines()[-1]

    def first_case(self, name, wanted=lambda case: True):
        """The text of the first wanted case of a published file, with its headings."""
        case = next(case for case in cases(PUBLISHED / name) if wanted(case))
        headings = [
            f"[{value}]" if key == "hash" else f"[{key} = {value}]"
            for key, value in case.headings.items()]
        fields = [f"{key} = {value}" for key, value in case.fields]
        return "\n".join(headings + [""] + fields + [""])

    @staticmethod
    def altered(text):
        """The last hex digit changed."""
        body = text.rstrip("\n")
        return body[:-1] + ("0" if body[-1] != "0" else "1") + "\n"

    def check_one(self, name, check, wanted=lambda case: True):
        text = self.first_case(name, wanted)
        self.write(name, text)
        self.assertEqual(self.run_checks([(name, check)]), (0, "1 passed, 0 failed"))
        self.write(name, self.altered(text))
        self.assertEqual(self.run_checks([(name, check)]), (1, "0 passed, 1 failed"))

    def test_an_altered_message_digest_fails(self):
        for name, check in check_sha.CHECKS[:2]:
            self.check_one(name, check)

    def test_an_altered_code_fails(self):
        self.check_one("rfc-4231-sha256.txt", check_hmac.check_codes)

    def test_altered_returned_bits_fail(self):
        for name, check in check_drbg.CHECKS:
            self.check_one(name, check, lambda case: case.headings["hash"] == "SHA-256")

    def test_missing_files_and_files_without_a_case_fail(self):
        self.assertEqual(self.run_checks(check_sha.CHECKS), (1, "0 passed, 3 failed"))
        self.assertEqual(self.run_checks(check_drbg.CHECKS), (1, "0 passed, 6 failed"))
        self.assertEqual(self.run_checks([]), (1, "0 passed, 0 failed"))
        name, check = check_drbg.CHECKS[0]
        other_hash = self.first_case(name)
        self.assertIn("[SHA-1]", other_hash)
        self.write(name, other_hash)
        self.assertEqual(self.run_checks([(name, check)]), (1, "0 passed, 1 failed"))
