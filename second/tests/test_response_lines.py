"""What a line of a response file says by itself, each rule both ways."""

import unittest

from response_lines import (
    FIELDS, LENGTHS, Count, Field, Hash, Length, Nothing, Resistance, Unread, lines_of, said,
)


class Ends(unittest.TestCase):
    def test_lf_and_cr_lf(self):
        self.assertEqual(lines_of(b"a\nb\r\nc\n"), [b"a", b"b", b"c"])

    def test_empty_lines(self):
        self.assertEqual(lines_of(b"\n\r\n\n"), [b"", b"", b""])

    def test_behind_the_last_end_there_is_no_line(self):
        self.assertEqual(lines_of(b""), [])
        self.assertEqual(lines_of(b"a\n"), [b"a"])

    def test_the_last_line_may_lack_its_end(self):
        self.assertEqual(lines_of(b"a\nb"), [b"a", b"b"])

    def test_a_cr_elsewhere_is_a_character(self):
        self.assertEqual(lines_of(b"a\rb\n"), [b"a\rb"])
        self.assertEqual(lines_of(b"a\r\r\n"), [b"a\r"])
        self.assertEqual(lines_of(b"a\n\rb\n"), [b"a", b"\rb"])

    def test_a_cr_at_the_end_of_a_file_is_a_character(self):
        self.assertEqual(lines_of(b"a\r"), [b"a\r"])
        self.assertEqual(lines_of(b"a\n\r"), [b"a", b"\r"])


class Said(unittest.TestCase):
    def check_says(self, expected, *texts):
        for text in texts:
            with self.subTest(text):
                self.assertEqual(said(text), expected)

    def check_unread(self, *texts):
        for text in texts:
            with self.subTest(text), self.assertRaises(Unread):
                said(text)

    def test_nothing(self):
        self.check_says(Nothing(), b"", b"#", b"# COUNT = 0", b"#[SHA-256", b"#\xff\r")
        self.check_unread(b" ", b" # a remark", b"\r", b"\t")

    def test_length_of_a_line(self):
        self.check_says(Nothing(), b"#" * 4096)
        self.check_unread(b"#" * 4097)
        name = b"AdditionalInput = "
        digits = 4096 - len(name)
        self.check_says(Field("AdditionalInput", bytes(digits // 2)), name + b"0" * digits)
        self.check_unread(name + b"0" * (digits + 1), name + b"0" * (digits + 2))
        self.check_says(Hash(False), b"[" + b"S" * 4094 + b"]")
        self.check_unread(b"[" + b"S" * 4095 + b"]")
        self.check_says(Count(1), b"COUNT = " + b"0" * 4087 + b"1")
        self.check_unread(b"COUNT = " + b"0" * 4088 + b"1")

    def test_length_of_a_line_is_counted_without_its_end(self):
        for end in (b"\n", b"\r\n"):
            self.check_says(Nothing(), *lines_of(b"#" * 4096 + end))
            self.check_unread(*lines_of(b"#" * 4097 + end))
        self.check_says(Nothing(), *lines_of(b"#" * 4096))
        self.check_unread(*lines_of(b"#" * 4096 + b"\r"))

    def test_hash(self):
        self.check_says(Hash(True), b"[SHA-256]")
        self.check_says(
            Hash(False), b"[SHA-1]", b"[SHA-512/256]", b"[AES-128 no df]", b"[]", b"[sha-256]", b"[SHA-256 ]",
            b"[ SHA-256]", b"[[SHA-256]]", b"[NonceLen]", b"[\r]", b"[\xff]")
        self.check_unread(b"[", b"[SHA-256", b"[SHA-256] ", b"[SHA-256]\r", b" [SHA-256]", b"]", b"SHA-256]", b"SHA-256")

    def test_resistance(self):
        self.check_says(Resistance(True), b"[PredictionResistance = True]")
        self.check_says(Resistance(False), b"[PredictionResistance = False]")
        self.check_unread(
            b"[PredictionResistance = true]", b"[PredictionResistance = FALSE]", b"[PredictionResistance = 1]",
            b"[PredictionResistance = ]", b"[PredictionResistance =]", b"[PredictionResistance = True ]",
            b"[PredictionResistance =  True]", b"[PredictionResistance=True]", b"[predictionResistance = True]",
            b"PredictionResistance = True")

    def test_lengths(self):
        for name in LENGTHS:
            text = name.encode()
            self.check_says(Length(name, 128), b"[" + text + b" = 128]", b"[" + text + b" = 00128]")
            self.check_says(Length(name, 0), b"[" + text + b" = 0]")
            self.check_unread(
                b"[" + text + b" = ]", b"[" + text + b" =]", b"[" + text + b" = -1]", b"[" + text + b" = 1 ]", text + b" = 128")
        self.check_unread(b"[EntropyLen = 1]", b"[ = 1]", b"[= 1]", b"[=]", b"[SHA-256 = ]", b"[COUNT = 1]", b"[Nonce = 00]")

    def test_numbers(self):
        for begin, end, says in ((b"COUNT = ", b"", Count), (b"[NonceLen = ", b"]", lambda number: Length("NonceLen", number))):
            for number in (0, 1, 2**32, 2**63, 2**64 - 1):
                self.check_says(says(number), begin + b"%d" % number + end, begin + b"000%d" % number + end)
            for text in (
                    b"%d" % 2**64, b"0%d" % 2**64, b"9" * 20, b"1" * 4000, b"", b"+1", b"1a", b"0x1", b"1.", b"1,0", b" 1", b"1 ", b"\xb2"):
                self.check_unread(begin + text + end)

    def test_count(self):
        self.check_unread(b"COUNT", b"COUNT =", b"COUNT = ", b"COUNT=1", b"COUNT =1", b"COUNT  = 1", b"count = 1", b" COUNT = 1")

    def test_fields(self):
        for name in FIELDS:
            text = name.encode()
            self.check_says(Field(name, b"\x0a\xbc"), text + b" = 0abc", text + b" = 0ABC", text + b" = 0aBc")
            self.check_says(Field(name, b""), text + b" = ", text + b" =")
            self.check_unread(
                text, text + b" ", text + b"=", text + b"= ", text + b"=00", text + b" =00", text + b"  = 00", text + b" =  00",
                text + b" = 00 ", text + b" = 00\r", b" " + text + b" = 00", text.lower() + b" = 00", b"[" + text + b" = 00]")
            self.check_unread(text + b" = 0", text + b" = 000", text + b" = 0g", text + b" = 0 00", text + b" = 00 00", text + b" = 00=")

    def test_digits(self):
        for byte in range(256):
            text = b"Nonce = 0%c" % byte
            if byte in b"0123456789abcdefABCDEF":
                self.check_says(Field("Nonce", bytes([int(chr(byte), 16)])), text)
                self.check_says(Field("Nonce", bytes([16 * int(chr(byte), 16)])), b"Nonce = %c0" % byte)
            else:
                self.check_unread(text)

    def test_unknown_names(self):
        self.check_unread(b"=", b" =", b" = ", b" = 00", b"Entropy = 00", b"EntropyInputPRX = 00", b"NonceLen = 8", b"x")


if __name__ == "__main__":
    unittest.main()
