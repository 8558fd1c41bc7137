"""A response file's lines, and what a line says by itself.

A file is bytes. A line ends with LF, or CR LF; the last one may lack its end. Any other CR
is a character like the others.
"""

from dataclasses import dataclass

MOST_CHARACTERS = 4096      # of a line, its end not counted
NUMBERS = 2**64             # a number is below this
DIGITS = frozenset(b"0123456789abcdefABCDEF")

OUR_HASH = b"SHA-256"
RESISTANCE = {b"True": True, b"False": False}
LENGTHS = (
    "EntropyInputLen", "NonceLen", "PersonalizationStringLen", "AdditionalInputLen",
    "ReturnedBitsLen")
FIELDS = (
    "EntropyInput", "Nonce", "PersonalizationString", "AdditionalInput", "ReturnedBits",
    "EntropyInputReseed", "AdditionalInputReseed", "EntropyInputPR")


class Unread(Exception):
    """A line that can't be read."""


@dataclass(frozen=True)
class Nothing:
    """An empty line, or a comment."""


@dataclass(frozen=True)
class Hash:
    ours: bool


@dataclass(frozen=True)
class Resistance:
    asked: bool


@dataclass(frozen=True)
class Length:
    name: str
    bits: int


@dataclass(frozen=True)
class Count:
    number: int


@dataclass(frozen=True)
class Field:
    name: str
    value: bytes


def lines_of(text):
    """The lines without their ends. Behind the last LF there is a line only if something stands there."""
    *ended, rest = text.split(b"\n")
    lines = [line.removesuffix(b"\r") for line in ended]
    return lines if rest == b"" else lines + [rest]


def said(line):
    """What the line says; Unread if that is nothing we know."""
    if len(line) > MOST_CHARACTERS:
        raise Unread
    if line == b"" or line.startswith(b"#"):
        return Nothing()
    if line.startswith(b"["):
        return heading(line)
    name, value = name_and_value(line)
    if name == b"COUNT":
        return Count(number(value))
    return Field(known(name, FIELDS), string(value))


def heading(line):
    """'[SHA-256]', '[PredictionResistance = True]' or '[NonceLen = 128]'."""
    if len(line) < 2 or not line.endswith(b"]"):
        raise Unread
    inside = line[1:-1]
    if b"=" not in inside:
        return Hash(inside == OUR_HASH)
    name, value = name_and_value(inside)
    if name == b"PredictionResistance":
        if value not in RESISTANCE:
            raise Unread
        return Resistance(RESISTANCE[value])
    return Length(known(name, LENGTHS), number(value))


def name_and_value(text):
    """'Name = value', at the first '='; where the value is empty the space before it may be missing."""
    before, equals, behind = text.partition(b"=")
    if equals == b"" or not before.endswith(b" ") or not (behind == b"" or behind.startswith(b" ")):
        raise Unread
    return before[:-1], behind[1:]


def known(name, names):
    for one in names:
        if name == one.encode("ascii"):
            return one
    raise Unread


def number(value):
    """Digits 0 to 9, at least one; zeros may lead."""
    if not value.isdigit() or int(value) >= NUMBERS:
        raise Unread
    return int(value)


def string(value):
    """Two digits a byte, of either case. (bytes.fromhex by itself would pass over spaces.)"""
    if len(value) % 2 != 0 or not DIGITS.issuperset(value):
        raise Unread
    return bytes.fromhex(value.decode("ascii"))
