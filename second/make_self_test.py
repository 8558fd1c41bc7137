"""python3 second/make_self_test.py [--check]: NIST's cases that the library tests itself with.

Writes crates/self_test/src/published.rt, the cases' strings as the code has them, and
specs/Published.antt, the same as the definitions have them. Of each file it is the first
case under SHA-256 with a personalization string and additional input. --check writes
nothing and compares both with what stands there.
"""

import pathlib

from made_files import command
from vectors import PUBLISHED, cases

CRATE = pathlib.Path(__file__).resolve().parent.parent / "crates" / "self_test"
ROW = 32        # bytes in a line

# Our names, numbered by the call that takes the string. A field that stands twice in NIST's
# file is taken in its order.
OPENING = [
    ("entropy1", "EntropyInput"), ("nonce", "Nonce"),
    ("personalization", "PersonalizationString")]
RESEEDED = OPENING + [
    ("entropy2", "EntropyInputReseed"), ("additional2", "AdditionalInputReseed"),
    ("additional3", "AdditionalInput"), ("additional4", "AdditionalInput"),
    ("returned", "ReturnedBits")]
FRESH = OPENING + [
    ("entropy2", "EntropyInputPR"), ("additional2", "AdditionalInput"),
    ("entropy3", "EntropyInputPR"), ("additional3", "AdditionalInput"),
    ("returned", "ReturnedBits")]
CASES = [
    ("hmac_reseeded", "Reseeded", RESEEDED, "drbg/pr_false/HMAC_DRBG.rsp"),
    ("hash_reseeded", "Reseeded", RESEEDED, "drbg/pr_false/Hash_DRBG.rsp"),
    ("hmac_fresh", "Fresh", FRESH, "drbg/pr_true/HMAC_DRBG.rsp"),
    ("hash_fresh", "Fresh", FRESH, "drbg/pr_true/Hash_DRBG.rsp")]

CODE = """\
// Made by second/make_self_test.py: NIST's cases, their strings as they stand in the named files.
use crate::cases::{Fresh, Reseeded};
"""
DEFINITIONS = """\
-- Made by second/make_self_test.py: NIST's cases, their strings as they stand in the named files.
use Rattle.std.specs.Prelude.{◌++◌}
use Rattle.standard.specs.Strings.{bytes_of}
use Rattle.self_test.specs.Cases.{Reseeded, Fresh}
"""


def chosen(path):
    for case in cases(PUBLISHED / path):
        lengths = case.headings["PersonalizationStringLen"], case.headings["AdditionalInputLen"]
        if case.headings["hash"] == "SHA-256" and "0" not in lengths:
            return case
    raise ValueError(f"{path} has no such case")


def strings(case, fields):
    """The case's strings by our names for them."""
    waiting = list(case.fields)
    found = {}
    for ours, field in fields:
        pair = next(pair for pair in waiting if pair[0] == field)
        waiting.remove(pair)
        found[ours] = bytes.fromhex(pair[1])
    return found


def rows(text):
    return [text[at:at + ROW] for at in range(0, len(text), ROW)]


def literal(text):
    lines = ["".join(f"\\x{byte:02x}" for byte in row) for row in rows(text)]
    return "b\"\\\n        " + "\\\n        ".join(lines) + "\""


def code(name, kind, path, case, found):
    fields = "".join(f"    {ours}: {literal(text)},\n" for ours, text in found.items())
    return (
        f"\n// vectors/{path}, line {case.line}.\n"
        f"pub static {name.upper()}: {kind}<'static> = {kind} {{\n{fields}}};\n")


def number(text):
    lines = [f"bytes_of {len(row)} 0x{row.hex()}" for row in rows(text)]
    return " " + lines[0] if len(lines) == 1 else "\n" + " ++\n".join(" " * 10 + line for line in lines)


def definition(name, kind, path, case, found):
    fields = "".join(f"      {ours} ={number(text)};\n" for ours, text in found.items())
    return (
        f"\n-- vectors/{path}, line {case.line}\nunfoldable pub {name} : {kind}\n{name} =\n"
        f"    record {{\n{fields}    }}\n")


def made():
    """The two files, by their names."""
    source, definitions = CODE, DEFINITIONS
    for name, kind, fields, path in CASES:
        case = chosen(path)
        found = strings(case, fields)
        source += code(name, kind, path, case, found)
        definitions += definition(name, kind, path, case, found)
    return {"src/published.rt": source.encode(), "specs/Published.antt": definitions.encode()}


if __name__ == "__main__":
    command(CRATE, ["src/published.rt", "specs/Published.antt"], made)
