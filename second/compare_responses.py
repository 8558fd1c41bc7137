"""python3 second/compare_responses.py PROGRAM [SEED]: the program that reads response files beside the second program.

Runs the program on all published files, on small files cut from them and spoiled in every way, by rule and
by lot, on large files, and on words of all kinds. It must print what the second program prints, byte for
byte, and tell in one line on standard error what the second program tells, with the file's name. SEED
repeats the files of an earlier run that were drawn by lot. A file that fails is kept in target/failed/.
"""

import pathlib
import random
import subprocess
import tempfile

from compared import SECONDS, counted, in_pieces, keep, small_stack
from mechanisms import HASH_DRBG, HMAC_DRBG
from respond import STANDARD_INPUT, Stop, report, reports
from response_files import (
    far_too_long, good, groups, large_files, long_lines, lot, orders, rooms, shapes, spoiled_lines, strings, text_of,
)
from seeds import command
from tally import Tally
from vectors import PUBLISHED

BOTH = (HMAC_DRBG, HASH_DRBG)
BY_LOT = 1200
CASES = 240         # under SHA-256, in each published file of our mechanisms
# Shapes whose every line is spoiled: reading is the same for both mechanisms, so that each is run with one of them
SPOILED = {HMAC_DRBG: ("R A A", "P P"), HASH_DRBG: ("A A", "A R A")}
LONG = {HMAC_DRBG: ("R A A",), HASH_DRBG: ("P P",)}


def second(lines):
    """What is printed, and the file that is told of: None where nothing is told, '' where it is no file."""
    found = b""
    try:
        for line in lines:
            found += line.encode() + b"\n"
    except Stop as why:
        return found, why.name
    return found, None


def told_as_expected(told, name):
    """Nothing; or one line of the program's that names the file."""
    if name is None:
        return told == b""
    return told.startswith(b"respond: ") and told.count(b"\n") == 1 and told.endswith(b"\n") and name.encode() in told


class Program:
    """The program under comparison, the tally of its runs, and a folder for files."""

    def __init__(self, path, folder):
        self.path = path
        self.folder = folder
        self.tally = Tally()

    def note(self, held, name, text):
        self.tally.note(held, name)
        if not held:
            keep(f"{name}.rsp", text)

    def ran(self, words, given=b"", **settings):
        """What it prints and tells; None if it fails or hangs."""
        try:
            done = subprocess.run([self.path, *words], input=given, capture_output=True, timeout=SECONDS, **settings)
        except subprocess.TimeoutExpired:
            return None
        return (done.stdout, done.stderr) if done.returncode == 0 else None

    def agrees(self, name, words, expected, text=b"", **settings):
        """It does with these words what is expected. The text is its standard input, and is kept if it does not."""
        printed, about = expected
        ran = self.ran(words, text, **settings)
        self.note(ran is not None and ran[0] == printed and told_as_expected(ran[1], about), name, text)

    def reads(self, name, mechanism, text, **settings):
        """It agrees on this text as standard input."""
        expected = second(report(mechanism, STANDARD_INPUT, text))
        self.agrees(f"{name}, mechanism {mechanism}", [str(mechanism)], expected, text, **settings)

    def reads_file(self, name, mechanism, text):
        """It agrees on this text as a file."""
        path = self.folder / "file.rsp"
        path.write_bytes(text)
        printed, about = second(report(mechanism, str(path), text))
        ran = self.ran([str(mechanism), str(path)])
        held = ran is not None and ran[0] == printed and told_as_expected(ran[1], about)
        self.note(held, f"{name}, mechanism {mechanism}, as a file", text)


# The published files

def all_passed(printed, ours):
    """So many cases passed, and all others were passed over."""
    lines = printed.splitlines()
    passed = sum(line.endswith(b" pass") for line in lines)
    over = sum(line.endswith(b" passed over") for line in lines)
    return passed == ours and passed + over == len(lines) > 0


def compare_published(program):
    """Each file with its mechanism, CTR_DRBG's with the first; one with the other mechanism; all in one run."""
    words, whole = [], b""
    for path in sorted((PUBLISHED / "drbg").rglob("*.rsp")):
        mechanism = HASH_DRBG if path.name.startswith("Hash") else HMAC_DRBG
        expected = second(report(mechanism, str(path), path.read_bytes()))
        name = str(path.relative_to(PUBLISHED))
        program.tally.note(all_passed(expected[0], 0 if path.name.startswith("CTR") else CASES), f"{name} by the second program")
        program.agrees(name, [str(mechanism), str(path)], expected)
        words += [str(mechanism), str(path)]
        whole += expected[0]
    program.tally.note(len(words) == 2 * 9, "nine published files")
    program.agrees("all published files in one run", words, (whole, None))
    path = PUBLISHED / "drbg" / "no_reseed" / "HMAC_DRBG.rsp"
    program.agrees("HMAC_DRBG's file with the other mechanism", ["2", str(path)], second(report(HASH_DRBG, str(path), path.read_bytes())))
    text = path.read_bytes()
    program.reads("HMAC_DRBG's file on standard input", HMAC_DRBG, text)
    program.reads("HMAC_DRBG's file with LF", HMAC_DRBG, text.replace(b"\r\n", b"\n"))


# Small files

def compare_all(program, files):
    """The files that are made for each mechanism."""
    for mechanism in BOTH:
        for name, text in files(mechanism):
            program.reads(name, mechanism, text)


def compare_as_files(program):
    for mechanism in BOTH:
        for name, text in good(mechanism):
            program.reads_file(name, mechanism, text)


def compare_lot(program, seed):
    print(f"{BY_LOT} files drawn by lot, seed {seed}")
    for count in range(BY_LOT):
        source = random.Random(f"{seed} {count}")
        mechanism = source.choice(BOTH)
        program.reads(f"file {count} of seed {seed}", mechanism, lot(source, mechanism))


def compare_pieces(program):
    for mechanism in BOTH:
        files = dict(good(mechanism))
        for name, size in (("A R A", 1), ("P P", 7), ("every shape", 100), ("every shape, LF and CR LF in turn", 1000)):
            printed, _ = second(report(mechanism, "", files[name]))
            held = in_pieces([program.path, str(mechanism)], files[name], size) == printed
            program.note(held, f"{name}, mechanism {mechanism}, in pieces of {size}", files[name])


def compare_stack(program):
    for mechanism in BOTH:
        program.reads("every shape on a stack of 1 MiB", mechanism, dict(good(mechanism))["every shape"], preexec_fn=small_stack)


# Words

def compare_words(program):
    folder = program.folder
    texts = {mechanism: dict(good(mechanism))["every shape"] for mechanism in BOTH}
    hmac, hashed, bad, empty, missing, one = (str(folder / name) for name in ("hmac", "hash", "bad", "empty", "none", "1"))
    for name, text in ((hmac, texts[HMAC_DRBG]), (hashed, texts[HASH_DRBG]), (empty, b""), (one, texts[HMAC_DRBG])):
        pathlib.Path(name).write_bytes(text)
    headings, case = shapes(HMAC_DRBG)["A R A"]
    pathlib.Path(bad).write_bytes(text_of(headings + case + [b"x"] + case))
    begun = str(folder / "begun")
    pathlib.Path(begun).write_bytes(text_of(headings))
    rest = str(folder / "rest")
    pathlib.Path(rest).write_bytes(text_of(case))
    mid = str(folder / "mid")
    pathlib.Path(mid).write_bytes(text_of(headings + case[:-1]))
    for words in (
            ["1", hmac], ["2", hashed], ["1", hmac, hmac], ["1", hmac, "2", hashed], ["2", hashed, hmac, "1", hmac], ["1", "2", hashed],
            ["1", "1", hmac], ["1", hmac, "2"], ["1", empty], ["1", empty, hmac],
            ["1"], ["2"], ["1", "2"], ["2", "1"],                                           # standard input
            [], [hmac], [hmac, "1"], [hmac, "1", hmac], [missing], [""], ["3"], ["0", hmac], ["01", hmac], ["11", hmac], ["HMAC", hmac],
            ["1 ", hmac], ["-1", hmac],                                                     # no mechanism
            ["1", bad], ["1", bad, hmac], ["1", hmac, bad, hmac], ["1", hmac, bad, missing], ["1", bad, "2", hashed],
            ["1", begun, rest], ["1", mid, hmac], ["1", hmac, mid],                         # lines that can't be read
            ["1", missing], ["1", missing, hmac], ["1", hmac, missing, hmac], ["2", str(folder)], ["2", hashed, str(folder), hashed],
            ["1", ""], ["1", hmac, ""], ["1", "3"], ["1", "-"], ["1", "--help"], ["1", hmac + "/x"], ["1", "x" * 300],
            ["1", one], ["1", str(folder / "." / ".." / folder.name / "hmac")]):            # files that can't be read, and odd names
        for given in (texts[HASH_DRBG], b"") if not any(word.startswith("/") for word in words) else (b"",):
            shown = " ".join(word.replace(str(folder), "") for word in words)[:80]
            expected = second(reports(words, lambda: given))
            program.agrees(f"the words '{shown}' with {len(given)} bytes of input", words, expected, given)
    # a name in the folder itself, that is a mechanism's
    program.agrees("the file ./1", ["1", "./1"], second(report(HMAC_DRBG, "./1", texts[HMAC_DRBG])), cwd=folder)


def main(path, seed):
    with tempfile.TemporaryDirectory() as folder:
        program = Program(path, pathlib.Path(folder))

        def part(name, compare, *given):
            counted(program.tally, name, lambda: compare(program, *given))

        part("the published files", compare_published)
        part("every shape, all ends of lines", compare_all, good)
        part("the same as files", compare_as_files)
        part("every line spoiled", compare_all, lambda mechanism: spoiled_lines(mechanism, SPOILED[mechanism]))
        part("every field in every place", compare_all, orders)
        part("headings of more than one group", compare_all, groups)
        part("strings at the calls' limits", compare_all, strings)
        part("lines at the most characters", compare_all, lambda mechanism: long_lines(mechanism, LONG[mechanism]))
        part("lines far beyond them", compare_all, lambda _: far_too_long())
        part("cases at the room's edge", compare_all, rooms)
        part("large files", compare_all, large_files)
        part("files drawn by lot", compare_lot, seed)
        part("files in pieces", compare_pieces)
        part("a stack of 1 MiB", compare_stack)
        part("words", compare_words)
        print(program.tally.line())
        return program.tally.status()


if __name__ == "__main__":
    command(main, "PROGRAM")
