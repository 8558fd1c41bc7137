"""python3 bench/stack.py FOLDER ARCHIVE: what bench/stack has measured, as two tables and a sentence; printed, and written into docs/BENCH.md.

FOLDER has the program `secrets`, linked with the archive at fixed addresses, what callgrind saw of it (`reached`), the number of its
calls (`calls`), and the stack of each call (`depths`).
"""

import collections
import pathlib
import re
import subprocess
import sys

PAGE = pathlib.Path(__file__).resolve().parent.parent / "docs/BENCH.md"
BEGINS = "<!-- bench/stack writes what stands from here -->\n"
ENDS = "<!-- bench/stack: to here -->\n"
MECHANISMS = ("HMAC_DRBG", "Hash_DRBG")
PROVED = "capi.o"       # of the archive's members: the one that is compiled from what is proved


def output_of(*command):
    return subprocess.run(command, capture_output=True, text=True, check=True).stdout


def stack_table(text):
    """Lines 'HMAC_DRBG draw of 16 bytes: 3584' as a row for each call."""
    depths = {}
    for line in text.splitlines():
        mechanism, call, depth = re.fullmatch(r"(\S+) (.*): (\d+)", line).groups()
        depths.setdefault(call, {})[mechanism] = f"{int(depth):,}"
    rows = [f"| {call} | {' | '.join(by[mechanism] for mechanism in MECHANISMS)} |" for call, by in depths.items()]
    return "\n".join(["| Bytes of stack | " + " | ".join(MECHANISMS) + " |", "|---|---:|---:|", *rows]) + "\n"


def instructions(archive):
    """Of the proved object, by function: each instruction and its place from the function's start. Fillers are none."""
    found, here = {}, None
    for line in output_of("objdump", "-d", "--no-show-raw-insn", archive).splitlines():
        member = re.match(r"(\S+):\s+file format", line)
        function = re.match(r"[0-9a-f]+ <(.*)>:$", line)
        one = re.match(r"\s+([0-9a-f]+):\t(.*)", line)
        if member:
            in_proved = member[1].split("/")[-1] == PROVED
        elif function and in_proved:
            here = found.setdefault(function[1], [])
        elif one and in_proved and not re.match(r"(data16 |cs )*nop|xchg\s+%ax,%ax", one[2]):
            here.append((int(one[1], 16), one[2]))
    return found


def frame(listed):
    """A function's frame: the address to return to, what its beginning pushes, and what it then takes."""
    size = 8
    for _, text in listed:
        taken = re.match(r"sub\s+\$0x([0-9a-f]+),%rsp", text)
        if taken:
            return size + int(taken[1], 16)
        if text.startswith("push"):
            size += 8
    return size


def frames_table(places):
    frames = sorted(((frame(listed), name) for name, listed in places.items()), reverse=True)
    return "\n".join(["| Frame | Function |", "|---:|---|", *(f"| {size:,} | `{name}` |" for size, name in frames)]) + "\n"


def starts(program):
    return {name: int(at, 16) for at, _, name in (line.split(" ", 2) for line in output_of("nm", "--defined-only", program).splitlines())}


def reached(path):
    """All addresses that callgrind tells a cost of."""
    return {int(line.split()[0], 16) for line in open(path) if line.startswith("0x")}


def counts(folder, places):
    """Instructions, and those that no call reached, as (function, place)."""
    at, seen = starts(folder / "secrets"), reached(folder / "reached")
    missed = [(name, place) for name, listed in places.items() for place, _ in listed if at[name] + place not in seen]
    return sum(map(len, places.values())), missed


def main(folder, archive):
    folder = pathlib.Path(folder)
    places = instructions(archive)
    whole, missed = counts(folder, places)
    calls = (folder / "calls").read_text().split()[0]
    by_function = collections.Counter(name for name, _ in missed)
    where = f": {', '.join(f'{count} in `{name}`' for name, count in by_function.most_common())}" if missed else ""
    text = (
        f"{stack_table((folder / 'depths').read_text())}\n"
        f"{frames_table(places)}\n"
        f"The proved part of the archive has {whole:,} instructions; the {calls} calls of `tests/secrets.c`, and its run of the\nlibrary's test of itself, reach all of them"
        f"{f' but {len(missed)}' if missed else ''}{where}.\n")
    print(text, end="")
    page = PAGE.read_text()
    before, after = page.index(BEGINS) + len(BEGINS), page.index(ENDS)
    PAGE.write_text(f"{page[:before]}\n{text}\n{page[after:]}")


if __name__ == "__main__":
    if len(sys.argv) != 3:
        raise SystemExit("usage: stack.py FOLDER ARCHIVE")
    main(*sys.argv[1:])
