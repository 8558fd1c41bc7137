"""python3 bench/report.py ROWS WORDS: prints the bench's rows as a table, WORDS below it (the machine and its load), and writes
both into docs/BENCH.md, between its two marks, and the picture docs/bench.svg."""

import pathlib
import sys

from picture import picture
from rows import BESIDE, LIBRARY, MECHANISMS, MEMSET, WIPE, rows_in

DOCS = pathlib.Path(__file__).resolve().parent.parent / "docs"
BEGINS = "<!-- bench/run writes what stands from here -->\n"
ENDS = "<!-- to here -->\n"
PARTS = (LIBRARY, "draw by itself", "compression", "lanes", WIPE, "book")
HEAD = ("Nanoseconds for one", "beside", "ours", "theirs", "ratio", "median", "most")


def place(row):
    """By part, mechanism, length, and what it stands beside."""
    mechanism = MECHANISMS.index(row.mechanism) if row.mechanism else 0
    return PARTS.index(row.of), mechanism, row.length, (*BESIDE, MEMSET).index(row.beside.split(",")[0]), row.beside


def name_of(row):
    if row.of == "compression":
        return "compression"
    if row.of == "lanes":
        return "compression, four at a time in lanes"
    if row.of == WIPE:
        return f"wipe of {row.length:,} bytes, and the registers"
    if row.of == "book":
        return f"block of a book of {row.length:,} records, {row.mechanism}_DRBG"
    words = f"{row.mechanism}_DRBG draw of {row.length:,} bytes"
    return words if row.of == LIBRARY else f"{words}, by itself"


def nanoseconds(figure):
    return f"{figure:,.1f}" if figure < 1000 else f"{figure:,.0f}"


def cells(row):
    ratio = f"{row.ratio:.3f}" if row.met() else f"**{row.ratio:.3f}**"
    most = f"{row.most:.2f}" if row.most else ""
    return (name_of(row), row.beside, nanoseconds(row.ours), nanoseconds(row.theirs), ratio, f"{row.median:.3f}", most)


def table(rows):
    lines = [HEAD] + [cells(row) for row in sorted(rows, key=place)]
    widths = [max(len(line[at]) for line in lines) for at in range(len(HEAD))]
    texts = [
        "| " + " | ".join(cell.ljust(width) if at < 2 else cell.rjust(width) for at, (cell, width) in enumerate(zip(line, widths))) + " |"
        for line in lines]
    rule = "|" + "|".join("-" * (width + 2) if at < 2 else "-" * (width + 1) + ":" for at, width in enumerate(widths)) + "|"
    return "\n".join([texts[0], rule] + texts[1:]) + "\n"


def verdict(rows):
    promised = [row for row in rows if row.most]
    missed = [row for row in promised if not row.met()]
    return f"{len(promised) - len(missed)} of {len(promised)} promises met" + (", the others in bold" if missed else "") + "."


def main(path, words):
    rows = rows_in(path)
    text = f"{table(rows)}\n{words} {verdict(rows)}\n"
    print(text, end="")
    page = (DOCS / "BENCH.md").read_text()
    before, after = page.index(BEGINS) + len(BEGINS), page.index(ENDS)
    (DOCS / "BENCH.md").write_text(f"{page[:before]}\n{text}\n{page[after:]}")
    (DOCS / "bench.svg").write_text(picture(rows))


if __name__ == "__main__":
    if len(sys.argv) != 3:
        raise SystemExit("usage: report.py ROWS WORDS")
    main(*sys.argv[1:])
