"""What the program `test_files` is run on: the stored books and NIST's messages, in folders of data/;
args, the names of all; and stdout, what must be printed for each.

A folder has its own maker. Both write the same args and stdout, so that neither writes over
the other's part.
"""

import pathlib

import made_files
import make_books
import make_hashes

CRATE = pathlib.Path(__file__).resolve().parent.parent / "crates" / "test_files"


def made(folder):
    """The crate's files for its run, by their names: those of a folder, and args and stdout."""
    runs = {**make_books.runs(), **make_hashes.runs()}
    return {
        **{f"data/{name}": file for name, (file, _) in runs.items() if name.startswith(f"{folder}/")},
        "args": "".join(f"{name}\n" for name in runs).encode(),
        "stdout": b"".join(printed for _, printed in runs.values()),
    }


def command(folder):
    """A maker's whole work."""
    made_files.command(CRATE, [f"data/{folder}", "args", "stdout"], lambda: made(folder))
