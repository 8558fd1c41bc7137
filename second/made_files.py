"""What is made here and stored: written anew, or compared with what stands there."""

import sys

from tally import Tally


def standing(folder, places):
    """The names of the files that stand at the places: files of the folder, or whole folders in it."""
    found = []
    for place in places:
        path = folder / place
        found += [path] if path.is_file() else [inner for inner in path.rglob("*") if inner.is_file()]
    return [path.relative_to(folder).as_posix() for path in found]


def write(folder, places, files):
    for name in standing(folder, places):
        (folder / name).unlink()
    for name, text in files.items():
        (folder / name).parent.mkdir(parents=True, exist_ok=True)
        (folder / name).write_bytes(text)
    return 0


def check(folder, places, files):
    tally = Tally()
    for name, text in files.items():
        path = folder / name
        tally.note(path.is_file() and path.read_bytes() == text, f"{path} is not as made")
    for name in standing(folder, places):
        if name not in files:
            tally.note(False, f"{folder / name} is not made here")
    print(tally.line())
    return tally.status()


def command(folder, places, made):
    """A script's whole work: no argument writes, --check compares. made() gives the files by their names."""
    work = {(): write, ("--check",): check}.get(tuple(sys.argv[1:]))
    if work is None:
        raise SystemExit(f"usage: {sys.argv[0]} [--check]")
    sys.exit(work(folder, places, made()))
