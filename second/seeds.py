"""Comparisons drawn by lot: the seed is printed by them, and repeats a run when it is named."""

import pathlib
import random
import sys


def command(main, named):
    """A script's whole work on what it is named, and a seed, fresh unless it is named too: main(path, seed) gives the status."""
    if len(sys.argv) not in (2, 3):
        raise SystemExit(f"usage: {sys.argv[0]} {named} [SEED]")
    path = pathlib.Path(sys.argv[1])
    if not path.is_file():
        raise SystemExit(f"{sys.argv[0]}: there is no file {path}")
    seed = sys.argv[2] if len(sys.argv) == 3 else str(random.SystemRandom().randrange(10**9))
    sys.exit(main(str(path.resolve()), seed))
