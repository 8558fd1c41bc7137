"""Counts the passed and failed cases of a check, and gives its status."""

import pathlib


class Tally:
    def __init__(self):
        self.passed = 0
        self.failed = 0

    def note(self, held, name):
        """One case. A failed one is named."""
        if held:
            self.passed += 1
        else:
            self.failed += 1
            print(f"failed: {name}")

    def add(self, other):
        self.passed += other.passed
        self.failed += other.failed

    def line(self):
        return f"{self.passed} passed, {self.failed} failed"

    def status(self):
        """0 only if cases ran and all of them passed."""
        return 0 if self.passed > 0 and self.failed == 0 else 1


def checked(folder, checks):
    """Runs each file's check and prints its counts, the whole last; returns the status.

    A file that is missing or has no case is a failure, so that none is lost unseen.
    """
    whole = Tally()
    for name, check in checks:
        tally = Tally()
        if (folder / name).is_file():
            check(folder / name, tally)
        if tally.passed + tally.failed == 0:
            tally.note(False, f"{name}: no case ran")
        print(f"{name}: {tally.line()}")
        whole.add(tally)
    print(whole.line())
    return whole.status()


def folder_named(arguments, default):
    """The folder named on the command line, or the default."""
    if len(arguments) > 1:
        raise SystemExit("at most one folder can be named")
    return pathlib.Path(arguments[0]) if arguments != [] else default
