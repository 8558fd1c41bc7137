"""python3 second/test.py: runs the tests of the second program, all in tests/."""

import pathlib
import sys
import unittest

if __name__ == "__main__":
    folder = pathlib.Path(__file__).resolve().parent / "tests"
    found = unittest.defaultTestLoader.discover(str(folder))
    result = unittest.TextTestRunner().run(found)
    sys.exit(0 if result.wasSuccessful() and result.testsRun > 0 else 1)
