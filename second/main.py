"""python3 second/main.py < BOOK: prints the lines for a call book."""

import sys

from records import MOST_BOOK
from run import lines_of


def main():
    # One byte above the limit is enough to know that a book is too long.
    book = sys.stdin.buffer.read(MOST_BOOK + 1)
    for line in lines_of(book):
        print(line)


if __name__ == "__main__":
    main()
