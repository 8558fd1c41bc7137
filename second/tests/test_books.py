"""What the books of the gate must reach, whatever their lines are."""

import unittest

from make_books import books, output_of

REACHED = {0, *range(2, 10), 11, 12, 13}    # 1, 10 and 14 lie beyond a book


def lines(book):
    return output_of(book).decode().splitlines()


def answers(lines):
    return [int(line.split(" ")[1]) for line in lines]


class Books(unittest.TestCase):
    @classmethod
    def setUpClass(cls):
        cls.books = books()

    def test_every_answer_with_nothing_else_wrong(self):
        self.assertEqual(
            answers(lines(self.books["books/answers.book"])),
            [0, 0, 2, 3, 4, 5, 6, 7, 8, 9, 11, 12] + 15 * [0] + [13])

    def test_no_answer_beyond_a_book(self):
        found = set()
        for name, book in self.books.items():
            if not name.startswith("books/spoiled/") and name != "books/too-long.book":
                found.update(answers(lines(book)))
        self.assertEqual(found, REACHED)

    def test_the_order_of_checks(self):
        self.assertEqual(
            answers(lines(self.books["books/order.book"])),
            [0, 0] + 5 * [2] + [7, 8] + [4, 7, 12] + [4, 7, 11]
            + 15 * [0] + [3, 4, 5, 6, 8, 9, 13] + [0])

    def test_the_longest_book_and_one_byte_more(self):
        self.assertNotIn(b"book", output_of(self.books["books/longest-book.book"]))
        self.assertEqual(output_of(self.books["books/too-long.book"]), b"book 0\n")

    def test_spoiled_books_end_the_run(self):
        whole = []
        for name, book in self.books.items():
            if name.startswith("books/spoiled/") and not lines(book)[-1].startswith("book "):
                whole.append(name)
        self.assertEqual(whole, ["books/spoiled/reseed-entropy-of-2-048.book"])
