"""Books drawn by lot: calls of all kinds, on both sides of the limits, some of them spoiled."""

from answers import SERVED
from book import number_bytes
from records import CLOSE, MOST_BOOK, OPEN
from writer import Writer, close, draw, fresh_draw, inquire, opening, reseed

MECHANISMS = (1, 1, 1, 2, 2, 2, 1, 2, 0, 3)
STRENGTHS = (0, 1, 112, 113, 128, 129, 192, 193, 256, 256, 257, 2**64 - 1)
ASKED = (0, 0, 0, 0, 0, 0, 0, 0, 112, 113, 128, 129, 192, 193, 256, 257)
INTERVALS = (1, 1, 2, 2, 3, 5, 2**48 - 1, 2**48, 0, 2**48 + 1)
ENTROPY = (13, 14, 15, 16, 23, 24, 31, 32, 32, 32, 33, 48, 64, 100, 1024, 1025)
NONCE = (6, 7, 8, 9, 11, 12, 13, 15, 16, 16, 17, 32, 63, 64, 65)
PERSONALIZATION = (0, 0, 0, 1, 23, 64, 511, 512, 513)
ADDITIONAL = (0, 0, 0, 1, 22, 23, 63, 64, 87, 1023, 1024, 1025)
LENGTHS = (0, 1, 16, 31, 32, 33, 64, 65, 100, 127, 128, 129, 160, 256, 257)
STRANGE_HANDLES = (0, 1, 15, 16, 17, 2**32 + 16, 2**36, 2**64 - 1)


class Lot:
    """Draws a book's calls from a source of random numbers."""

    def __init__(self, source):
        self.source = source
        self.writer = Writer()
        self.live = []
        self.closed = []
        self.openings = source.choice((5, 5, 30))   # beside 23 other calls; 30 of them fill the table

    def string(self, counts):
        """Mostly of a length at an edge."""
        count = self.source.choice(counts)
        if self.source.random() < 0.2:
            count = self.source.randint(0, count)
        return self.source.randbytes(count)

    def handle(self):
        """Mostly a live one, and of those often a late one; else a closed or a strange one."""
        lot = self.source.random()
        if self.live != [] and lot < 0.8:
            return self.source.choice(self.live[-self.source.choice((2, 16)):])
        if self.closed != [] and lot < 0.9:
            return self.source.choice(self.closed)
        return self.source.choice(STRANGE_HANDLES)

    def length(self):
        if self.source.random() < 0.002:
            return self.source.choice((65535, 65536))
        return self.source.choice(LENGTHS)

    def opening(self):
        """Half of them with settings that are all served, as one refused setting is enough."""
        choice = self.source.choice
        if self.source.random() < 0.5:
            return opening(
                choice((1, 2)), choice(ASKED[:-1]), choice((1, 2, 3, 9)), choice((0, 1, 1)),
                self.source.randbytes(32), self.source.randbytes(16))
        return opening(
            choice(MECHANISMS), choice(STRENGTHS), choice(INTERVALS), choice((0, 1)),
            self.string(ENTROPY), self.string(NONCE), self.string(PERSONALIZATION))

    def record(self):
        (kind,) = self.source.choices(
            (self.opening, reseed, draw, fresh_draw, close, inquire), (self.openings, 4, 9, 5, 2, 3))
        if kind == self.opening:
            return self.opening()
        handle = self.handle()
        if kind == reseed:
            return reseed(handle, self.string(ENTROPY), self.string(ADDITIONAL))
        if kind in (close, inquire):
            return kind(handle)
        asked, length = self.source.choice(ASKED), self.length()
        if kind == draw:
            return draw(handle, length, asked, self.string(ADDITIONAL))
        return fresh_draw(handle, length, asked, self.string(ENTROPY), self.string(ADDITIONAL))

    def good_book(self):
        for _ in range(self.source.choice((1, 5, 20, 40, 80))):
            record = self.record()
            answer = self.writer.call(record)
            if answer.number == SERVED and record.kind == OPEN:
                self.live.append(answer.value)
            if answer.number == SERVED and record.kind == CLOSE:
                self.live.remove(record.fields["handle"])
                self.closed.append(record.fields["handle"])
        return self.writer.book


# Ways of spoiling; some leave a book that is good, but another one

def cut(source, book, place):
    return book[:place]


def byte_changed(source, book, place):
    return book[:place] + source.randbytes(1) + book[place + 1:]


def bit_changed(source, book, place):
    return book[:place] + bytes([book[place] ^ 1 << source.randrange(8)]) + book[place + 1:]


def byte_lost(source, book, place):
    return book[:place] + book[place + 1:]


def number_added(source, book, place):
    value = source.choice((0, 1, 2, 2048, 2049, 65536, 65537, 2**64 - 1, 2**64))
    return book[:place] + number_bytes(value) + book[place:]


def group_added(source, book, place):
    """A needless one, if a number ends here."""
    return book[:place] + bytes([book[place] | 0x80, 0]) + book[place + 1:]


def ended_by_noise(source, book, place):
    return book[:place] + source.randbytes(source.choice((1, 12, 300)))


SPOILINGS = (cut, byte_changed, bit_changed, byte_lost, number_added, group_added, ended_by_noise)


def random_book(source):
    book = Lot(source).good_book()
    if source.random() < 0.4:
        book = source.choice(SPOILINGS)(source, book, source.randrange(len(book)))
    return book[:MOST_BOOK + 1]
