"""The rows that the bench's programs give, one to a line with tabs between: see bench.c."""

from typing import NamedTuple

# In the order of the table and of the picture
BESIDE = ("its bare compressions", "portable C", "mbedTLS", "OpenSSL without SHA extensions", "OpenSSL")
MECHANISMS = ("HMAC", "Hash")
LIBRARY = "library"
WIPE = "wipe"
MEMSET = "memset of as many bytes"      # which the wipe stands beside


class Row(NamedTuple):
    of: str             # the library, the draw by itself, one compression, one in lanes, the wipe, a book's block
    mechanism: str      # empty for the compressions and the wipe
    length: int         # of a draw or the wipe in bytes, of a book in records; 0 for a compression
    beside: str
    ours: float         # nanoseconds, the least
    theirs: float
    ratio: float
    median: float       # the ratio of the medians
    most: float         # that is promised; 0: nothing

    def met(self):
        return self.most == 0 or self.ratio <= self.most


def row_line(row):
    of, mechanism, length, beside, ours, theirs, ratio, median, most = row
    return f"{of}\t{mechanism}\t{length or ''}\t{beside}\t{ours:.1f}\t{theirs:.1f}\t{ratio:.3f}\t{median:.3f}\t{most:.2f}"


def rows_in(path):
    rows = []
    for line in open(path):
        of, mechanism, length, beside, *figures = line.rstrip("\n").split("\t")
        rows.append(Row(of, mechanism, int(length or 0), beside, *map(float, figures)))
    return rows
