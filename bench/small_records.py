"""python3 bench/small_records.py PROGRAM BARE: the program on full books of small records, beside the hashing that they need.

BARE is crates/bench_bare as a shared library. The books have 65,536 bytes, an opening and then draws of 0 to 32 bytes, one
book for each mechanism. A line is a row as those of bench.c, its length the book's records. The two sides take turns and
the least time of each counts, as there. It is processor time, the system's part included, as a run is long enough to be
interrupted by others; from the program's time that of an empty book is taken off, which is what starting a process takes.
"""

import ctypes
import os
import pathlib
import statistics
import subprocess
import sys
import time

sys.path.append(str(pathlib.Path(__file__).resolve().parent.parent / "second"))

from book import record_bytes
from mechanisms import HASH_DRBG, HMAC_DRBG
from records import MOST_BOOK
from rows import Row, row_line
from writer import draw, opening

REPETITIONS = 60
BLOCKS = 256        # of the bare side's text, which stays in the nearest cache
FIRST_HANDLE = 16
MOST = 1.5


def small_records(mechanism):
    book = record_bytes(opening(mechanism=mechanism))
    count = 0
    while True:
        record = record_bytes(draw(FIRST_HANDLE, count % 33))
        if len(book) + len(record) > MOST_BOOK:
            return book
        book += record
        count += 1


def blocks_in(output):
    return sum(int(line.split(b" ")[2]) for line in output.splitlines())


def run_seconds(program, path):
    with open(path, "rb") as book:
        running = subprocess.Popen([program], stdin=book, stdout=subprocess.DEVNULL)
    _, status, used = os.wait4(running.pid, 0)
    running.returncode = os.waitstatus_to_exitcode(status)
    return used.ru_utime + used.ru_stime


def bare_seconds(bare, text, blocks):
    began = time.process_time()
    for _ in range(blocks // BLOCKS):
        bare(text, len(text))
    return (time.process_time() - began) * blocks / (blocks // BLOCKS * BLOCKS)


def row(name, program, bare, book, folder):
    path, empty = folder / "small-records.book", folder / "empty.book"
    path.write_bytes(book)
    empty.write_bytes(b"")
    output = subprocess.run([program], input=book, capture_output=True, check=True).stdout
    blocks = blocks_in(output)
    text = bytes(range(256)) * (64 * BLOCKS // 256)
    runs, starts, bares = [], [], []
    for _ in range(REPETITIONS):
        runs.append(run_seconds(program, path))
        bares.append(bare_seconds(bare, text, blocks))
        starts.append(run_seconds(program, empty))
    own, alone = min(runs) - min(starts), min(bares)
    median = (statistics.median(runs) - statistics.median(starts)) / statistics.median(bares)
    nanoseconds = 1e9 / blocks
    records = len(output.splitlines())
    print(row_line(Row("book", name, records, "its bare compressions", own * nanoseconds, alone * nanoseconds, own / alone, median, MOST)))


def main(program, library):
    bare = ctypes.CDLL(str(pathlib.Path(library).resolve())).purangsa_bare
    bare.argtypes = [ctypes.c_char_p, ctypes.c_size_t]
    bare.restype = ctypes.c_uint32
    folder = pathlib.Path(library).resolve().parent
    for name, mechanism in (("HMAC", HMAC_DRBG), ("Hash", HASH_DRBG)):
        row(name, program, bare, small_records(mechanism), folder)


if __name__ == "__main__":
    if len(sys.argv) != 3:
        raise SystemExit("usage: small_records.py PROGRAM BARE")
    main(*sys.argv[1:])
