"""Writes books call by call, each on the second program's table, so that handles are known."""

from book import record_bytes
from mechanisms import HMAC_DRBG
from records import CLOSE, DRAW, FRESH_DRAW, INQUIRE, OPEN, RESEED, Record
from run import performed
from table import FRESH_TABLE, LONGEST_INTERVAL


def filler(length, salt=0):
    """Bytes that differ from their neighbours and, by the salt, from other strings."""
    return bytes((salt + 7 * place) % 251 for place in range(length))


ENTROPY = filler(32, 3)
NONCE = filler(16, 5)     # serves at every strength


def opening(mechanism=HMAC_DRBG, strength=128, interval=LONGEST_INTERVAL, fresh=1,
            entropy=ENTROPY, nonce=NONCE, personalization=b""):
    return Record(OPEN, {
        "mechanism": mechanism, "strength": strength, "interval": interval, "fresh": fresh,
        "entropy": entropy, "nonce": nonce, "personalization": personalization})


def reseed(handle, entropy=ENTROPY, additional=b""):
    return Record(RESEED, {"handle": handle, "entropy": entropy, "additional": additional})


def draw(handle, length=0, strength=0, additional=b""):
    return Record(DRAW, {
        "handle": handle, "strength": strength, "length": length, "additional": additional})


def fresh_draw(handle, length=0, strength=0, entropy=ENTROPY, additional=b""):
    return Record(FRESH_DRAW, {
        "handle": handle, "strength": strength, "length": length, "entropy": entropy,
        "additional": additional})


def close(handle):
    return Record(CLOSE, {"handle": handle})


def inquire(handle):
    return Record(INQUIRE, {"handle": handle})


class Writer:
    """A book as far as it is written, and the table that its calls have led to."""

    def __init__(self):
        self.book = b""
        self.table = FRESH_TABLE

    def call(self, record):
        self.book += record_bytes(record)
        answer = performed(self.table, record)
        self.table = answer.table
        return answer

    def calls(self, *records):
        for record in records:
            self.call(record)

    def opened(self, **settings):
        """The handle of a generator that is opened with these settings."""
        answer = self.call(opening(**settings))
        assert answer.number == 0
        return answer.value

    def tried(self, **settings):
        """An opening on either side of a limit. A served one is closed, so that no slot runs out."""
        answer = self.call(opening(**settings))
        if answer.number == 0:
            self.call(close(answer.value))
