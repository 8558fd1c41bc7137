"""Runs a call book: each record is a call on the table, each answer a line."""

from answers import SERVED
from book import Reader
from calls import close_call, draw_call, fresh_draw_call, inquire_call, open_call, reseed_call
from records import CLOSE, DRAW, FRESH_DRAW, INQUIRE, MOST_BOOK, OPEN, RESEED, BadRecord
from table import FRESH_TABLE


def performed(table, record, lent=None):
    """The answer to the record's call. A draw is lent this output, or as many zero bytes as it asks for."""
    kind, field = record
    if lent is None:
        lent = bytes(field.get("length", 0))
    if kind == OPEN:
        return open_call(
            table, field["mechanism"], field["strength"], field["interval"], field["fresh"] != 0,
            field["entropy"], field["nonce"], field["personalization"])
    if kind == RESEED:
        return reseed_call(table, field["handle"], field["entropy"], field["additional"])
    if kind == DRAW:
        return draw_call(
            table, field["handle"], field["strength"], lent, field["additional"])
    if kind == FRESH_DRAW:
        return fresh_draw_call(
            table, field["handle"], field["strength"], lent, field["entropy"], field["additional"])
    if kind == CLOSE:
        return close_call(table, field["handle"])
    assert kind == INQUIRE
    return inquire_call(table, field["handle"])


def value_shown(kind, answer):
    """Decimal for a served open or inquire, hex for bytes drawn, otherwise '-'."""
    if answer.number == SERVED:
        if kind in (OPEN, INQUIRE):
            return str(answer.value)
        if kind in (DRAW, FRESH_DRAW) and answer.output != b"":
            return answer.output.hex()
    return "-"


def line_of(kind, answer):
    return f"{kind} {answer.number} {answer.blocks} {value_shown(kind, answer)}"


def lines_of(book):
    """The output, line by line. A record that cannot be read ends the run."""
    if len(book) > MOST_BOOK:
        yield "book 0"
        return
    table = FRESH_TABLE
    reader = Reader(book)
    while not reader.at_end():
        first = reader.place
        try:
            record = reader.record()
        except BadRecord:
            yield f"book {first}"
            return
        answer = performed(table, record)
        table = answer.table
        yield line_of(record.kind, answer)
