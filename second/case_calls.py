"""A published case by the calls, on a fresh table."""

from answers import SERVED
from calls import draw_call, fresh_draw_call, open_call, reseed_call
from records import DRAW, FRESH_DRAW, RESEED
from table import FRESH_TABLE


class Refused(Exception):
    """A call of the case was not served."""


def steps_of(fields):
    """What a case does after its opening, in order, as (kind, entropy, additional), of pairs of name and bytes."""
    steps = []
    for name, text in fields:
        if name == "EntropyInputReseed":
            reseed_entropy = text
        elif name == "AdditionalInputReseed":
            steps.append((RESEED, reseed_entropy, text))
        elif name == "AdditionalInput":
            steps.append((DRAW, b"", text))
        elif name == "EntropyInputPR":      # makes the draw before it a fresh one
            _, _, additional = steps.pop()
            steps.append((FRESH_DRAW, text, additional))
        else:
            raise ValueError(f"an unknown field {name}")
    return steps


def draws(opening, steps, strength, length):
    """Every draw's bytes. The opening is what open_call takes behind the table."""
    answer = served(open_call(FRESH_TABLE, *opening))
    handle = answer.value
    lent = bytes(length)
    drawn = []
    for kind, entropy, additional in steps:
        table = answer.table
        if kind == RESEED:
            answer = served(reseed_call(table, handle, entropy, additional))
        elif kind == DRAW:
            answer = served(draw_call(table, handle, strength, lent, additional))
            drawn.append(answer.output)
        else:
            answer = served(fresh_draw_call(table, handle, strength, lent, entropy, additional))
            drawn.append(answer.output)
    return drawn


def served(answer):
    if answer.number != SERVED:
        raise Refused
    return answer
