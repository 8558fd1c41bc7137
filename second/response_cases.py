"""The cases of a response file: which line may stand where, and what a case says in the end."""

from dataclasses import dataclass, field

from response_lines import Count, Field, Hash, Length, Nothing, Resistance, Unread, lines_of, said

ROOM = 65536        # for a case's fields, as they are kept
MORE = 3            # bytes that a field takes beyond those it holds

STEP_ENDS = ("PersonalizationString", "AdditionalInput", "AdditionalInputReseed", "EntropyInputPR")
# Each field, and behind which lines it may stand
BEHIND = {
    "EntropyInput": ("COUNT",),
    "Nonce": ("EntropyInput",),
    "PersonalizationString": ("Nonce",),
    "AdditionalInput": STEP_ENDS,
    "EntropyInputReseed": STEP_ENDS,
    "AdditionalInputReseed": ("EntropyInputReseed",),
    "EntropyInputPR": ("AdditionalInput",),
    "ReturnedBits": ("AdditionalInput", "EntropyInputPR"),
}
# Each field, and the heading that says its length
LENGTH_OF = {
    "EntropyInput": "EntropyInputLen",
    "EntropyInputReseed": "EntropyInputLen",
    "EntropyInputPR": "EntropyInputLen",
    "Nonce": "NonceLen",
    "PersonalizationString": "PersonalizationStringLen",
    "AdditionalInput": "AdditionalInputLen",
    "AdditionalInputReseed": "AdditionalInputLen",
    "ReturnedBits": "ReturnedBitsLen",
}
LAST = "ReturnedBits"


class UnreadLine(Exception):
    """The run ends at this line, counted from 1."""

    def __init__(self, line):
        super().__init__(line)
        self.line = line


@dataclass
class Case:
    count: int
    ours: bool              # under SHA-256, so that it is run
    resists: bool           # prediction resistance, by its heading
    fields: list = field(default_factory=list)      # pairs of name and bytes, in file order

    def last(self):
        """The name of the line behind which the next one stands."""
        return self.fields[-1][0] if self.fields != [] else "COUNT"

    def takes(self):
        return sum(len(value) + MORE for _, value in self.fields)


class Reader:
    """What a file's lines so far have said."""

    def __init__(self):
        self.ours = None        # no hash heading yet
        self.resists = False
        self.lengths = {}
        self.case = None        # not inside a case

    def read(self, what):
        """Takes what the next line says. Gives the case that it ends, if it ends one."""
        if isinstance(what, Nothing):
            return None
        if isinstance(what, Field):
            return self.read_field(what)
        if self.case is not None:
            raise Unread
        if isinstance(what, Count):
            self.begin(what)
        elif isinstance(what, Hash):
            self.ours, self.resists, self.lengths = what.ours, False, {}
        elif isinstance(what, Resistance):
            self.resists = what.asked
        else:
            assert isinstance(what, Length)
            self.lengths[what.name] = what.bits
        return None

    def begin(self, count):
        if self.ours is None:
            raise Unread
        self.case = Case(count.number, self.ours, self.resists)

    def read_field(self, what):
        case = self.case
        if case is None:
            raise Unread
        if case.ours:
            self.check(what)
            case.fields.append((what.name, what.value))
        if what.name != LAST:
            return None
        self.case = None
        return case

    def check(self, what):
        """The published order, the length that its heading says, and the room."""
        bits = 8 * len(what.value)
        if (
                self.case.last() not in BEHIND[what.name]
                or self.lengths.get(LENGTH_OF[what.name], bits) != bits
                or self.case.takes() + len(what.value) + MORE > ROOM):
            raise Unread


def cases_in(text):
    """A file's cases, each when its last line is read. UnreadLine names the first line that can't be read."""
    reader = Reader()
    lines = lines_of(text)
    for number, line in enumerate(lines, start=1):
        try:
            case = reader.read(said(line))
        except Unread:
            raise UnreadLine(number) from None
        if case is not None:
            yield case
    if reader.case is not None:
        raise UnreadLine(len(lines) + 1)
