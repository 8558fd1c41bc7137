"""The call book as bytes: reading its records, and writing them."""

from records import FIELDS, NUMBER, STRING, BadRecord, Record, check_limit


class Reader:
    """Reads a book from its first byte on; place is the next byte to read."""

    def __init__(self, book):
        self.book = book
        self.place = 0

    def at_end(self):
        return self.place == len(self.book)

    def taken(self, count):
        if count > len(self.book) - self.place:
            raise BadRecord("a record cut short")
        start = self.place
        self.place += count
        return self.book[start:self.place]

    def number(self):
        """Groups of seven bits, lowest first; the top bit is set when another follows."""
        value = 0
        shift = 0
        while True:
            byte = self.taken(1)[0]
            value += (byte & 0x7F) << shift
            check_limit(NUMBER, value)
            if byte & 0x80 == 0:
                break
            shift += 7
        if byte == 0 and shift > 0:     # the last group adds nothing
            raise BadRecord("a number not in its shortest form")
        return value

    def field(self, holds):
        """A number; of a string it is the length, and the bytes follow."""
        amount = self.number()
        check_limit(holds, amount)
        return self.taken(amount) if holds == STRING else amount

    def record(self):
        """The kind first, then the fields of that kind."""
        kind = self.number()
        if kind not in FIELDS:
            raise BadRecord("an unknown kind")
        return Record(kind, {name: self.field(holds) for name, holds in FIELDS[kind]})


def number_bytes(value):
    """The shortest form."""
    groups = bytearray()
    while value > 0x7F:
        groups.append(0x80 | value & 0x7F)
        value >>= 7
    groups.append(value)
    return bytes(groups)


def field_bytes(holds, value):
    if holds == STRING:
        return number_bytes(len(value)) + value
    return number_bytes(value)


def record_bytes(record):
    text = number_bytes(record.kind)
    for name, holds in FIELDS[record.kind]:
        text += field_bytes(holds, record.fields[name])
    return text
