"""Reads NIST's response files (.rsp): headings in brackets, then cases of named fields."""

import pathlib
from typing import NamedTuple

PUBLISHED = pathlib.Path(__file__).resolve().parent.parent / "vectors"


class Case(NamedTuple):
    headings: dict      # those of its section; a heading without '=' is kept as "hash"
    fields: list        # pairs of name and value, in the order in which they stand
    line: int           # where the case begins

    def value(self, name):
        """The value of a field that stands once."""
        (value,) = [text for field, text in self.fields if field == name]
        return value

    def string(self, name):
        return bytes.fromhex(self.value(name))


def cases(path):
    """The cases of a file, one by one. An empty line or a heading ends a case."""
    headings = {}
    fields = []
    section_has_cases = False
    for count, line in lines_of_interest(path):
        if (line == "" or line.startswith("[")) and fields != []:
            yield Case(headings, fields, begins)
            fields = []
            section_has_cases = True
        if line.startswith("["):
            if section_has_cases:       # so this heading begins the next section
                headings = {}
                section_has_cases = False
            name, value = heading(path, count, line)
            headings[name] = value
        elif line != "":
            if fields == []:
                begins = count
            fields.append(field(path, count, line))


def lines_of_interest(path):
    """All lines but comments, with their numbers; an empty one at the end ends the last case."""
    count = 0
    with open(path, encoding="ascii") as lines:
        for count, line in enumerate(lines, start=1):
            if not line.startswith("#"):
                yield count, line.strip()
    yield count + 1, ""


def heading(path, count, line):
    """'[SHA-256]' or '[Name = value]'."""
    if not line.endswith("]"):
        raise ValueError(f"{path}: line {count} cannot be read")
    name, equals, value = line[1:-1].partition(" = ")
    return (name, value) if equals != "" else ("hash", name)


def field(path, count, line):
    """'Name = value'. An empty value has lost its space at the end by now."""
    name, equals, value = line.partition(" =")
    if equals == "":
        raise ValueError(f"{path}: line {count} cannot be read")
    return name, value.strip()
