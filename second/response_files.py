"""Small response files, cut from the published ones, and every way of spoiling one.

All of them are pairs of name and bytes. The lines are those of one case of each shape: draws only
(A A), a reseed before them (R A A) or between them (A R A), and fresh draws (P P).
"""

import functools

from case_calls import Refused, draws, steps_of
from check_drbg import OPENING
from mechanisms import HASH_DRBG, HMAC_DRBG
from response_cases import MORE, ROOM
from response_lines import FIELDS, LENGTHS, MOST_CHARACTERS
from table import LONGEST_INTERVAL
from vectors import PUBLISHED, cases

NAMES = {HMAC_DRBG: "HMAC", HASH_DRBG: "Hash"}
LF, CR_LF = b"\n", b"\r\n"
# Behind what is spoiled: it is printed only if the run goes on
AFTER = [b"", b"[SHA-1]", b"", b"COUNT = 9", b"ReturnedBits ="]
MOST_NUMBER = 2**64 - 1
FILLER = bytes(range(256)) * 8


def text_of(lines, end=CR_LF):
    return b"".join(line + end for line in lines)


def field_line(name, value):
    return b"%s = %s" % (name.encode(), value.hex().encode())


# Cases of every shape

@functools.cache
def published(mechanism, folder):
    """The first case under SHA-256 none of whose strings is empty: its headings, and its fields."""
    for case in cases(PUBLISHED / "drbg" / folder / f"{NAMES[mechanism]}_DRBG.rsp"):
        if case.headings["hash"] == "SHA-256" and "0" not in case.headings.values():
            headings = [b"[SHA-256]"] + [
                f"[{name} = {value}]".encode() for name, value in case.headings.items() if name != "hash"]
            return headings, [(name, bytes.fromhex(value)) for name, value in case.fields if name != "COUNT"]
    raise ValueError(f"{folder} has no such case")


def returned(mechanism, fields, length, resists=False):
    """What the last draw of these fields gives, as their last field."""
    opening = (mechanism, 0, LONGEST_INTERVAL, resists, *(value for _, value in fields[:len(OPENING)]))
    return "ReturnedBits", draws(opening, steps_of(fields[len(OPENING):]), 0, length)[-1]


def reseed_between(mechanism, fields):
    """The case with its reseed behind the first draw, as CAVS 7.1 has it."""
    opening, (entropy, additional, first, second, last) = fields[:len(OPENING)], fields[len(OPENING):]
    moved = [*opening, first, entropy, additional, second]
    return moved + [returned(mechanism, moved, len(last[1]))]


@functools.cache
def shapes(mechanism):
    """From a shape's name to the headings and the lines of a case."""
    no_reseed, reseeded, fresh = (published(mechanism, folder) for folder in ("no_reseed", "pr_false", "pr_true"))
    between = reseeded[0], reseed_between(mechanism, reseeded[1])
    return {
        name: (headings, [b"COUNT = 7"] + [field_line(*field) for field in fields])
        for name, (headings, fields) in (("A A", no_reseed), ("R A A", reseeded), ("A R A", between), ("P P", fresh))}


def good(mechanism):
    """Every shape by itself and all together, with all ends of lines."""
    every = [b"# a remark", b""]
    for name, (headings, case) in shapes(mechanism).items():
        lines = headings + [b""] + case + AFTER
        every += headings + [b""] + case + [b""] + case + [b""]
        yield name, text_of(lines)
        yield f"{name}, LF", text_of(lines, LF)
        yield f"{name}, no end at the last line", text_of(lines)[:-2]
        yield f"{name}, a CR at the last line", text_of(lines)[:-1]
        yield f"{name}, no headings but the hash", text_of([b"[SHA-256]"] + case)
        yield f"{name}, as CAVS 7.1, without ReturnedBitsLen", text_of(headings[:-1] + case)
        yield f"{name}, prediction resistance turned", text_of([turned(line) for line in lines])
        yield f"{name}, under another hash", text_of([b"[SHA-512/256]"] + headings[1:] + case)
        yield f"{name}, digits in upper case", text_of(headings + [upper_digits(line) for line in case])
    every += AFTER
    yield "every shape", text_of(every)
    yield "every shape, LF and CR LF in turn", b"".join(line + (LF, CR_LF)[at % 2] for at, line in enumerate(every))
    yield "every shape, remarks and empty lines between all", text_of(
        [line for each in every for line in (b"", each, b"# " + each)])


def turned(line):
    if line.startswith(b"[PredictionResistance"):
        return line.replace(b"True", b"?").replace(b"False", b"True").replace(b"?", b"False")
    return line


def upper_digits(line):
    name, equals, value = line.partition(b"=")
    return name + equals + value.upper()


# One line of a file spoiled

def cuts(line):
    """The line's beginnings at the places that matter."""
    equals = line.find(b"=")
    places = {0, 1, len(line) // 2, len(line) - 3, len(line) - 2, len(line) - 1, equals - 1, equals, equals + 1, equals + 2}
    for place in sorted(place for place in places if 0 <= place < len(line)):
        yield f"cut after {place}", [line[:place]]


def signs(line):
    """A character changed, put in or taken out."""
    half = len(line) // 2
    for sign in (b"0", b"g", b" ", b"=", b"\r", b"\xff"):
        for place in (0, half, len(line) - 1):
            yield f"{sign!r} at {place}", [line[:place] + sign + line[place + 1:]]
    for sign in (b"/", b"9", b":", b"@", b"A", b"F", b"G", b"`", b"a", b"f", b"\t", b"\0"):
        yield f"{sign!r} the last", [line[:-1] + sign]
    for sign in (b" ", b"\r", b"0", b"00", b"]"):
        yield f"{sign!r} at the end", [line + sign]
    yield "a space before", [b" " + line]
    yield "two spaces before the sign", [line.replace(b" =", b"  =")]
    yield "two spaces behind the sign", [line.replace(b"= ", b"=  ")]
    yield "no space before the sign", [line.replace(b" =", b"=")]
    yield "no space behind the sign", [line.replace(b"= ", b"=")]
    yield "a byte less in the middle", [line[:half] + line[half + 2:]]
    yield "in brackets", [b"[" + line + b"]"]
    yield "without brackets", [line.strip(b"[]")]
    yield "in upper case", [line.upper()]
    yield "in lower case", [line.lower()]


def values(line):
    """Other values behind the sign: numbers, and strings of other lengths."""
    before, _, behind = line.partition(b" = ")
    close = b"]" if behind.endswith(b"]") else b""
    for value in (b"", b"0", b"1", b"00", b"8", b"+1", b"%d" % MOST_NUMBER, b"%d" % (MOST_NUMBER + 1), b"0" * 30 + b"128", b"1" * 40,
                  b"True", b"False", b"true", b"True "):
        yield f"the value {value.decode()}", [before + b" = " + value + close]
    number = behind.removesuffix(b"]")
    if close and number.isdigit():
        for off in (-8, -1, 1, 8):
            yield f"the value {off} off", [before + b" = %d]" % (int(number) + off)]


def names(line):
    """Another name before the value: every field in every place, so every order."""
    _, _, value = line.partition(b" = ")
    for name in (*FIELDS, "COUNT"):
        yield f"as {name}", [name.encode() + b" = " + value]
    for name in (*LENGTHS, "PredictionResistance"):
        yield f"as {name}", [b"[" + name.encode() + b" = " + value.removesuffix(b"]") + b"]"]


def lines_more(line):
    """Something before it."""
    yield "doubled", [line, line]
    for more in (b"", b"#", b"[SHA-256]", b"[SHA-1]", b"[]", b"[PredictionResistance = True]", b"[NonceLen = 8]", b"COUNT = 1", b"x"):
        yield f"{more.decode()} before it", [more, line]
    for name in FIELDS:
        yield f"an empty {name} before it", [name.encode() + b" = ", line]


def spoiled_lines(mechanism, names_of_shapes):
    """Each line of a case and its headings, spoiled in each way."""
    for shape, (headings, case) in shapes(mechanism).items():
        if shape not in names_of_shapes:
            continue
        lines = headings + [b""] + case
        for at, line in enumerate(lines):
            name = f"{shape}, line {at + 1}"
            before, behind = lines[:at], lines[at + 1:]
            for part in (cuts, signs, values, names, lines_more) if line != b"" else (lines_more,):
                for words, instead in part(line):
                    yield f"{name}, {words}", text_of(before + instead + behind + AFTER)
            yield f"{name} removed", text_of(before + behind + AFTER)
            if behind != []:
                yield f"{name} exchanged with the next", text_of(before + [behind[0], line] + behind[1:] + AFTER)
            for words, end in (("LF", LF), ("no end", b""), ("CR", b"\r"), ("LF CR", b"\n\r")):
                yield f"{name} with {words}", text_of(before) + line + end + text_of(behind + AFTER)
                yield f"{name} the last, with {words}", text_of(before) + line + end


def orders(mechanism):
    """Every field behind every line of a case that has all fields, with no heading that says a length."""
    _, fresh = published(mechanism, "pr_true")
    _, reseeded = published(mechanism, "pr_false")
    opening, steps = fresh[:len(OPENING)], reseeded[len(OPENING):-1] + fresh[len(OPENING):-1]
    fields = opening + steps + [returned(mechanism, opening + steps, 16, resists=True)]
    lines = [b"[SHA-256]", b"[PredictionResistance = True]", b"COUNT = 7"] + [field_line(*field) for field in fields]
    yield "all fields", text_of(lines + AFTER)
    for at in range(3, len(lines) + 1):
        for name in FIELDS:
            for value in (b"", bytes(16)):
                more = field_line(name, value)
                yield f"{name} of {len(value)} behind line {at}", text_of(lines[:at] + [more] + lines[at:] + AFTER)
            yield f"{name} behind line {at}, nothing behind it", text_of(lines[:at] + [more])


# Headings of more than one group

def groups(mechanism):
    """What a hash heading clears, and what it does not end."""
    for shape, (headings, case) in shapes(mechanism).items():
        yield f"{shape}, its headings twice", text_of(headings + headings + case)
        yield f"{shape}, its headings without a hash", text_of(headings[1:] + case)
        yield f"{shape}, its headings before the hash", text_of(headings[1:] + headings[:1] + case)
        yield f"{shape}, resistance before the hash", text_of([b"[SHA-1]", headings[1], b"[SHA-256]"] + case)
        for name in LENGTHS:
            other = f"[{name} = 8]".encode()
            yield f"{shape}, {name} of another before the hash", text_of([other, b"[SHA-256]", other] + headings + case)
            yield f"{shape}, {name} of another before a bare hash", text_of([b"[SHA-256]", other, b"[SHA-256]", headings[1]] + case)
            yield f"{shape}, {name} of another behind the hash", text_of([b"[SHA-256]", other, *headings[1:]] + case)
            yield f"{shape}, {name} of another at the end", text_of(headings + [other] + case)
            yield f"{shape}, {name} of another between cases", text_of(headings + case + [other] + case)
        yield f"{shape}, resistance between cases", text_of(headings + case + [turned(headings[1])] + case + [headings[1]] + case)
        yield f"{shape}, another hash between", text_of(headings + case + [b"[SHA-224]"] + case + headings + case)
        yield f"{shape}, a bare hash between", text_of(headings + case + [b"[SHA-256]"] + case)
        yield f"{shape}, counts", text_of(headings + [
            line for count in (b"0", b"00", b"0012", b"%d" % MOST_NUMBER, b"5", b"5") for line in [b"COUNT = " + count] + case[1:]])


# Strings at the calls' limits

def strings(mechanism):
    """Each string as short and as long as its call serves, and a byte beyond; the returned bits of many lengths."""
    lengths = {
        "EntropyInput": (0, 13, 14, 15, 1023, 1024, 1025), "Nonce": (0, 6, 7, 8, 63, 64, 65),
        "PersonalizationString": (0, 511, 512, 513), "AdditionalInput": (0, 1023, 1024, 1025, 2039),
        "EntropyInputReseed": (0, 13, 14, 1024, 1025), "AdditionalInputReseed": (0, 1023, 1024, 1025),
        "EntropyInputPR": (0, 13, 14, 1024, 1025)}
    least = [("EntropyInput", bytes(range(14))), ("Nonce", bytes(range(7))), ("PersonalizationString", b"")]
    steps = [("AdditionalInput", b""), ("EntropyInputReseed", bytes(range(14))), ("AdditionalInputReseed", b""),
             ("AdditionalInput", b""), ("EntropyInputPR", bytes(range(1, 15)))]
    for changed, every in lengths.items():
        for length in every:
            fields = [(name, FILLER[:length] if name == changed else value) for name, value in least + steps]
            yield f"{changed} of {length}", case_text(mechanism, fields, 16)
    for length in (0, 1, 15, 16, 31, 32, 33, 63, 64, 65, 255, 256, 2039, 2040):
        yield f"{length} returned bytes", case_text(mechanism, least + steps, length)


def case_text(mechanism, fields, length):
    """The case with the bits that it returns; where a call is refused, with zeros."""
    try:
        last = returned(mechanism, fields, length, resists=True)
    except Refused:
        last = "ReturnedBits", bytes(length)
    return text_of(
        [b"[SHA-256]", b"[PredictionResistance = True]", b"COUNT = 7"] + [field_line(*field) for field in fields + [last]] + AFTER)


# Lines at the most characters

def filled_line(line, count):
    """The line with so many characters: digits, or a remark's or a hash's."""
    more = count - len(line)
    if line.endswith(b"]"):
        name, equals, value = line.partition(b"= ")
        return name + equals + b"0" * more + value if equals else line[:-1] + b"x" * more + b"]"
    if line.startswith(b"COUNT"):
        return b"COUNT = " + b"0" * more + line.removeprefix(b"COUNT = ")
    return line + (b"x" if line.startswith(b"#") else b"0") * more


def long_lines(mechanism, names_of_shapes):
    """4,095 to 4,097 characters, and far more, with every end. (Of a name with an odd count 4,096 leave an odd digit.)"""
    for shape, (headings, case) in shapes(mechanism).items():
        if shape not in names_of_shapes:
            continue
        # without headings for the lengths, so that a long field is a good line
        lines = [b"#", *headings[:2], b"[SHA-1]", b"[NonceLen = 64]", b"COUNT = 3", b"ReturnedBits =", *headings[:2], *case]
        for at, line in enumerate(lines):
            for count in (MOST_CHARACTERS - 1, MOST_CHARACTERS, MOST_CHARACTERS + 1, MOST_CHARACTERS + 2, 2 * MOST_CHARACTERS):
                for words, end in (("LF", LF), ("CR LF", CR_LF)):
                    long = text_of(lines[:at], LF) + filled_line(line, count) + end + text_of(lines[at + 1:] + AFTER, LF)
                    yield f"{shape}, line {at + 1} of {count} characters, {words}", long
                yield f"{shape}, line {at + 1} the last, of {count} characters", text_of(lines[:at]) + filled_line(line, count)
                yield f"{shape}, line {at + 1} the last, of {count} characters, CR", text_of(lines[:at]) + filled_line(line, count) + b"\r"


def far_too_long():
    for size in (65535, 65536, 65537, 131072, 300000):
        yield f"a remark of {size} characters", b"#" * size
        yield f"a line of {size} characters behind others", text_of([b"#", b"", b"#" * size, b"#"])


# A case at the room's edge

def kept(fields):
    return sum(len(value) + MORE for _, value in fields)


def full_case(mechanism, steps, piece, room):
    """Fields before the returned bits that take this much room: the steps over and over, strings of at most so many bytes."""
    _, fields = published(mechanism, "no_reseed")
    fields = fields[:len(OPENING)]
    while True:
        for name in steps:
            rest = room - kept(fields)
            if rest < piece + 2 * MORE:
                return fields if rest == 0 else fields + [(name, bytes(rest - MORE))]
            fields.append((name, bytes(piece)))


def rooms(mechanism):
    """Returned bits of 16 bytes that fit just, or pass the room; a step in their place that does."""
    head = [b"[SHA-256]", b"COUNT = 7"]
    for piece in (1000, 2032):
        last = 16 + MORE
        for off in (-1, 0, 1):
            fields = full_case(mechanism, ("AdditionalInput",), piece, ROOM - last + off)
            lines = head + [field_line(*field) for field in fields]
            bits = returned(mechanism, fields, 16) if piece <= 1024 else ("ReturnedBits", bytes(16))
            yield f"a case of {ROOM + off} bytes, strings of {piece}", text_of(lines + [field_line(*bits)] + AFTER)
            for name in FIELDS:
                yield f"a case of {ROOM + off} bytes, strings of {piece}, {name} the last", text_of(
                    lines + [field_line(name, bytes(16))] + AFTER)
    fields = full_case(mechanism, ("AdditionalInput",), 1000, ROOM - MORE)
    for off in (0, 1):
        yield f"an empty field at the room's end, {off} over", text_of(
            head + [field_line(*field) for field in fields] + [b"ReturnedBits =" + b" 00" * off] + AFTER)
    many = [field_line(*field) for field in full_case(mechanism, ("AdditionalInput",), 0, 3000)]
    yield "hundreds of empty draws", text_of(head + many + [b"ReturnedBits ="] + AFTER)
    reseeds = full_case(mechanism, ("EntropyInputReseed", "AdditionalInputReseed"), 32, 4000)
    if reseeds[-1][0] == "EntropyInputReseed":
        reseeds.pop()
    reseeds.append(("AdditionalInput", b""))
    yield "many reseeds", text_of(head + [field_line(*field) for field in reseeds + [returned(mechanism, reseeds, 16)]] + AFTER)
    yield "another hash, far beyond the room", text_of(
        [b"[SHA-1]", b"COUNT = 1"] + [b"AdditionalInput = " + b"00" * 2000] * 50 + [b"ReturnedBits = 00"] + AFTER)


# Files beyond 65,536 and 131,072 bytes

def remarks(size, line):
    """Remarks of this many bytes together, each of them a line of so many, and a shorter one."""
    whole, rest = divmod(size, line)
    return (b"#" * (line - 2) + CR_LF) * whole + (b"#" * (rest - 1) + LF if rest > 0 else b"")


def large_files(mechanism):
    """A case behind remarks, so that the places stand at each end of its lines, a byte to either side, or within a line."""
    for shape, (headings, case) in shapes(mechanism).items():
        lines = headings + [b""] + case
        text, places, at = text_of(lines), set(), 0
        for line in lines:
            places |= {at, at + 1, at + len(line) // 2}
            at += len(line) + 2
            places |= {at - 2, at - 1}
        for edge, most in ((65536, 4098), (65536, 100), (131072, 1000)):
            for place in sorted(places)[::1 if (mechanism, shape) == (HMAC_DRBG, "R A A") else 9]:
                yield f"{shape}, its byte {place} at {edge}, remarks of {most}", remarks(edge - place, most) + text + text_of(AFTER)
        many = text * (140000 // len(text))
        yield f"{shape}, over and over", many
        yield f"{shape}, over and over, a bad line at the end", many + b"x"
        inside = len(lines) - len(case) // 2
        before, behind = text_of(lines[:inside]), text_of(lines[inside:] + AFTER)
        yield f"{shape}, 200,000 bytes of remarks inside the case", before + remarks(200000, MOST_CHARACTERS + 2) + behind
        yield f"{shape}, 70,000 empty lines inside the case", before + LF * 70000 + behind
        yield f"{shape}, 70,000 empty lines inside the case, and a bad one", before + LF * 70000 + b"x" + behind


# By lot

def lot(source, mechanism):
    """Up to three changes, wherever they fall, of a file of one shape or two."""
    every = list(shapes(mechanism).values())
    lines = []
    for headings, case in source.sample(every, source.choice((1, 2))):
        lines += headings + [b""] + case * source.choice((1, 1, 2))
    for _ in range(source.choice((1, 1, 2, 3))):
        spoil_by_lot(source, lines)
    text = b"".join(line + source.choice((LF, CR_LF)) for line in lines + AFTER)
    if source.random() < 0.2:
        at = source.randrange(len(text))
        text = text[:at] + bytes([source.randrange(256)]) + text[at + source.choice((0, 1)):]
    return text[:source.randrange(len(text))] if source.random() < 0.1 else text


def spoil_by_lot(source, lines):
    """One change, in place."""
    at = source.randrange(len(lines))
    kind = source.randrange(7)
    if kind == 0:
        lines.insert(at, lines[source.randrange(len(lines))])
    elif kind == 1 and len(lines) > 1:
        del lines[at]
    elif kind == 2:
        other = source.randrange(len(lines))
        lines[at], lines[other] = lines[other], lines[at]
    elif lines[at] != b"":
        place = source.randrange(len(lines[at]))
        sign = bytes([source.choice(b"0123456789abcdefABCDEF =[]#\rTx")])
        before, behind = lines[at][:place], lines[at][place:]
        lines[at] = before + (sign + behind[1:], sign + behind, behind[1:], b"")[kind - 3]
