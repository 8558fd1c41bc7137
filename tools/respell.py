#!/usr/bin/env python3
"""Brings the repository's own names in specs/, proofs/ and clauses to the spelling of today's Rattle.

usage: python3 tools/respell.py [--list]      at the top of the repository, once, right after the kit's port.py

Words are in snake case; a dash stays only where it joins two names, as in `length-drop`. Types, facts, modules and the standards' own
symbols (ROTR, Ch, K₀) keep their capitals, and names of src/, exported names, strings and text keep their spelling. The same words are
turned in contracts, in must-fail edits and, where they are quoted as code, in the pages. --list prints the names, old and new, and
changes nothing. Two names that would fall together stop it.
"""

import collections
import os
import re
import sys

IDENT = re.compile(r"[^\s(){}\[\];,:.@\"`«»←→λ∙×⊎]+")
DECLARED = re.compile(r"\s*(?:abbrev |unfoldable )?(?:pub )?(?:abbrev |unfoldable )?([^\s(){}\[\];,:.@\"]+(?: [^\s(){}\[\];,:.@\"]+)*) :(?: |$)")
STATED = re.compile(r"\s*(?:abbrev |unfoldable )?(?:pub )?(?:data|record) (\S+)")
CAMEL = re.compile(r"^[a-z][a-z0-9]*[A-Z]")
# names inside one proof that a definition's new spelling would hide
INSIDE = {
    "crates/demands/proofs/Between.antt": {"in_use": "used_there"},
    "crates/demands/proofs/InBytes.antt": {"told_of": "told_there"},
    "crates/responses/proofs/Telling.antt": {"taken_as": "taken_so"},
    "crates/rsp_line/proofs/Digits.antt": {"all_digits": "digits_all"},
    "crates/slots/proofs/Soundness.antt": {"used_sound": "used_so"},
}
# the library's words that lemmas here are named after
WORDS = set("length append take drop map replicate reverse get_or set cons nil add mul sub zero suc div mod pow lt le eq xor and or not paste prefix cut behind more one none some".split())


def files(end, *below):
    for top in below:
        for folder, dirs, names in os.walk(top):
            dirs[:] = sorted(d for d in dirs if d not in ("out", ".git", "target", "__pycache__") and not os.path.islink(os.path.join(folder, d)))
            for n in sorted(names):
                p = os.path.join(folder, n)
                if n.endswith(end) and not os.path.islink(p):
                    yield p


def text(path):
    with open(path, encoding="utf-8") as f:
        return f.read()


def code_of(line):
    """A line of antt without its comment."""
    return re.sub(r"(^|\s)--(\s.*)?$", "", line)


def own_of_function(path):
    """A file of proofs/ that belongs to one function: its names are the goals'."""
    return os.path.basename(path) in ("Proof.antt", "Answers.antt", "Invariants.antt")


def declared():
    """Names that stand in specs/, and those that stand in a file of lemmas."""
    stated, lemmas = set(), set()
    for p in files(".antt", "crates"):
        if own_of_function(p):
            continue
        to = stated if "/specs/" in p else lemmas
        for line in text(p).split("\n"):
            line = code_of(line)
            m = STATED.match(line) or DECLARED.match(line)
            if m and not re.match(r"\s*(use|let|module|infix[lr]?)\b", line):
                to |= set(m.group(1).split()) - {"_"}
    return stated, lemmas


def snake(part):
    if not CAMEL.match(part):
        return part
    return re.sub(r"(?<=[a-z0-9])([A-Z]+)", lambda m: "_" + m.group(1).lower(), part)


def parts(name, joint):
    """The name with each part between dashes and argument places in snake case; joint(a, b) is what joins two parts."""
    out = []
    for piece in re.split(r"(◌)", name):
        words = [snake(w) for w in piece.split("-")]
        if piece in ("◌", "-") or not all(words):
            out.append(piece)
            continue
        s = words[0]
        for a, b in zip(words, words[1:]):
            s += joint(a, b) + b
        out.append(s)
    return "".join(out)


def new_names():
    stated, lemmas = declared()
    names = WORDS | {snake(n) for n in stated if "-" not in n and "◌" not in n}
    several = [n for n in stated if "-" in n and "◌" not in n]
    to = {}
    for n in sorted(stated | lemmas):
        if n in stated:
            new = parts(n, lambda a, b: "_")
        else:
            m = n
            for s in sorted(several, key=len, reverse=True):
                m = re.sub(r"(^|-)" + re.escape(s) + r"(?=-|$)", lambda k: k.group(1) + s.replace("-", "_"), m)
            known = names | {s.replace("-", "_") for s in several}

            def joint(a, b):
                return "-" if all(w in known or not re.match(r"[a-z]", w) for w in (a, b)) else "_"

            new = parts(m, joint)
        if new != n:
            to[n] = new
    # where a word beside it has that spelling already, the dash stays
    spelt = collections.Counter(to.get(n, n) for n in stated | lemmas)
    standing = words_standing()
    for n in sorted(to):
        if "-" in n and (spelt[to[n]] > 1 or to[n] in standing):
            to[n] = parts(n, lambda a, b: "-")
            if to[n] == n:
                del to[n]
    for n in of_the_library() & set(to):
        del to[n]
    return to, stated | lemmas


def of_the_library():
    """Names that some file imports from a library of the kit."""
    out = set()
    for p in files(".antt", "crates"):
        for m in re.finditer(r"(?m)^use ([^\s{]+)\.\{([^}]*)\}", text(p)):
            if m.group(1).startswith("Rattle.std") or not m.group(1).startswith("Rattle."):
                out |= set(IDENT.findall(m.group(2)))
    return out


def fall_together(to):
    """Words of one file of antt that would be one word, where the second is no part of a path or a field."""
    out = []
    for p in files(".antt", "crates"):
        mine = to | INSIDE.get(p, {})
        came = collections.defaultdict(set)
        for line in text(p).split("\n"):
            line = re.sub(r"^\s*use Rattle\S*\.(proofs|contracts)\.[^{]*", "", code_of(line))
            for m in IDENT.finditer(line):
                if line[m.start() - 1 : m.start()] != ".":
                    came[turned(m.group(0), mine)].add(m.group(0))
        out += [f"{p}: {n} from {' '.join(sorted(o))}" for n, o in sorted(came.items()) if len(o) > 1]
    return out


def words_standing():
    """Every word of the antt files, and of the code."""
    standing = set()
    for p in list(files(".antt", "crates")) + list(files(".rt", "crates")):
        for line in text(p).split("\n"):
            standing |= set(IDENT.findall(code_of(line) if p.endswith(".antt") else line.split("//")[0]))
    return standing


def turned(word, to):
    if word in to:
        return to[word]
    return "-".join(snake(p) for p in word.split("-")) if not re.search(r"[^\w\-'₀-₉◌]", word) else word


def turn_antt(t, to):
    out = []
    for line in t.split("\n"):
        c = code_of(line)
        rest = line[len(c):]
        c = IDENT.sub(lambda m: turned(m.group(0), to), c)
        out.append(c + turn_quoted(rest, to))
    return "\n".join(out)


def turn_quoted(t, to):
    """Words that a comment or a page quotes as code."""
    return re.sub(r"`([^`\n]+)`", lambda m: "`" + IDENT.sub(lambda k: to.get(k.group(0), k.group(0)), m.group(1)) + "`", t)


CLAUSE = re.compile(r"^\s*(?:pub )?(?:ghost|requires\*?|ensures\*?)\b")


def turn_rt(t, to):
    """Ghost lines and clauses, until their braces close; the code stays."""
    out, depth, inside = [], 0, False
    for line in t.split("\n"):
        if not inside and CLAUSE.match(line):
            inside, depth = True, 0
        if inside:
            out.append(IDENT.sub(lambda m: turned(m.group(0), to), line))
            depth += line.count("{") - line.count("}")
            inside = depth > 0
        else:
            m = re.search(r"//.*", line)
            out.append(line[: m.start()] + turn_quoted(m.group(0), to) if m else line)
    return "\n".join(out)


def turn_edit(t, to):
    """An edit of antt, or of a clause; an edit of code stays."""
    antt = re.search(r"(?m)^file: .*\.antt\s*$", t)
    out = []
    for line in t.split("\n"):
        m = re.match(r"((?:old|new): )(.*)$", line)
        if m and (antt or CLAUSE.match(m.group(2))):
            line = m.group(1) + IDENT.sub(lambda k: turned(k.group(0), to), m.group(2))
        out.append(line)
    return "\n".join(out)


def main(argv):
    to, _ = new_names()
    if "--list" in argv:
        for old, new in sorted(to.items()):
            print(old, new)
    met = fall_together(to)
    for line in met:
        print("fall together:", line, file=sys.stderr)
    if met:
        return 1
    if "--list" in argv:
        return 0
    pages = [p for p in files(".md", ".", ) if not p.startswith("./crates/")]
    for p, turn in [(p, turn_antt) for p in files(".antt", "crates")] + [(p, turn_rt) for p in files(".rt", "crates")] + [(p, turn_edit) for p in files(".edit", "crates")] + [(p, turn_quoted) for p in pages]:
        old = text(p)
        new = turn(old, to | INSIDE.get(p, {}))
        if new != old:
            with open(p, "w", encoding="utf-8") as f:
                f.write(new)
    return 0


if __name__ == "__main__":
    raise SystemExit(main(sys.argv[1:]))
