"""python3 bench/responses.py PROGRAM CALLS [TURNS [BYTES]]: what reading a response file costs beyond hashing.

PROGRAM is the program that reads response files, CALLS the program of responses.c. For each mechanism the published
groups under SHA-256, over and over, up to so many bytes: the program on that file, and the very same calls on the cases in
memory. The two take turns and the least time of each counts; it is processor time, the system's part and the start of the
process included. Their difference is what finding lines, reading, and printing cost. Then the groups under other hashes,
which are passed over, by the program alone.
"""

import os
import pathlib
import subprocess
import sys

sys.path.append(str(pathlib.Path(__file__).resolve().parent.parent / "second"))

from case_calls import steps_of
from mechanisms import HASH_DRBG, HMAC_DRBG
from response_cases import cases_in
from vectors import PUBLISHED

FOLDERS = ("no_reseed", "pr_false", "pr_true")
TURNS = 5
BYTES = 8_000_000
MOST = 15           # nanoseconds a byte, beyond hashing


def groups(text):
    """The file's parts, each from a hash heading to the next; with the heading."""
    found = []
    for line in text.splitlines(keepends=True):
        if line.startswith(b"[") and b"=" not in line:
            found.append((line.strip(), b""))
        if found:
            heading, before = found[-1]
            found[-1] = heading, before + line
    return found


def published(name, ours):
    """The groups of the mechanism's files under SHA-256, or else under all others."""
    texts = [(PUBLISHED / "drbg" / folder / f"{name}_DRBG.rsp").read_bytes() for folder in FOLDERS]
    return b"".join(part for text in texts for heading, part in groups(text) if (heading == b"[SHA-256]") == ours)


def number(value):
    return value.to_bytes(4, "little")


def string(text):
    return number(len(text)) + text


def case_bytes(case):
    """As responses.c reads it. The kinds of steps are those of a call book."""
    (_, entropy), (_, nonce), (_, personalization), *fields, (_, returned) = case.fields
    steps = steps_of(fields)
    return b"".join((
        number(case.resists), string(entropy), string(nonce), string(personalization), string(returned), number(len(steps)),
        *(number(kind) + string(fresh) + string(additional) for kind, fresh, additional in steps)))


def program_seconds(program, mechanism, path):
    running = subprocess.Popen([program, str(mechanism), path], stdout=subprocess.DEVNULL)
    _, status, used = os.wait4(running.pid, 0)
    running.returncode = os.waitstatus_to_exitcode(status)
    return used.ru_utime + used.ru_stime


def calls_seconds(calls, mechanism, path, rounds):
    done = subprocess.run([calls, path, str(mechanism), str(rounds)], capture_output=True, check=True)
    return int(done.stdout) / 1e9


def check(program, mechanism, path, verdict, count):
    """All cases are reported, and alike: else the time is that of something else."""
    output = subprocess.run([program, str(mechanism), path], capture_output=True, check=True).stdout
    lines = output.splitlines()
    if len(lines) != count or any(line.split(b" ", 1)[1] != verdict for line in lines):
        raise SystemExit(f"responses: {path}: not {count} times '{verdict.decode()}'")


def least(turns, *sides):
    """The least time of each side, the sides taking turns."""
    times = [[side() for side in sides] for _ in range(turns)]
    return [min(column) for column in zip(*times)]


def beyond_hashing(program, calls, name, mechanism, folder, turns, size):
    text = published(name, ours=True)
    rounds = -(-size // len(text))
    cases = list(cases_in(text))
    file, memory = folder / f"{name}.rsp", folder / f"{name}.cases"
    file.write_bytes(text * rounds)
    memory.write_bytes(number(len(cases)) + b"".join(map(case_bytes, cases)))
    check(program, mechanism, file, b"pass", rounds * len(cases))
    own, alone = least(
        turns, lambda: program_seconds(program, mechanism, file), lambda: calls_seconds(calls, mechanism, memory, rounds))
    length = rounds * len(text)
    cost = (own - alone) / length * 1e9
    print(
        f"{name}_DRBG: {length:,} bytes, {rounds * len(cases):,} cases: the program {own * 1e3:.1f} ms, the calls by themselves "
        f"{alone * 1e3:.1f} ms; beyond hashing {cost:.2f} ns a byte, at most {MOST}: {'met' if cost <= MOST else 'NOT MET'}")


def passed_over(program, folder, turns, size):
    text = published("HMAC", ours=False)
    rounds = -(-size // len(text))
    file = folder / "passed-over.rsp"
    file.write_bytes(text * rounds)
    count = rounds * len(list(cases_in(text)))
    check(program, HMAC_DRBG, file, b"passed over", count)
    (own,) = least(turns, lambda: program_seconds(program, HMAC_DRBG, file))
    length = rounds * len(text)
    print(f"passed over: {length:,} bytes, {count:,} cases: the program {own * 1e3:.1f} ms; {own / length * 1e9:.2f} ns a byte")


def main(program, calls, turns=TURNS, size=BYTES):
    folder = pathlib.Path(calls).resolve().parent
    turns, size = int(turns), int(size)
    beyond_hashing(program, calls, "HMAC", HMAC_DRBG, folder, turns, size)
    beyond_hashing(program, calls, "Hash", HASH_DRBG, folder, turns, size)
    passed_over(program, folder, turns, size)


if __name__ == "__main__":
    if not 3 <= len(sys.argv) <= 5:
        raise SystemExit("usage: responses.py PROGRAM CALLS [TURNS [BYTES]]")
    main(*sys.argv[1:])
