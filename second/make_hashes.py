"""python3 second/make_hashes.py [--check]: NIST's messages, which the program `test_files` is run on.

Writes crates/test_files/data/messages/, a file for each of NIST's short and long messages, named
after its length in bits, with args and stdout (file_runs.py). The digests that the program must
print are NIST's own; the blocks are counted by padding. --check writes nothing and compares all
of it with what stands there.
"""

from hashing import blocks_of, padded
from vectors import PUBLISHED, cases

FILES = [("short", "sha2/SHA256ShortMsg.rsp"), ("long", "sha2/SHA256LongMsg.rsp")]
SIZES = [0, 1, 63, 64, 65, 200]     # of the pieces; 0: the message as one string


def runs():
    """By the files' names: a message, and what must be printed for it."""
    found = {}
    for kind, path in FILES:
        for case in cases(PUBLISHED / path):
            bits = int(case.value("Len"))
            name = f"messages/{kind}-{bits}"
            message = case.string("Msg")[:bits // 8]        # Len = 0 stands with Msg = 00
            blocks = len(blocks_of(padded(message)))
            lines = "".join(f"{name} {size} {blocks} {case.value('MD')}\n" for size in SIZES)
            found[name] = message, lines.encode()
    return found


if __name__ == "__main__":
    from file_runs import command
    command("messages")
