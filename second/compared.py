"""What the comparisons of a program with this one share."""

import pathlib
import resource
import subprocess
import time

FAILED = pathlib.Path(__file__).resolve().parent.parent / "target" / "failed"
SECONDS = 60        # for one run; the longest takes a small part of one
STACK = 1024 * 1024


def keep(name, text):
    """What a program failed on."""
    FAILED.mkdir(parents=True, exist_ok=True)
    safe = "".join(sign if sign.isalnum() or sign == "." else "-" for sign in name)
    (FAILED / safe).write_bytes(text)


def small_stack():
    resource.setrlimit(resource.RLIMIT_STACK, (STACK, STACK))


def in_pieces(command, text, size):
    """What the command prints when the text comes in pieces, with pauses at its start and its end."""
    with subprocess.Popen(
            command, stdin=subprocess.PIPE, stdout=subprocess.PIPE, bufsize=0) as running:
        try:
            for at in range(0, len(text), size):
                running.stdin.write(text[at:at + size])
                if at < 16 * size or len(text) - at < 16 * size:
                    time.sleep(0.002)
            return running.communicate(timeout=SECONDS)[0]
        except (BrokenPipeError, subprocess.TimeoutExpired):
            running.kill()
            return None


def counted(tally, name, compare):
    """A part that ran nothing is a failure, so that none is lost unseen."""
    before = tally.passed + tally.failed
    compare()
    ran = tally.passed + tally.failed - before
    print(f"{name}: {ran} compared")
    if ran == 0:
        tally.note(False, f"{name}: none")
