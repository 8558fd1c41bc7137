"""python3 second/check_hmac.py [DIR]: HMAC against the SHA-256 cases of RFC 4231."""

import sys

from hashing import Hasher
from keyed_hash import hmac
from tally import checked, folder_named
from vectors import PUBLISHED, cases


def check_codes(path, tally):
    for case in cases(path):
        code = hmac(Hasher(), case.string("Key"), case.string("Msg"))
        tally.note(code == case.string("MD"), f"{path.name} line {case.line}")


if __name__ == "__main__":
    sys.exit(checked(folder_named(sys.argv[1:], PUBLISHED), [("rfc-4231-sha256.txt", check_codes)]))
