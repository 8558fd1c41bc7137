"""What the station hears back: the answer numbers of document 01 and their words."""

SERVED = 0
TABLE_UNSOUND = 1
NO_SUCH_GENERATOR = 2
BAD_MECHANISM = 3
STRENGTH_TOO_HIGH = 4
BAD_INTERVAL = 5
PERSONALIZATION_TOO_LONG = 6
ADDITIONAL_TOO_LONG = 7
BAD_ENTROPY = 8
BAD_NONCE = 9
REQUEST_TOO_LONG = 10
NO_FRESH_RIGHT = 11
RESEED_DUE = 12
NO_FREE_SLOT = 13
SERIALS_USED_UP = 14

WORDS = {
    SERVED: "served",
    TABLE_UNSOUND: "table unsound",
    NO_SUCH_GENERATOR: "no such generator",
    BAD_MECHANISM: "mechanism neither 1 (HMAC_DRBG) nor 2 (Hash_DRBG)",
    STRENGTH_TOO_HIGH: "strength above 256 at opening, or above the generator's own at a draw",
    BAD_INTERVAL: "interval not 1 to 2^48",
    PERSONALIZATION_TOO_LONG: "personalization above 512 bytes",
    ADDITIONAL_TOO_LONG: "additional input above 1,024 bytes",
    BAD_ENTROPY: "entropy below strength/8 bytes or above 1,024",
    BAD_NONCE: "nonce below strength/16 bytes or above 64",
    REQUEST_TOO_LONG: "request above 65,536 bytes",
    NO_FRESH_RIGHT: "fresh draw on a generator opened without that right",
    RESEED_DUE: "reseed due",
    NO_FREE_SLOT: "no free slot",
    SERIALS_USED_UP: "serials used up",
}
