"""The six calls: edges 1 to 5 and 9, every refusal, the order of reasons, what calls change."""

import unittest
from dataclasses import replace
from itertools import combinations

from calls import (
    close_call, draw_call, fresh_draw_call, inquire_call, open_call, reseed_call,
)
from hashing import Hasher
from hmac_drbg import update
from mechanisms import HASH_DRBG, HMAC_DRBG, MECHANISMS
from table import (
    FREE_SLOT, FRESH_TABLE, LARGEST_SERIAL, draws_left, generator, sound, state_of, with_slot,
)

from samples import BOTH, ENTROPY, NONCE, random_source, with_generators

OLD = b"old bytes of the lent output"


def opened(table=FRESH_TABLE, **changes):
    arguments = {
        "mechanism": HMAC_DRBG, "strength": 256, "interval": 5, "fresh_right": True,
        "entropy": ENTROPY, "nonce": NONCE, "personalization": b"",
    }
    return open_call(table, **(arguments | changes))


class Edges(unittest.TestCase):
    def test_1_hash(self):
        for length, blocks in ((0, 1), (55, 1), (56, 2)):
            hasher = Hasher()
            hasher.hash(bytes(length))
            self.assertEqual(hasher.blocks, blocks)

    def test_2_hmac_update(self):
        for length, blocks in ((22, 16), (23, 18), (0, 8)):
            hasher = Hasher()
            update(hasher, bytes(length), bytes(32), bytes(32))
            self.assertEqual(hasher.blocks, blocks)

    def check_draw(self, mechanism, length, blocks):
        answer = draw_call(with_generators(1, mechanism), 16, 0, bytes(length), b"")
        self.assertEqual((answer.number, answer.blocks), (0, blocks))
        self.assertEqual(len(answer.output), length)

    def test_3_hmac_draw(self):
        for length, blocks in ((0, 8), (1, 12), (32, 12), (33, 16)):
            self.check_draw(HMAC_DRBG, length, blocks)

    def test_4_hash_draw(self):
        for length, blocks in ((32, 3), (33, 4)):
            self.check_draw(HASH_DRBG, length, blocks)

    def test_5_hash_open(self):
        for extra, blocks in ((50, 6), (51, 8)):
            answer = opened(mechanism=HASH_DRBG, personalization=bytes(extra - len(ENTROPY + NONCE)))
            self.assertEqual((answer.number, answer.blocks), (0, blocks))

    # Edge 6 is in test_mechanisms.py, edges 7 and 8 are in test_table.py.

    def test_9_requests(self):
        for mechanism in BOTH:
            table = with_generators(1, mechanism)
            self.assertEqual(draw_call(table, 16, 0, bytes(65536), b"").number, 0)
            self.assertEqual(draw_call(table, 16, 0, bytes(65537), b"").number, 10)
            self.assertEqual(fresh_draw_call(table, 16, 0, bytes(65536), ENTROPY, b"").number, 0)
            self.assertEqual(fresh_draw_call(table, 16, 0, bytes(65537), ENTROPY, b"").number, 10)

    def test_9_entropy_by_the_rounded_strength(self):
        for strength, least in ((0, 14), (112, 14), (113, 16), (129, 24), (193, 32), (256, 32)):
            self.assertEqual(opened(strength=strength, entropy=bytes(least - 1)).number, 8)
            answer = opened(strength=strength, entropy=bytes(least))
            self.assertEqual(answer.number, 0)
            table = answer.table
            for entropy, number in ((least - 1, 8), (least, 0), (1024, 0), (1025, 8)):
                self.assertEqual(reseed_call(table, 16, bytes(entropy), b"").number, number)
                fresh = fresh_draw_call(table, 16, 0, b"", bytes(entropy), b"")
                self.assertEqual(fresh.number, number)

    def test_9_seventeenth_opening(self):
        table = FRESH_TABLE
        for place in range(16):
            answer = opened(table)
            self.assertEqual((answer.number, answer.value), (0, 16 * (place + 1) + place))
            table = answer.table
        self.assertEqual(opened(table).number, 13)
        # the lowest free slot and the next serial, though 17 openings were asked for
        answer = opened(close_call(table, 16 * 6 + 5).table)
        self.assertEqual((answer.number, answer.value), (0, 16 * 17 + 5))

    def test_9_serials_used_up(self):
        table = replace(FRESH_TABLE, last=LARGEST_SERIAL - 1)
        answer = opened(table)
        self.assertEqual((answer.number, answer.value), (0, 16 * LARGEST_SERIAL))
        self.assertEqual(answer.table.last, LARGEST_SERIAL)
        self.assertEqual(opened(answer.table).number, 14)
        self.assertEqual(draw_call(answer.table, answer.value, 0, b"", b"").number, 0)


class OrderOfChecks(unittest.TestCase):
    """Each call with every set of reasons at once: the first in order is the answer.

    A fault is a function that changes the call's table or arguments so that its reason
    holds; with none the call is served. A reason may have several faults.
    """

    def check_order(self, order, faults, call):
        self.assertEqual(set(order), set(faults))
        self.assertEqual(call([]).number, 0)
        for reason in order:
            for fault in faults[reason]:
                self.assertEqual(self.refused(call, [fault]), reason)
        for count in range(2, len(order) + 1):
            for reasons in combinations(order, count):
                self.assertEqual(
                    self.refused(call, [faults[reason][0] for reason in reasons]), reasons[0])

    def refused(self, call, changes):
        """The answer's number, after a look that nothing else came of it."""
        answer = call(changes)
        self.assertEqual((answer.blocks, answer.value), (0, 0))
        return answer.number

    def caller(self, function, table, arguments):
        """Calls the function with faults applied, and looks that table and output stay."""
        def call(changes):
            use = {"table": table} | arguments
            for change in changes:
                use = change(use)
            answer = function(**use)
            if answer.number != 0:
                self.assertEqual(answer.table, use["table"])
                self.assertEqual(answer.output, use.get("output", b""))
            return answer
        return call

    @staticmethod
    def given(name, *values):
        """Faults that set an argument."""
        return [lambda use, value=value: use | {name: value} for value in values]

    @staticmethod
    def in_slot(place, **changes):
        """A fault that changes a slot of the table."""
        def change(use):
            table = use["table"]
            slot = replace(table.slots[place], **changes)
            return use | {"table": with_slot(table, place, slot)}
        return [change]

    UNSOUND = {"place": 3, "fresh": 2}
    NO_GENERATOR = (0, 15, 17, 18, 32, 2**64 - 16, 2**64 - 1)    # 16 is the one in use

    def test_open(self):
        def full(use):
            table = with_generators(16)
            if use["table"].slots[3] != FREE_SLOT:       # keep the fault of an unsound table
                table = with_slot(table, 3, replace(table.slots[3], fresh=2))
            return use | {"table": replace(table, last=max(table.last, use["table"].last))}

        def last_serial(use):
            return use | {"table": replace(use["table"], last=LARGEST_SERIAL)}

        faults = {
            1: self.in_slot(**self.UNSOUND),
            3: self.given("mechanism", 3, 0, 257, 2**64 - 1),
            4: self.given("strength", 257, 512, 2**64 - 1),
            5: self.given("interval", 0, 2**48 + 1, 2**64 - 1),
            6: self.given("personalization", bytes(513), bytes(2048)),
            8: self.given("entropy", bytes(31), b"", bytes(1025)),
            9: self.given("nonce", bytes(15), b"", bytes(65)),
            13: [full],
            14: [last_serial],
        }
        call = self.caller(open_call, with_generators(1), {
            "mechanism": 1, "strength": 256, "interval": 5, "fresh_right": False,
            "entropy": ENTROPY, "nonce": NONCE, "personalization": b"",
        })
        self.check_order((1, 3, 4, 5, 6, 8, 9, 13, 14), faults, call)

    def test_reseed(self):
        faults = {
            1: self.in_slot(**self.UNSOUND),
            2: self.given("handle", *self.NO_GENERATOR),
            7: self.given("additional", bytes(1025), bytes(2048)),
            8: self.given("entropy", bytes(31), b"", bytes(1025)),
        }
        call = self.caller(reseed_call, with_generators(1), {
            "handle": 16, "entropy": ENTROPY, "additional": bytes(1024),
        })
        self.check_order((1, 2, 7, 8), faults, call)

    def test_draw(self):
        faults = {
            1: self.in_slot(**self.UNSOUND),
            2: self.given("handle", *self.NO_GENERATOR),
            10: self.given("output", b"o" * 65537),
            4: self.given("strength", 129, 256, 2**64 - 1),
            7: self.given("additional", bytes(1025), bytes(2048)),
            12: self.in_slot(0, counter=6),
        }
        call = self.caller(draw_call, with_generators(1, strength=113), {
            "handle": 16, "strength": 128, "output": OLD, "additional": bytes(1024),
        })
        self.check_order((1, 2, 10, 4, 7, 12), faults, call)

    def test_fresh_draw(self):
        faults = {
            1: self.in_slot(**self.UNSOUND),
            2: self.given("handle", *self.NO_GENERATOR),
            10: self.given("output", b"o" * 65537),
            4: self.given("strength", 129, 256, 2**64 - 1),
            7: self.given("additional", bytes(1025), bytes(2048)),
            11: self.in_slot(0, fresh=0),
            8: self.given("entropy", bytes(15), b"", bytes(1025)),
        }
        due = with_generators(1, strength=113)
        due = with_slot(due, 0, replace(due.slots[0], counter=6))    # no reason here
        call = self.caller(fresh_draw_call, due, {
            "handle": 16, "strength": 128, "output": OLD, "entropy": bytes(16),
            "additional": bytes(1024),
        })
        self.check_order((1, 2, 10, 4, 7, 11, 8), faults, call)

    def test_close_and_inquire(self):
        faults = {
            1: self.in_slot(**self.UNSOUND),
            2: self.given("handle", *self.NO_GENERATOR),
        }
        for function in (close_call, inquire_call):
            call = self.caller(function, with_generators(1), {"handle": 16})
            self.check_order((1, 2), faults, call)


class Served(unittest.TestCase):
    """What a served call gives."""

    def test_limits_themselves_are_served(self):
        for changes in (
                {"mechanism": 1}, {"mechanism": 2}, {"strength": 0}, {"interval": 1},
                {"interval": 2**48}, {"entropy": bytes(1024)}, {"nonce": bytes(16)},
                {"nonce": bytes(64)}, {"personalization": bytes(512)}):
            self.assertEqual(opened(**changes).number, 0, changes)

    def test_least_nonce_goes_by_the_rounded_strength(self):
        for asked, least in (
                (0, 7), (1, 7), (112, 7), (113, 8), (128, 8), (129, 12), (192, 12), (193, 16), (256, 16)):
            for mechanism in BOTH:
                for count, number in ((0, 9), (least - 1, 9), (least, 0), (64, 0), (65, 9)):
                    answer = opened(mechanism=mechanism, strength=asked, nonce=bytes(count))
                    self.assertEqual(answer.number, number, (asked, count))

    def test_open(self):
        for mechanism in BOTH:
            answer = opened(with_generators(3), mechanism=mechanism, strength=130, interval=9,
                            fresh_right=False, personalization=b"p")
            self.assertEqual(answer.value, 16 * 4 + 3)
            slot = answer.table.slots[3]
            self.assertEqual(
                (slot.mechanism, slot.strength, slot.interval, slot.counter, slot.fresh,
                 slot.serial),
                (mechanism, 192, 9, 1, 0, 4))
            self.assertEqual(
                state_of(slot), MECHANISMS[mechanism].opened(Hasher(), ENTROPY, NONCE, b"p"))
            self.assertEqual(answer.table.last, 4)

    def test_draws_run_down_to_reseed_due_and_a_reseed_sets_them_again(self):
        for mechanism in BOTH:
            table = with_generators(1, mechanism, interval=3)
            for left in (3, 2, 1):
                self.assertEqual(inquire_call(table, 16).value, left)
                table = draw_call(table, 16, 0, bytes(4), b"").table
            self.assertEqual(inquire_call(table, 16).value, 0)
            self.assertEqual(draw_call(table, 16, 0, bytes(4), b"").number, 12)
            table = reseed_call(table, 16, ENTROPY, b"").table
            self.assertEqual(inquire_call(table, 16).value, 3)

    def test_a_plain_draw_never_reseeds(self):
        for mechanism in BOTH:
            table = with_generators(1, mechanism)
            state = state_of(table.slots[0])
            drawn, after = MECHANISMS[mechanism].drawn(Hasher(), state, 40, b"more")
            answer = draw_call(table, 16, 256, bytes(40), b"more")
            self.assertEqual(answer.output, drawn)
            self.assertEqual(state_of(answer.table.slots[0]), after)

    def test_fresh_draw_when_a_reseed_is_due(self):
        for mechanism in BOTH:
            table = with_generators(1, mechanism, interval=1)
            table = draw_call(table, 16, 0, b"", b"").table
            answer = fresh_draw_call(table, 16, 0, bytes(40), ENTROPY, b"more")
            apart = draw_call(
                reseed_call(table, 16, ENTROPY, b"more").table, 16, 0, bytes(40), b"")
            self.assertEqual(
                (answer.number, answer.table, answer.output),
                (0, apart.table, apart.output))
            self.assertEqual(answer.table.slots[0].counter, 2)

    def test_fresh_draw_needs_the_right_of_its_opening(self):
        table = with_generators(1, fresh_right=False)
        self.assertEqual(fresh_draw_call(table, 16, 0, b"", ENTROPY, b"").number, 11)

    def test_strength_of_a_draw_is_the_rounded_one(self):
        table = with_generators(1, strength=113)
        self.assertEqual(draw_call(table, 16, 128, b"", b"").number, 0)
        self.assertEqual(draw_call(table, 16, 129, b"", b"").number, 4)

    def test_refused_openings_use_no_serial(self):
        table = opened(FRESH_TABLE, nonce=b"").table
        self.assertEqual(opened(table).value, 16)

    def test_close_sets_every_field_to_zero(self):
        answer = close_call(with_generators(1), 16)
        self.assertEqual((answer.number, answer.blocks, answer.value), (0, 0, 0))
        self.assertEqual(answer.table.slots[0], FREE_SLOT)
        self.assertEqual(answer.table.last, 1)


class Sequences(unittest.TestCase):
    """A long random sequence of calls, looked at after each."""

    def random_call(self, source, table, handles):
        handle = source.choice(handles + [0, 15])
        lent = bytes(source.randint(0, 40))
        more = bytes(source.choice((0, 3)))
        entropy = source.randbytes(source.choice((13, 32)))
        return source.choice((
            lambda: ("open", None, open_call(
                table, source.randint(1, 2), source.choice((0, 256)), source.randint(1, 4),
                source.random() < 0.5, entropy, NONCE, more)),
            lambda: ("reseed", handle, reseed_call(table, handle, entropy, more)),
            lambda: ("draw", handle, draw_call(table, handle, 0, lent, more)),
            lambda: ("fresh", handle, fresh_draw_call(table, handle, 0, lent, entropy, more)),
            lambda: ("close", handle, close_call(table, handle)),
            lambda: ("inquire", handle, inquire_call(table, handle)),
        ))()

    def test_what_calls_change(self):
        source = random_source()
        table, handles, closed, reasons = FRESH_TABLE, [], set(), set()
        for _ in range(3000):
            name, handle, answer = self.random_call(source, table, handles[-25:])
            reasons.add(answer.number)
            self.assertTrue(sound(answer.table))
            if answer.number != 0:
                self.assertEqual(answer.table, table)
                continue
            self.assertNotIn(handle, closed)
            if name == "open":
                self.assertNotIn(answer.value, handles)
                handle = answer.value
                handles.append(handle)
                self.assertEqual(answer.table.last, table.last + 1)
            else:
                self.assertEqual(answer.table.last, table.last)
            self.check_other_slots(table, answer.table, handle % 16)
            if name == "inquire":
                self.assertEqual(answer.table, table)
                self.assertEqual(answer.value, draws_left(generator(table, handle)))
            if name == "close":
                closed.add(handle)
            table = answer.table
        self.assertGreater(len(closed), 50)
        self.assertEqual(reasons & {0, 2, 8, 11, 12}, {0, 2, 8, 11, 12})

    def check_other_slots(self, before, after, place):
        for other in range(16):
            if other != place:
                self.assertEqual(after.slots[other], before.slots[other])
