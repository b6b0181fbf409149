"""Compares the calls with named inputs, with and without threads: answers and output must be the
same, over random numbers and inputs, now and then bad, and with threads refused at random. A record
must be that of its tag, with salts and tags of every size."""

import ctypes
import platform
import random
import unittest

from rigzumal_calls import LIBRARY, RIGZUMAL, call, inputs, numbers, written, written_text

# qemu-user takes too long over hundreds of threads.
IS_FAST = platform.machine() == "x86_64"
SETS = 400 if IS_FAST else 40
KINDS = ("argon2d", "argon2i", "argon2id", "argon2x")
NONE = (None, 0)
draw = random.Random(1)


def mostly(good, bad):
    return bad if draw.random() < 0.04 else good


def some_bytes():
    return draw.randbytes(draw.randrange(81))


def tag_from(size, costs, given):
    """The answer and the output of the call for a tag; for 2^32 bytes and more there is no such
    buffer."""
    if size < 2**32:
        return written("argon2_from", size, numbers(*costs), given)
    room = ctypes.create_string_buffer(64)
    return call("argon2_from", (room, size), numbers(*costs), given), room.raw


class WithThreads(unittest.TestCase):
    def same(self, made, given):
        """The answer and the output of a call, which must be the same with one thread and with
        several."""
        one, several = (made(inputs(**given, threads=it)) for it in (1, draw.randint(2, 9)))
        self.assertEqual(one, several, given)
        return one

    def check_refusals(self, record, given):
        """If any letter of its tag changes, a record is of another password, or no record if the
        last letter then has bits of no byte. With an input shorter by one byte it is of another
        password too."""
        for at in range(record.rindex("$") + 1, len(record)):
            other = record[:at] + ("B" if record[at] == "A" else "A") + record[at + 1 :]
            is_last = at == len(record) - 1
            allowed = (RIGZUMAL.MISMATCH, RIGZUMAL.TAG) if is_last else (RIGZUMAL.MISMATCH,)
            self.assertIn(call("check_from", other, inputs(**given)), allowed, other)
        for name in ("password", "secret", "associated"):
            if shorter := given.get(name, b"")[:-1]:
                judged = self.same(
                    lambda data: call("check_from", record, data), {**given, name: shorter}
                )
                self.assertEqual(judged, RIGZUMAL.MISMATCH, name)
        self.assertNotEqual(
            self.same(lambda data: call("check_from", record[:-1], data), given), RIGZUMAL.OK
        )

    def compare_calls(self, costs, room, size, given):
        tag = self.same(lambda data: tag_from(size, costs, data), given)
        text = "${}$v={}$m={},t={},p={}".format(KINDS[costs[0]], *costs[1:])
        made = self.same(lambda data: written_text("record_from", room, size, text, data), given)
        if made[0] != RIGZUMAL.OK:
            return
        others = [given.get(name, NONE) for name in ("password", "salt", "secret", "associated")]
        self.assertEqual(written("argon2", size, numbers(*costs), *others), tag)
        of_tag = written_text(
            "argon2_write", RIGZUMAL.TEXT_SIZE, numbers(*costs), given["salt"], tag[1]
        )
        self.assertEqual(of_tag, made)
        self.assertEqual(
            self.same(lambda data: call("check_from", made[1], data), given), RIGZUMAL.OK
        )
        self.check_refusals(made[1], given)

    def test_random_calls(self):
        refusals, started = (ctypes.c_uint.in_dll(LIBRARY, it) for it in ("refusals", "started"))
        self.addCleanup(setattr, refusals, "value", 0)
        before = started.value
        for number in range(SETS):
            refusals.value = 0 if number < SETS / 2 else draw.randint(1, 4)
            lanes = draw.randint(1, 9)
            memory = mostly(8 * lanes + draw.randrange(400), 8 * lanes - 1)
            costs = [mostly(draw.randrange(3), 3), draw.choice((0x10, 0x13, 0x13, 0x13)), memory]
            costs += [mostly(draw.randint(1, 3), 0), mostly(lanes, 0)]
            given = {"password": some_bytes(), "salt": draw.randbytes(mostly(8 + number % 41, 7))}
            given |= {it: some_bytes() for it in ("secret", "associated") if draw.random() < 0.5}
            sizes = mostly(RIGZUMAL.TEXT_SIZE, 60), mostly(4 + number % 77, 2**32 + 32)
            with self.subTest(costs=costs, sizes=sizes, given=given):
                self.compare_calls(costs, *sizes, given)
        self.assertGreater(started.value - before, SETS)

    @unittest.skipUnless(IS_FAST, "needs the processor x86_64")
    def test_large_numbers(self):
        """More passes than eight bits count, and segments of more blocks than sixteen bits
        count."""
        for costs in (
            *((2, 0x13, 16, 257, 2), (1, 0x10, 40, 300, 3), (0, 0x13, 16, 1025, 2)),
            *((2, 0x13, 8 * 65536 + 24, 1, 2), (2, 0x13, 255 * 8, 2, 255)),
        ):
            given = {"password": b"password", "salt": b"somesalt"}
            made = self.same(lambda data: tag_from(32, costs, data), given)
            self.assertEqual(made[0], RIGZUMAL.OK, costs)
