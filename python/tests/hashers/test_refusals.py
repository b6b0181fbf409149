"""Tests of refusals, and of their exceptions."""

import copy
import itertools
import pickle
import unittest

from records import ARGON2, LEAST_COSTS, SMALL, python

import rigzumal
from rigzumal import PasswordHasher, ScryptHasher, _library
from tests.helpers import each


ARGON2_COSTS = {"time_cost": 1, "memory_cost": 16, "parallelism": 2}
SCRYPT_COSTS = {"log2_n": 4, "block_size": 8, "parallelism": 1}


class Refusals(unittest.TestCase):
    @each(
        *((it, rigzumal.InvalidRecordError) for it in (1, 2, 3, 4, 5, 6, 7, 9)),
        *((it, rigzumal.InvalidNumbersError) for it in (*range(11, 26), 27, 255)),
        (10, rigzumal.VerifyMismatchError),
        (8, rigzumal.OutOfMemoryError),
        (26, rigzumal.NoRandomError),
    )
    def test_each_number_has_its_exception(self, number, kind):
        """Each number has its exception, which survives a copy, and the way from another
        process."""
        with self.assertRaises(rigzumal.RigzumalError) as raised:
            _library.raise_fault(number)
        made = raised.exception
        for other in (made, copy.copy(made), copy.deepcopy(made), pickle.loads(pickle.dumps(made))):
            copied = (type(other), other.number, other.word, str(other))
            self.assertEqual(copied, (kind, number, made.word, str(made)))
        self.assertIsNone(_library.raise_fault(0))

    def refused(self, kind, word, call, *given, message=None, **named):
        """The call raises this exception, whose copy is equal."""
        with self.assertRaises(kind) as raised:
            call(*given, **named)
        for fault in (raised.exception, pickle.loads(pickle.dumps(raised.exception))):
            self.assertEqual((fault.word, str(fault)), (word, message or str(raised.exception)))

    @each(
        *((it, "shape") for it in ("", ARGON2[:-1] + "\0", ARGON2.rsplit("$", 1)[0], SMALL.costs)),
        (ARGON2.replace("2id", "2x"), "scheme"),
        (ARGON2.replace("m=256", "m=7"), "range", "m=7 is under 8 p (8 KiB)"),
        (ARGON2 * 9, "toolong"),
    )
    def test_texts(self, text, word, message=None):
        """The message names a number out of its range, with the range, and nothing else of the
        text."""
        for call in (
            lambda record: SMALL.verify(record, "x"),
            SMALL.check_needs_rehash,
            rigzumal.parts,
        ):
            self.refused(rigzumal.InvalidRecordError, word, call, text, message=message)

    @each(
        (PasswordHasher, ARGON2_COSTS, "time_cost", 1, 2**32 - 1, "passes"),
        (PasswordHasher, ARGON2_COSTS, "memory_cost", 16, 2097152, "cost"),
        (PasswordHasher, {"memory_cost": 2097152}, "parallelism", 1, 255, "lanes"),
        (PasswordHasher, ARGON2_COSTS, "hash_len", 4, 64, "tag"),
        (PasswordHasher, ARGON2_COSTS, "salt_len", 8, 48, "salt"),
        (PasswordHasher, ARGON2_COSTS, "threads", 1, 2**32 - 1, "range"),
        (ScryptHasher, SCRYPT_COSTS, "log2_n", 1, 21, "scryptcost"),
        (ScryptHasher, {"block_size": 1}, "log2_n", 1, 15, "scryptcost"),
        (ScryptHasher, {"block_size": 2}, "log2_n", 1, 23, "scryptcost"),
        (ScryptHasher, {"block_size": 255}, "log2_n", 1, 16, "scryptcost"),
        (ScryptHasher, {"log2_n": 4}, "block_size", 1, 255, "blocksize"),
        (ScryptHasher, SCRYPT_COSTS, "parallelism", 1, 255, "blocks"),
        (ScryptHasher, SCRYPT_COSTS, "hash_len", 4, 64, "tag"),
        (ScryptHasher, SCRYPT_COSTS, "salt_len", 1, 48, "salt"),
    )
    def test_numbers_of_a_hasher(self, kind, given, name, least, most, word):
        """The constructor refuses each wrong number, with its name, its range and its fault."""
        for number in (least, most):
            self.assertEqual(getattr(kind(**{**given, name: number}), name), number)
        for number in (least - 1, most + 1, -1):
            message = f"{name} must be {least} to {most}, not {number}"
            named, bad = {**given, name: number}, rigzumal.InvalidNumbersError
            self.refused(bad, word, kind, **named, message=message)

    @each(
        *(PasswordHasher(*it) for it in ((1, 8, 1), (1, 2040, 255), (9, 8, 1, 4, 8))),
        PasswordHasher(1, 8, 1, 64, 48, threads=2**32 - 1),
        *(ScryptHasher(*it) for it in ((1, 1, 1, 4, 1), (15, 1, 1, 64, 48), (1, 255, 255))),
    )
    def test_what_a_hasher_takes_the_library_takes(self, hasher):
        """The library accepts all numbers that a hasher accepts, tested at the ends of each
        affordable range."""
        self.assertTrue(hasher.verify(hasher.hash("x"), "x"))

    @each(
        (SMALL, (0, 7, 49), "8 to 48"),
        (SMALL.replace(secret=b"x"), (0, 7, 49), "8 to 48"),
        (ScryptHasher(log2_n=1), (0, 49), "1 to 48"),
    )
    def test_salts(self, hasher, sizes, range_):
        for size in sizes:
            message, salt = f"the salt's length must be {range_}, not {size}", bytes(size)
            bad = rigzumal.InvalidNumbersError
            self.refused(bad, "salt", hasher.hash, "x", salt=salt, message=message)

    def test_numbers(self):
        bad, call = rigzumal.InvalidNumbersError, rigzumal.argon2
        for name, number, word in (("time_cost", 0, "passes"), ("version", 18, "noversion")):
            self.refused(bad, word, call, "x", b"somesalt", **{**LEAST_COSTS, name: number})
        self.refused(bad, "tagsize", call, "x", b"somesalt", **LEAST_COSTS, hash_len=3)
        self.refused(bad, "scryptcost", rigzumal.scrypt, "x", b"", log2_n=0, r=8, p=1)
        self.assertRaises(OverflowError, rigzumal.scrypt, "x", b"", log2_n=2**32 + 4, r=8, p=1)
        with self.assertRaises(OverflowError):
            rigzumal.argon2("x", b"somesalt", **LEAST_COSTS, threads=-1)

    def test_types(self):
        def tag(salt=b"somesalt", **changes):
            return rigzumal.argon2("x", salt, **{**LEAST_COSTS, **changes})

        for wrong in (5, None, ["x"]):
            self.assertRaises(TypeError, SMALL.hash, wrong)
        for wrong in (16, "somesalt", [1] * 16, (b"somesalt",)):
            for call in (
                lambda salt: SMALL.hash("x", salt=salt),
                lambda salt: ScryptHasher(log2_n=1).hash("x", salt=salt),
                lambda salt: rigzumal.scrypt("x", salt, log2_n=1, r=1, p=1),
                tag,
                lambda data: tag(associated=data),
                lambda secret: PasswordHasher(secret=secret),
            ):
                with self.subTest(wrong=wrong, call=call):
                    self.assertRaises(TypeError, call, wrong)
        sizes, argon2 = ("hash_len", "salt_len"), (*LEAST_COSTS, "threads", "type")
        for kind, names in ((PasswordHasher, argon2), (ScryptHasher, SCRYPT_COSTS)):
            for name, wrong in itertools.product((*names, *sizes), ("2", 2.7, 2.0, None, True)):
                with self.subTest(kind=kind, name=name, wrong=wrong):
                    self.assertRaises(TypeError, kind, **{name: wrong})
                    if name in ("time_cost", "type"):
                        self.assertRaises(TypeError, tag, **{name: wrong})
        self.assertRaises(ValueError, PasswordHasher, type=7)
        with self.assertRaises(ValueError) as raised:
            SMALL.hash("pass\ud800word")
        self.assertNotIn("pass", str(raised.exception))
        self.assertIsNone(raised.exception.__context__)

    def test_want_of_memory(self):
        script = (
            "import resource\n"
            "from rigzumal import PasswordHasher, argon2_cffi\n"
            "resource.setrlimit(resource.RLIMIT_AS, (2**29, 2**29))\n"
            "record = '$argon2id$v=19$m=1048576,t=1,p=1$c29tZXNhbHQ$' + 'A' * 43\n"
            "cffi = argon2_cffi.PasswordHasher\n"
            "for call in (lambda: PasswordHasher(1, 2**20, 1).hash('x'),\n"
            "             lambda: cffi(1, 2**20, 1).hash('x'),\n"
            "             lambda: cffi().verify(record, 'x')):\n"
            "    try:\n        call()\n"
            "    except Exception as refused:\n"
            "        print(type(refused).__name__, refused.number, refused)\n"
            "print(PasswordHasher(1, 8, 1).hash('x')[:9])\n"
        )
        lines = python("-W", "ignore", "-c", script).splitlines()
        wanted = [f"{it}Error 8 Memory allocation error" for it in ("Hashing", "Verification")]
        self.assertEqual(lines, ["OutOfMemoryError 8 out of memory", *wanted, "$argon2id"])
        self.assertTrue(issubclass(rigzumal.OutOfMemoryError, MemoryError))
