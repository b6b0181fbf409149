"""Compares rigzumal.argon2_cffi with the installed argon2-cffi: each reads the other's hashes, and
answers and messages are the same. argon2_cffi_own.py runs argon2-cffi's own tests."""

import array
import dataclasses
import inspect
import itertools
import pickle
import random
import unittest

from records import OLD, unpadded

import rigzumal
from rigzumal import argon2_cffi as ours
from tests.helpers import each, need_module

need_module("argon2")

import argon2 as theirs

KINDS = ("D", "I", "ID")
COSTS = {"time_cost": 1, "memory_cost": 64, "parallelism": 2}


def encoded(costs, salt, tag):
    """A hash with this salt and tag, which a library may refuse."""
    return "$".join(("$argon2id$v=19", costs, unpadded(salt), unpadded(tag)))


def outcome(call, *given, **named):
    """The answer of a call, or the name and the message of its exception."""
    try:
        return call(*given, **named)
    except Exception as raised:
        names = [it.__name__ for it in type(raised).__mro__ if "argon2" in it.__module__]
        # its newer releases call InvalidHash InvalidHashError
        names = [it.replace("InvalidHashError", "InvalidHash") for it in names if it != "_Said"]
        return names or type(raised).__name__, raised.args


class Same(unittest.TestCase):
    def same(self, call, *what):
        with self.subTest(what=what):
            self.assertEqual(outcome(call, ours), outcome(call, theirs))


class LowLevel(Same):
    def test_hashes_are_theirs(self):
        draw = random.Random(1)
        for turn in range(150):
            kind = draw.choice(KINDS)
            named = {
                "secret": draw.randbytes(draw.choice((0, 1, 64, 300))),
                "salt": draw.randbytes(draw.choice((0, 7, 8, 16, 48, 49, 64, 65, 66, 400))),
                "time_cost": draw.choice((0, 1, 1, 2)),
                "memory_cost": draw.choice((0, 7, 8, 64, 100)),
                "parallelism": draw.choice((0, 1, 1, 2, 4)),
                "hash_len": draw.choice((1, 3, 4, 32, 64, 65, 66, 67, 128, 500)),
                "version": draw.choice((16, 19)),
            }
            for name in ("hash_secret", "hash_secret_raw"):
                call = lambda module: getattr(module.low_level, name)(
                    type=module.Type[kind], **named
                )
                self.same(call, named)

    def test_verdicts_are_theirs(self):
        hashed = theirs.low_level.hash_secret(b"x", b"somesalt", 1, 8, 1, 32, theirs.Type.ID)
        for given in (hashed, hashed[:-1], hashed + b"$", b"", OLD.encode(), b"$argon2id$v=19$m=7"):
            for kind, password in itertools.product(KINDS, (b"x", b"y", b"", b"password")):
                self.same_verdict(given, password, kind)

    def same_verdict(self, hashed, password=b"x", kind="ID"):
        verify = lambda module: module.low_level.verify_secret(hashed, password, module.Type[kind])
        self.same(verify, hashed, password, kind)

    def test_long_hashes_are_verified(self):
        """Hashes with salts and tags longer than any record's are verified, whole and damaged."""
        for salt, size in ((b"s" * 49, 32), (b"s" * 64, 16), (b"somesalt", 65), (b"s" * 300, 300)):
            for version, kind in itertools.product((16, 19), KINDS):
                given = (b"x", salt, 1, 16, 2, size, theirs.Type[kind], version)
                hashed = theirs.low_level.hash_secret(*given)
                for password in (b"x", b"y"):
                    self.same_verdict(hashed, password, kind)
        memory = (b"m=016", b"m=15", b"m=99999999999", b"m=4294967312")  # 2^32 + 16
        sizes = (b"seven..", b"t" * 32), (b"", b"tag"), (b"s" * 60, b"")
        for damaged in (
            *(hashed[:-1], hashed + b"A", hashed + b"$", hashed[:-40] + b"!" + hashed[-39:]),
            *(hashed.replace(b"m=16", it) for it in memory),
            *(hashed.replace(b"t=1", b"t=0"), hashed.replace(b"p=2", b"p=0")),
            *(encoded("m=8,t=1,p=1", *it).encode() for it in sizes),
        ):
            self.same_verdict(damaged)
        with self.assertRaisesRegex(ours.exceptions.VerificationError, "Decoding failed"):
            unknown = hashed.replace(b"v=19", b"v=18")
            ours.low_level.verify_secret(unknown, b"x", ours.Type.ID)

    @each(*range(-60, 20))
    def test_messages_are_theirs(self, number):
        self.same(lambda module: module.low_level.error_to_str(number), number)

    @each("x", 5, None)
    def test_types(self, wrong):
        for given in ((wrong, b"somesalt"), (b"x", wrong)):
            with self.assertRaises(TypeError):
                ours.low_level.hash_secret(*given, 1, 8, 1, 32, ours.Type.ID)


class Hashers(Same):
    def test_what_one_makes_the_other_reads(self):
        mismatches = (ours.exceptions.VerifyMismatchError, theirs.exceptions.VerifyMismatchError)
        for kind, encoding in itertools.product(KINDS, ("latin1", "utf-16-le", "utf-8")):
            with self.subTest(kind=kind, encoding=encoding):
                named = {**COSTS, "hash_len": 32, "encoding": encoding}
                hashers = (it.PasswordHasher(**named, type=it.Type[kind]) for it in (ours, theirs))
                mine, other = hashers
                for maker, reader in ((mine, other), (other, mine), (mine, mine)):
                    for password in ("p\xe4ssword", "p\xe4ssword".encode(encoding), b"bytes", ""):
                        hashed = maker.hash(password)
                        self.assertIs(reader.verify(hashed, password), True)
                        self.assertIs(reader.check_needs_rehash(hashed), False)
                        self.assertRaises(mismatches, reader.verify, hashed, "another")

    @each(
        *("", "$argon2id$", "x" * 20, b"$argon2i$", OLD, OLD[:-1], f" {OLD}", f"{OLD} "),
        *(f"{OLD}\n", OLD.replace("2i", "2x"), OLD.replace("$c29", "$ c29")),
    )
    def test_answers_are_theirs(self, given):
        self.same(lambda module: module.PasswordHasher(**COSTS).verify(given, "password"), given)

    @each({"time_cost": "1"}, {"type": "ID"}, {"hash_len": 1.0, "salt_len": None})
    def test_wrong_types_are_named(self, named):
        self.same(lambda module: module.PasswordHasher(**named), named)

    @each(
        ({"parallelism": 256, "memory_cost": 4096}, "Too many lanes"),
        ({"memory_cost": 2**21 + 1}, "Memory cost is too large"),
        ({"version": 17}, "There is no such version of Argon2"),
    )
    def test_what_is_refused_here_alone(self, named, said):
        """Refused here alone: numbers that libargon2 accepts and the proved code doesn't, and an
        unknown version."""
        given = {"secret": b"x", "salt": b"somesalt", "hash_len": 32, "type": ours.Type.ID}
        given.update(time_cost=1, memory_cost=8, parallelism=1)
        for call in (ours.low_level.hash_secret, ours.low_level.hash_secret_raw):
            with self.assertRaises(ours.exceptions.HashingError) as raised:
                call(**{**given, **named})
            self.assertEqual(str(raised.exception), said)

    def test_a_salt_may_be_given(self):
        """A caller may pass the salt as any bytes."""
        salt, hasher = b"sixteen of salt.", ours.PasswordHasher(1, 8, 1)
        wanted = theirs.low_level.hash_secret(b"x", salt, 1, 8, 1, 32, theirs.Type.ID)
        for holds in (bytes, bytearray, memoryview, lambda it: array.array("B", it)):
            with self.subTest(holds=holds):
                made = ours.low_level.hash_secret(b"x", holds(salt), 1, 8, 1, 32, ours.Type.ID)
                self.assertEqual(made, wanted)
                self.assertEqual(hasher.hash("x", salt=holds(salt)), wanted.decode())
        with self.assertRaisesRegex(ours.exceptions.HashingError, "Salt is too short"):
            hasher.hash("x", salt=b"")

    @each(OLD + "\0", "$argon2id$\ud800", "$argon2id$\xe9", "\ud800")
    def test_what_no_hash_can_be(self, text):
        """Each call raises ValueError for a hash with a zero byte, or with text that isn't
        ASCII."""
        hasher, invalid = ours.PasswordHasher(**COSTS), ours.exceptions.InvalidHash
        self.assertTrue(issubclass(invalid, ValueError))
        for call in (hasher.check_needs_rehash, ours.extract_parameters):
            self.assertRaises(invalid, call, text)
        self.assertRaises(invalid, hasher.verify, text, "password")

    @each(
        ("PasswordHasher", ("__init__", "verify", "check_needs_rehash")),
        ("low_level", ("hash_secret", "hash_secret_raw", "verify_secret")),
    )
    def test_signatures_are_theirs(self, place, names):
        for name in names:

            def parameters(module):
                call = getattr(getattr(module, place), name)
                return list(inspect.signature(call).parameters)

            self.same(parameters, name)


class Parameters(Same):
    def test_they_are_theirs(self):
        texts = [ours.PasswordHasher(**COSTS).hash("x"), OLD]
        for tag, salt in ((13, 9), (70, 16), (32, 60), (600, 600)):
            texts += [theirs.PasswordHasher(**COSTS, hash_len=tag, salt_len=salt).hash("x")]
        texts += [encoded(it, b"seven..", b"tag") for it in ("m=2400,t=1,p=300", "m=7,t=0,p=1")]
        texts += [texts[-1].replace("$v=19", version) for version in ("", "$v=16")]
        texts += ["", "$argon2id$", "$scrypt$ln=4,r=8,p=1$c2FsdA$a2V5a2V5"]
        names = [it.name for it in dataclasses.fields(ours.Parameters)]
        for text in texts:

            def values(module):
                parameters = module.extract_parameters(text)
                found = [getattr(parameters, name) for name in names]
                return [getattr(value, "name", value) for value in found]

            self.same(values, text)

    def test_numbers_of_the_profiles(self):
        """The profiles have the numbers of RFC 9106, section 4, and the others those of
        argon2-cffi's documentation."""
        for name, passes, memory, lanes, salt, tag in (
            ("RFC_9106_LOW_MEMORY", 3, 64 * 1024, 4, 16, 32),
            ("RFC_9106_HIGH_MEMORY", 1, 2 * 1024 * 1024, 4, 16, 32),
            ("PRE_21_2", 2, 102400, 8, 16, 16),
            ("CHEAPEST", 1, 8, 1, 8, 4),
        ):
            with self.subTest(name=name, passes=passes):
                wanted = ours.Parameters(ours.Type.ID, 19, salt, tag, passes, memory, lanes)
                self.assertEqual(getattr(ours.profiles, name), wanted)
                for kind in ours.Type:
                    params = dataclasses.replace(wanted, type=kind)
                    hasher = ours.PasswordHasher.from_parameters(params)
                    self.assertEqual(hasher._parameters, params)
        hashed = hasher.from_parameters(ours.profiles.CHEAPEST).hash("x")
        self.assertEqual(ours.extract_parameters(hashed), ours.profiles.CHEAPEST)

    def test_defaults(self):
        """The defaults are argon2-cffi's since version 21.2: RFC 9106's second recommendation."""
        hashed = ours.PasswordHasher().hash("x")
        self.assertTrue(hashed.startswith("$argon2id$v=19$m=65536,t=3,p=4$"), hashed)
        self.assertEqual(ours.profiles.get_default_parameters(), ours.extract_parameters(hashed))
        self.assertEqual(ours.DEFAULT_TIME_COST, 3)
        self.assertEqual(ours.DEFAULT_MEMORY_COST, 65536)
        self.assertEqual(ours.DEFAULT_PARALLELISM, 4)
        self.assertEqual(ours.DEFAULT_HASH_LENGTH, 32)
        self.assertEqual(ours.DEFAULT_RANDOM_SALT_LENGTH, 16)
        self.assertEqual(ours.low_level.ARGON2_VERSION, 19)
        self.assertEqual(ours.PasswordHasher().encoding, "utf-8")


class Exceptions(unittest.TestCase):
    @each(
        (rigzumal.VerifyMismatchError, COSTS, "verify", OLD, "y"),
        (rigzumal.InvalidRecordError, COSTS, "verify", "x", "y"),
        (rigzumal.RigzumalError, {"time_cost": 0}, "hash", "x"),
        (rigzumal.RigzumalError, {"memory_cost": 4096, "parallelism": 256}, "hash", "x"),
    )
    def test_they_are_rigzumals_too(self, row):
        kind, costs, name, *given = row
        with self.assertRaises(kind) as raised:
            getattr(ours.PasswordHasher(**costs), name)(*given)
        made = raised.exception
        other = pickle.loads(pickle.dumps(made))
        self.assertEqual((type(other), other.args), (type(made), made.args))
        self.assertEqual(other.number, made.number)

    def test_those_that_a_program_makes(self):
        """An exception that a program creates has the fault's number in rigzumal.h: 10 for another
        password."""
        self.assertEqual(ours.exceptions.VerifyMismatchError("text").number, 10)
