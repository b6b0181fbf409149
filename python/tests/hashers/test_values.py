"""Tests of hashers as values, and of the threads and salts in their calls of the library."""

import concurrent.futures
import contextlib
import copy
import ctypes
import pickle
import unittest

from records import ARGON2, LEAST, LEAST_COSTS, SMALL, noted_library, python, verdict

import rigzumal
from rigzumal import PasswordHasher, ScryptHasher, Type, argon2_cffi
from tests.helpers import PYTHON, each

COSTS = {"time_cost": 1, "memory_cost": 64, "parallelism": 4}


class Defaults(unittest.TestCase):
    """The values of a user who names none."""

    @each(
        (PasswordHasher(), "$argon2id$v=19$m=65536,t=3,p=4"),
        (ScryptHasher(), "$scrypt$ln=17,r=8,p=1"),
    )
    def test_of_hashers(self, hasher, costs):
        record = hasher.hash("x")
        self.assertEqual((hasher.costs, record.rsplit("$", 2)[0]), (costs, costs))
        parts = rigzumal.parts(record)
        self.assertEqual((parts.salt_size, parts.tag_size), (16, 32))
        self.assertFalse(hasher.check_needs_rehash(record))
        argon2 = PasswordHasher()
        self.assertEqual((argon2.threads, argon2.secret, argon2.secrets), (1, None, ()))
        self.assertEqual((argon2.type, int(argon2.type)), (Type.ID, 2))

    def test_of_the_functions(self):
        named = {"hash_len": 32, "type": Type.ID, "version": 0x13, "secret": b"", "threads": 1}
        tag = rigzumal.argon2("x", b"somesalt", **LEAST_COSTS)
        named |= {**LEAST_COSTS, "associated": b""}
        self.assertEqual(tag, rigzumal.argon2("x", b"somesalt", **named))
        key = rigzumal.scrypt("x", b"somesalt", log2_n=1, r=1, p=1)
        self.assertEqual(key, rigzumal.scrypt("x", b"somesalt", log2_n=1, r=1, p=1, length=32))

    @each("rigzumal", "rigzumal.argon2_cffi")
    def test_modules_that_take_long_are_not_imported(self, name):
        """Apart from ctypes and enum only small modules are imported: the time is at most twice
        argon2-cffi's."""
        front = f"import sys; sys.path.insert(0, {str(PYTHON)!r})"
        script = f"{front}; import {name}; print(*sys.modules)"
        found = set(python("-I", "-S", "-c", script).split())
        self.assertIn(name, found)
        slow = {"argparse", "ast", "dataclasses", "getpass", "inspect", "pathlib", "re", "typing"}
        self.assertEqual(found & {*slow, "hashlib", "hmac", "random", "secrets"}, set())


class Values(unittest.TestCase):
    @each(
        *((SMALL, it) for it in ("time_cost", "hash_len", "another")),
        *((ScryptHasher(), it) for it in ("log2_n", "hash_len", "another")),
        (rigzumal.parts(ARGON2), "memory"),
    )
    def test_they_do_not_change(self, value, name):
        self.assertRaises(AttributeError, setattr, value, name, 1)
        self.assertRaises(AttributeError, delattr, value, name)

    def test_equal_ones_are_equal_in_each_number(self):
        self.assertEqual(SMALL, PasswordHasher(2, 256, 1))
        self.assertEqual(hash(SMALL), hash(PasswordHasher(2, 256, 1)))
        self.assertEqual(rigzumal.parts(ARGON2), rigzumal.parts(ARGON2))
        numbers = {"time_cost": 3, "memory_cost": 257, "parallelism": 2, "hash_len": 31}
        others = {"salt_len": 15, "type": Type.I, "threads": 2, "secret": b"pepper"}
        secrets = [b"pepper"], [b"pepper", b""], [b"pepper", b"salt"], [b"salt", b"pepper"]
        changes = [*numbers.items(), *others.items(), *(("secrets", it) for it in secrets)]
        values = {SMALL, ScryptHasher(), "another"}
        values |= {SMALL.replace(**{name: it}) for name, it in changes}
        self.assertEqual(len(values), len(changes) + 3)

    def test_values_that_are_too_many_or_too_few(self):
        values = ("argon2id", 19, 64, 1, 1, 16, 32)
        self.assertEqual(rigzumal.Parts(*values[:6], tag_size=32), rigzumal.Parts(*values))
        for given, named in (
            (values[:6], {}),
            ((*values, 1), {}),
            (values, {"tag_size": 32}),
            (values, {"more": 1}),
        ):
            with self.subTest(given=given, named=named):
                self.assertRaisesRegex(
                    TypeError, "^the constructor needs", rigzumal.Parts, *given, **named
                )

    def test_a_change_leaves_the_others(self):
        hasher = PasswordHasher(1, 16, 2, 33, 17, Type.D, b"pepper", 3)
        self.assertEqual(hasher.replace(hash_len=32).replace(hash_len=33), hasher)
        self.assertEqual(hasher.replace(time_cost=2).time_cost, 2)
        self.assertRaises(rigzumal.InvalidNumbersError, hasher.replace, time_cost=0)

    @each({}, {"secret": b"pepper"}, {"secrets": [b"pepper", b"older"]})
    def test_they_are_shown_without_a_secret(self, changes):
        shown = "PasswordHasher(time_cost=1, memory_cost=8, parallelism=1, hash_len=32, salt_len=16"
        shown += ", type=<Type.ID: 2>, threads=1)"
        self.assertEqual(repr(LEAST.replace(**changes)), shown)
        shown = "ScryptHasher(log2_n=4, block_size=8, parallelism=1, hash_len=32, salt_len=16)"
        self.assertEqual(repr(ScryptHasher(4)), shown)

    @each(SMALL.replace(secrets=[b"a", b"b"]), ScryptHasher(4), rigzumal.parts(ARGON2))
    def test_copies_are_equal(self, value):
        for made in (copy.copy(value), copy.deepcopy(value), pickle.loads(pickle.dumps(value))):
            self.assertEqual(made, value)


SCRYPT = ScryptHasher(log2_n=4)


class Rotation(unittest.TestCase):
    """Peppers that rotate: any of them verifies, and new records use the first."""

    OLD, NEW = (SMALL.replace(secret=it) for it in (b"old", b"new"))
    BOTH = SMALL.replace(secrets=[b"new", bytearray(b"old")])
    NEW_OR_NONE = SMALL.replace(secrets=[b"new", b""])
    FOUR = SMALL.replace(secrets=[b"new", b"newest but one", b"old", b""])

    # The hasher that wrote a record, the one that reads it, and whether it is right and is
    # replaced.
    @each(
        (BOTH, BOTH, True, False),
        (BOTH, NEW, True, False),  # a new one is of the first
        (BOTH, OLD, False, False),
        (NEW, BOTH, True, False),
        (OLD, BOTH, True, True),
        (SMALL, BOTH, False, False),
        (NEW, SMALL, False, False),
        (NEW, OLD, False, False),
        (SMALL, NEW_OR_NONE, True, True),
        (SCRYPT, NEW_OR_NONE, True, True),
        (OLD, FOUR, True, True),
        (SMALL, FOUR, True, True),
        *((it, it, True, False) for it in (SMALL, NEW, SCRYPT)),
        *((it.replace(salt_len=17), it, True, True) for it in (SMALL, NEW, SCRYPT)),
    )
    def test_records_of_each(self, maker, hasher, is_right, is_old):
        """Records of each secret are verified, and replaced under the first secret and the hasher's
        costs."""
        record = maker.hash("x")
        self.assertIs(verdict(hasher, record, "x"), is_right)
        self.assertIs(verdict(hasher, maker.hash("y"), "x"), False)
        for text in (maker.hash("y"), *([] if is_right else [record])):
            self.assertRaises(rigzumal.VerifyMismatchError, hasher.verify_and_rehash, text, "x")
        made = hasher.verify_and_rehash(record, "x") if is_right else None
        self.assertEqual(made is not None, is_old)
        if is_old:
            first = hasher if hasher in (SMALL, SCRYPT) else self.NEW
            self.assertIs(first.verify(made, "x"), True)
            self.assertFalse(hasher.check_needs_rehash(made))
            self.assertIsNone(hasher.verify_and_rehash(made, "x"))

    def test_what_none_of_them_reads(self):
        for record in (SCRYPT.hash("x"), "x"):
            for call in (self.BOTH.verify, self.BOTH.verify_and_rehash):
                self.assertRaises(rigzumal.InvalidRecordError, call, record, "x")

    # Who wrote a record, who reads it, and the hashes of `verify` and of a new record.
    @each(
        *((it, it, 1, 0) for it in (SMALL, NEW, SMALL.replace(threads=2), SCRYPT)),
        *((it.replace(time_cost=1), it, 1, 1) for it in (SMALL, NEW)),
        (SCRYPT, SMALL, 1, 1),
        (NEW, BOTH, 2, 1),
        (OLD, BOTH, 2, 1),
        (NEW, NEW_OR_NONE, 2, 1),
        (SMALL, NEW_OR_NONE, 2, 1),
        (SMALL, FOUR, 4, 1),
    )
    def test_a_wrong_password_costs_the_hashes_of_a_right_one(self, maker, hasher, looks, made):
        record = maker.hash("right")
        for call, rehashes in ((hasher.verify, 0), (hasher.verify_and_rehash, made)):
            for password in ("right", "wrong"):
                with self.subTest(call=call, password=password), noted_library() as library:
                    with contextlib.suppress(rigzumal.VerifyMismatchError):
                        call(record, password)
                self.assertEqual(library.rigzumal_check_from.call_count, looks)
                self.assertEqual(library.rigzumal_record_from.call_count, rehashes)

    def test_a_wrong_password_is_no_fault_of_the_record(self):
        """One of the secrets reads a record of scrypt, wherever it is among them."""
        for secrets in ([b"new", b"", b"old"], [b"new", b"old", b""]):
            hasher = SMALL.replace(secrets=secrets)
            self.assertIs(verdict(hasher, SCRYPT.hash("x"), "x"), True)
            self.assertIs(verdict(hasher, SCRYPT.hash("x"), "y"), False)

    def test_the_first_is_the_secret(self):
        """`secret` is the first of the secrets, so code that refuses a secret refuses these hashers
        too."""
        self.assertEqual((self.BOTH.secret, self.BOTH.secrets), (b"new", (b"new", b"old")))
        again = self.BOTH.replace(secrets=[b"newer", b"new"])
        self.assertEqual((again.secret, again.secrets), (b"newer", (b"newer", b"new")))
        self.assertEqual(self.BOTH.replace(time_cost=1).secrets, (b"new", b"old"))
        self.assertEqual(self.BOTH.replace(secrets=None).secret, None)

    @each(
        *({"secret": it} for it in (b"", bytearray())),
        *({"secrets": it} for it in ([], (), iter(()), [b""], [b"", b"old"])),
        {"secret": b"", "secrets": [b"x"]},
    )
    def test_bad_secrets(self, bad):
        """An empty secret, as from an unset variable, would be no pepper at all."""
        self.assertRaisesRegex(ValueError, "secret", PasswordHasher, **bad)
        self.assertRaisesRegex(ValueError, "secret", SMALL.replace, **bad)
        self.assertRaises(ValueError, self.BOTH.replace, secret=b"other")
        for wrong in ([None], ["x"], 5):
            self.assertRaises(TypeError, PasswordHasher, secrets=wrong)


class Threads(unittest.TestCase):
    @each({}, {"threads": 1}, {"threads": 3}, {"threads": 200})
    def test_those_that_are_asked_for(self, given):
        """A hasher uses the threads that the caller sets, by default one."""
        names = ("record", "check") * 2 + ("argon2",)
        with noted_library() as library:
            for secret in (None, b"pepper"):
                hasher = PasswordHasher(**COSTS, secret=secret, **given)
                hasher.verify(hasher.hash("x"), "x")
            rigzumal.argon2("x", b"somesalt", **COSTS, **given)
        wanted = [(f"rigzumal_{name}_from", given.get("threads", 1)) for name in names]
        made = [(name, given[-1]) for name, given, _ in library.mock_calls]
        self.assertEqual([(name, inputs.threads) for name, inputs in made], wanted)
        with_secret = [inputs.secret for _, inputs in made[:4]]
        self.assertEqual(with_secret, [None, None, b"pepper", b"pepper"])

    def test_those_of_argon2_cffi_are_its_parallelism(self):
        hasher = argon2_cffi.PasswordHasher(1, 64, 4)
        with noted_library() as library:
            hasher.verify(hasher.hash("x"), "x")
        made = {name: given[-1].threads for name, given, _ in library.mock_calls}
        self.assertEqual(made["rigzumal_argon2_from"], 4)
        self.assertEqual(made["rigzumal_check_from"], 255)  # as many as there are lanes

    def test_one_hasher_serves_many(self):
        """Many threads use one hasher at once: unlike a PyDLL's, the calls release the
        interpreter's lock."""
        self.assertNotIsInstance(rigzumal._library._library, ctypes.PyDLL)
        with concurrent.futures.ThreadPoolExecutor(8) as pool:
            made = pool.map(lambda _: SMALL.hash("password", salt=b"somesalt"), range(160))
            self.assertEqual(list(made), [ARGON2] * 160)


class Salts(unittest.TestCase):
    @each(8, 15, 16, 48)
    def test_the_library_draws_them(self, size):
        for hasher in (LEAST, LEAST.replace(secret=b"x"), ScryptHasher(1, 1, 1)):
            hasher = hasher.replace(salt_len=size)
            with noted_library() as library:
                made = {hasher.hash("x") for _ in range(2)}
            self.assertEqual(len(made), 2)
            for _, (*_, inputs), _ in library.mock_calls:
                self.assertEqual((inputs.salt, inputs.salt_size), (None, size))

    @each(8, 16, 48, 64)
    def test_those_of_argon2_cffi_are_drawn(self, size):
        hasher = argon2_cffi.PasswordHasher(1, 8, 1, 32, size)
        made = [hasher.hash("x") for _ in range(2)]
        self.assertEqual(len({it.split("$")[4] for it in made}), 2)
        for record in made:
            self.assertEqual(argon2_cffi.extract_parameters(record).salt_len, size)
