"""The hashers' strings, compared with those of Django's own hashers."""

import base64
import hashlib
import hmac
import itertools
import runpy
import unittest
from unittest import mock

import project  # noqa: F401: Django, set up
from django.contrib.auth import hashers
from meanwhile import Argon2, cheap

import rigzumal
from rigzumal.django import checks
from rigzumal.django import hashers as our_hashers
from rigzumal.django.hashers import Argon2PasswordHasher, ScryptPasswordHasher
from tests.helpers import each

try:
    import argon2 as argon2_cffi
except ImportError:
    argon2_cffi = None

PASSWORDS = ("", "lètmein", "x" * 300, "with\0zero")
LETTERS = "ABCDEFGHIJKLMNOPQRSTUVWXYZabcdefghijklmnopqrstuvwxyz0123456789+/"


class Scrypt(ScryptPasswordHasher):
    work_factor = 2


def scrypt_by_hashlib(password, n, r, p, size=64):
    key = hashlib.scrypt(password.encode(), salt=b"seasalt", n=n, r=r, p=p, dklen=size)
    return f"scrypt${n}$seasalt${r}${p}${base64.b64encode(key).decode()}"


class Strings(unittest.TestCase):
    """The strings in the database are those that Django's own hashers write and read."""

    @unittest.skipIf(argon2_cffi is None, "needs Python's module argon2")
    def test_argon2_both_ways(self):
        """If servers with our hasher and Django's take turns, at most one record is replaced."""
        theirs, ours, alike = hashers.Argon2PasswordHasher(), Argon2(), Argon2()
        alike.hash_len = argon2_cffi.DEFAULT_HASH_LENGTH  # 16 before 21.2, then 32
        theirs.memory_cost, theirs.time_cost, theirs.parallelism = 64, 1, 1
        for password in PASSWORDS:
            record = theirs.encode(password, "somesaltsomesalt")
            self.assertEqual(record, alike.encode(password, "somesaltsomesalt"))
            self.assertFalse(ours.verify("y", record))
            self.assertEqual(theirs.safe_summary(record), ours.safe_summary(record))
            self.assertEqual(theirs.must_update(record), ours.must_update(record))
            for first in (theirs, ours):
                record, made = first.encode(password, first.salt()), 0
                for hasher in (theirs, ours) * 4:
                    self.assertTrue(hasher.verify(password, record))
                    if hasher.must_update(record):
                        record, made = hasher.encode(password, hasher.salt()), made + 1
                self.assertLessEqual(made, 1)

    def test_records_of_other_programs(self):
        """Records of Argon2's reference program, and of Django 4.0's own tests."""
        front, hasher = "m=65536,t=2,p=1$c29tZXNhbHQ", Argon2PasswordHasher()
        for record in (
            f"argon2$argon2i${front}$9sTbSlTio3Biev89thdrlKKiCaYsjjYVJxGAL3swxpQ",
            f"argon2$argon2i$v=19${front}$wWKIMhR9lyDFvRz9YTZweHKfbftvj+qf+YFY4NeBbtA",
            f"argon2$argon2id$v=19${front}$CTFhFdXPJO1aFaMaO6Mm5c8y7cJHAph8ArZWb2GRPPc",
        ):
            self.assertIs(hasher.verify("password", record), True)
            self.assertIs(hasher.verify("Password", record), False)
        record = (
            "scrypt$16384$seasalt$8$1$Qj3+9PPyRjSJIebHnG81TMjsqtaIGxNQG/aEB/NYafTJ7tibgfYz"
            "71m0ldQESkXFRkdVCBhhY8mx7rQwite/Pw=="
        )
        self.assertTrue(ScryptPasswordHasher().verify("lètmein", record))

    def test_scrypt_as_hashlib(self):
        hasher = ScryptPasswordHasher()
        for password in PASSWORDS:
            for numbers in ((2**14, 8, 1), (2**10, 4, 5), (2, 1, 1)):
                record = scrypt_by_hashlib(password, *numbers)
                self.assertEqual(hasher.encode(password, "seasalt", *numbers), record)
                self.assertTrue(hasher.verify(password, record))
                self.assertFalse(hasher.verify(password + "x", record))
                self.assertEqual(hasher.safe_summary(record)["work factor"], numbers[0])
        for size in (16, 32, 48):  # a key may have another size
            record = scrypt_by_hashlib("secret", 4, 8, 1, size)
            self.assertIs(hasher.verify("secret", record), True, size)
            self.assertIs(hasher.verify("Secret", record), False, size)

    def test_a_subclass_that_wraps_old_hashes(self):
        """A subclass wraps old hashes as on Django's page "Password management", by its own
        `algorithm` and `encode`."""
        md5 = hashers.MD5PasswordHasher()
        digest = md5.encode("secret", "seasalt").rpartition("$")[2]

        def wrapped(base):
            class Wrapped(base):
                algorithm = f"{base.algorithm}_of_md5"

                def encode_md5(self, digest, salt, *more):
                    return super().encode(digest, salt, *more)

                def encode(self, password, salt, *more):
                    made = md5.encode(password, salt)
                    return self.encode_md5(made.rpartition("$")[2], salt, *more)

            return Wrapped()

        for hasher, number in ((wrapped(Argon2), "time_cost"), (wrapped(Scrypt), "work_factor")):
            # Records of the data migration, and of a new user.
            migrated = hasher.encode_md5(digest, "seasalt")
            for record in (migrated, hasher.encode("secret", "seasalt")):
                self.assertTrue(record.startswith(f"{hasher.algorithm}$"))
                self.assertIs(hasher.verify("secret", record), True)
                self.assertIs(hasher.verify(digest, record), False)
                self.assertEqual(hasher.decode(record)["algorithm"], hasher.algorithm)
                self.assertEqual(hasher.safe_summary(record)["salt"], "seasal*")
            for base in (Argon2PasswordHasher, ScryptPasswordHasher):
                self.assertRaises(ValueError, base().decode, record)
            setattr(hasher, number, 2 * getattr(hasher, number))
            self.assertIs(hasher.verify("secret", record), True)  # by the record's numbers
            self.assertIs(hasher.must_update(record), True)

    def test_broken(self):
        """With a damaged record every password is wrong, and nothing of the record is shown."""
        self.enterContext(cheap())
        argon2, scrypt = Argon2(), Scrypt()
        good = argon2.encode("secret", "somesaltsomesalt")
        spelled = good[:-1] + LETTERS[LETTERS.index(good[-1]) + 1]  # the same bytes
        no_record = [good + "$", good.replace("v=19", "v=20"), "argon2$", good[:-1], spelled]
        no_record += [good + "=", good + "\n", "argon2", good.replace("id$", "x$")]
        no_record += [good.replace("m=64", it) for it in ("m=٦٤", "m=064", "m=99999999999")]
        no_record += [good.replace("t=1", "t=0"), hashers.make_password("secret", hasher="md5")]
        refused = [good.replace("p=1", "p=256"), good.replace("m=64", "m=7")]
        for number in ("m=64", "t=1", "p=1"):  # above 2^32
            refused.append(good.replace(number, f"{number[:2]}9999999999"))
        rows = [(argon2, it, it in no_record) for it in no_record + refused]
        good = scrypt.encode("secret", "salt", 2, 8, 5)
        no_record = [good[:-3], good + "$", good.replace("salt", ""), "scrypt$2$s$1$1$"]
        no_record += [hashers.make_password("secret", hasher="md5"), good.replace("$8$", "$0$")]
        no_record += [f"scrypt$4$seasalt$8$1${key}" for key in ("A", "AAAAA", "AB==", "AAA!")]
        refused = [good.replace("$2$", "$3$"), good.replace("$2$", "$8589934592$")]
        refused += [good.replace("$5$", it) for it in ("$256$", "$9999999999$")]
        refused.append(good.replace("$8$", "$9999999999$"))
        rows += [(scrypt, it, it in no_record) for it in no_record + refused]
        for hasher, record, is_no_record in rows:
            call = getattr(rigzumal, hasher.algorithm)
            with mock.patch.object(rigzumal, hasher.algorithm, side_effect=call) as hashed:
                self.assertIs(hasher.verify("secret", record), False, record)
            self.assertEqual(hashed.call_args.args[0], b"", record)  # it costs a hash
            self.assertIs(hasher.must_update(record), True, record)
            hasher.harden_runtime("secret", record)
            self.assertEqual("broken record" in hasher.safe_summary(record), is_no_record, record)
            if record != hasher.algorithm:
                self.assertNotIn(record, str(hasher.safe_summary(record)))
            if is_no_record:
                self.assertRaises(ValueError, hasher.decode, record)
            if not record.startswith("md5"):
                self.assertIs(hashers.check_password("secret", record), False)

    def test_out_of_memory_is_no_wrong_password(self):
        record = Argon2().encode("secret", "somesaltsomesalt")
        fault = rigzumal.OutOfMemoryError(8)
        with mock.patch.object(rigzumal, "argon2", side_effect=[fault, bytes(32)]):
            self.assertRaises(MemoryError, Argon2().verify, "secret", record)

    @each(Argon2(), Scrypt())
    def test_bad_arguments_and_no_password_in_an_exception(self, hasher):
        salts = (("topsecret", it) for it in ("", "a$b"))
        for password, salt in (*salts, ("topsecret\udc80", "somesalt"), (None, "somesalt")):
            with self.assertRaises(ValueError if password else TypeError) as caught:
                hasher.encode(password, salt)
            self.assertNotIn("topsecret", repr(caught.exception))
        record = hasher.encode("secret", "somesaltsomesalt")
        self.assertIs(hasher.verify("\udc80", record), False)

    def test_what_is_old(self):
        """Another kind, version or cost, a salt of little entropy, or a tag shorter than those
        that Django's own hasher makes: no record goes back and forth between servers."""
        argon2, scrypt, salt = Argon2(), Scrypt(), Argon2().salt()
        record = argon2.encode("secret", salt)
        rows = [(argon2, it, False) for it in (record, argon2.encode("secret", salt + "x"))]
        rows += [(argon2, argon2.encode("secret", it), True) for it in (salt[:-1], "somesalt")]
        costs = ("m=64", "m=72"), ("m=64", "m=56"), ("t=1", "t=2"), ("p=1", "p=2")
        for old, new in (("argon2id", "argon2i"), ("v=19$", ""), *costs):
            rows.append((argon2, record.replace(old, new), True))
        for size, length in ((32, 16), (32, 64), (32, 15), (8, 8), (8, 7)):
            hasher, shorter = Argon2(), Argon2()
            hasher.hash_len, shorter.hash_len = size, length
            rows.append((hasher, shorter.encode("secret", salt), length in (15, 7)))
        scrypt.work_factor, scrypt.block_size, scrypt.parallelism = 4, 2, 2
        for numbers in itertools.product((2, 4, 8), (1, 2, 3), (1, 2, 3)):
            record = scrypt.encode("secret", "seasalt", *numbers)
            rows.append((scrypt, record, numbers != (4, 2, 2)))
        for hasher, record, is_old in rows:
            self.assertIs(hasher.must_update(record), is_old, record)

    def test_the_numbers_are_djangos(self):
        """The default numbers are those of the newest Django, whose records fit, and count as
        new."""
        ours = Argon2PasswordHasher
        self.assertEqual((ours.time_cost, ours.memory_cost, ours.parallelism), (2, 102400, 8))
        self.assertEqual(ours.hash_len, 32)
        for name in ("time_cost", "memory_cost", "parallelism"):
            self.assertEqual(getattr(hashers.Argon2PasswordHasher, name), getattr(ours, name))
        scrypt = ScryptPasswordHasher()
        self.assertEqual((scrypt.work_factor, scrypt.block_size), (2**14, 8))
        for hasher in (ours(), scrypt):
            record = hasher.encode("secret", hasher.salt())
            self.assertLessEqual(len(record), checks.WIDTH)
            self.assertFalse(hasher.must_update(record))

    def test_scrypts_p_is_that_of_the_django_that_runs(self):
        """scrypt's p is that of the installed Django: otherwise servers would replace each other's
        records by turns."""
        own = getattr(hashers, "ScryptPasswordHasher", None)
        self.assertEqual(ScryptPasswordHasher.parallelism, own.parallelism if own else 5)
        for theirs, p in ((None, 5), (1, 1), (3, 3)):
            django = type("ScryptPasswordHasher", (), {"parallelism": theirs})
            with mock.patch.object(hashers, "ScryptPasswordHasher", theirs and django, create=True):
                ours = runpy.run_path(our_hashers.__file__)["ScryptPasswordHasher"]
            self.assertEqual(ours.parallelism, p)

    def test_all_of_the_tag_is_compared(self):
        """A check compares the whole tag, at one speed, wherever the first difference is."""
        compare = mock.patch("hmac.compare_digest", side_effect=hmac.compare_digest)
        for hasher in (Argon2(), Scrypt()):
            record = hasher.encode("secret", "seasalt")
            records = record, hasher.encode("other", "seasalt")
            tag, other = (base64.b64decode(it.rpartition("$")[2] + "==") for it in records)
            with compare as compared:
                self.assertIs(hasher.verify("secret", record), True)
                self.assertIs(hasher.verify("other", record), False)
            self.assertEqual(compared.mock_calls, [mock.call(tag, tag), mock.call(other, tag)])

    @each((Argon2(), 43), (Scrypt(), 88))
    def test_nothing_secret_is_shown(self, hasher, size):
        record = hasher.encode("secret", "somesaltsomesalt")
        shown = hasher.safe_summary(record)
        *_, last_but_one, last = shown
        self.assertEqual((last_but_one, last), ("salt", "hash"))
        self.assertEqual(shown["salt"], "somesa**********")
        self.assertEqual(shown["hash"], record.split("$")[-1][:6] + "*" * (size - 6))
