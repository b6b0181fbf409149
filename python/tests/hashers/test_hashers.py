"""Tests of Python's hashers: each kind, size and input, against Debian's argon2 program and
hashlib."""

import array
import hashlib
import unicodedata
import unittest

from records import ARGON2, LEAST, LEAST_COSTS, OLD, SMALL, unpadded, verdict

import rigzumal
from rigzumal import PasswordHasher, ScryptHasher, Type, argon2_cffi, opaque_string
from tests.helpers import each


# printf password | argon2 somesalt -d -v 10 -t 2 -k 256 -p 1 -l 32 -r, and the like
TAGS = {
    (Type.D, 0x10): "bd404868ff00c52e7543c8332e6a772a5724892d7e328d5cf253bbc8e726b371",
    (Type.D, 0x13): "25c4ee8ba448054b49efc804e478b9d823be1f9bd2e99f51d6ec4007a3a1501f",
    (Type.I, 0x10): "fd4dd83d762c49bdeaf57c47bdcd0c2f1babf863fdeb490df63ede9975fccf06",
    (Type.I, 0x13): "89e9029f4637b295beb027056a7336c414fadd43f6b208645281cb214a56452f",
    (Type.ID, 0x10): "da070e576e50f2f38a3c897cbddc6c7fb4028e870971ff9eae7b4e1879295e6e",
    (Type.ID, 0x13): "9dfeb910e80bad0311fee20f9c0e2b12c17987b4cac90c2ef54d5b3021c68bfe",
}
RECORDS = {
    kind: f"$argon2{kind.name.lower()}$v=19$m=256,t=2,p=1$c29tZXNhbHQ$"
    + unpadded(bytes.fromhex(tag))
    for (kind, version), tag in TAGS.items()
    if version == 0x13
}
COSTS = {"time_cost": 2, "memory_cost": 256, "parallelism": 1}
OF_ARGON2 = {**COSTS, "memory_cost": 64, "parallelism": 2}
HIGHEST = "$argon2id$v=19$m=2097152,t=4294967295,p=255$c29tZXNhbHQ$nf65EA"
# printf 'pass\0word' | argon2 somesalt -id -t 1 -k 64 -p 1 -l 32 -e
WITH_NUL = "$argon2id$v=19$m=64,t=1,p=1$c29tZXNhbHQ$6oIEETo0BJ7q/vyz7jFW6wFb/GyfaZJ1ejETi5d+Muo"


class Kinds(unittest.TestCase):
    @each(*RECORDS.items())
    def test_a_hasher_has_its_own(self, kind, record):
        for given in (kind, int(kind)):
            hasher = PasswordHasher(2, 256, 1, salt_len=8, type=given)
            self.assertEqual(hasher.hash("password", salt=b"somesalt"), record)
            self.assertEqual(hasher.costs, record.rsplit("$", 2)[0])
            for other in RECORDS.values():
                self.assertEqual(hasher.check_needs_rehash(other), other != record)
                self.assertTrue(hasher.verify(other, "password"))

    @each(*TAGS.items())
    def test_a_raw_tag_has_its_kind_and_version(self, given, wanted):
        named = dict(zip(("type", "version"), given), **COSTS)
        self.assertEqual(rigzumal.argon2("password", b"somesalt", **named).hex(), wanted)


class Verifying(unittest.TestCase):
    @each(ARGON2, ARGON2.encode(), OLD)
    def test_the_right_password_alone_is_verified(self, record):
        tried = ("password", "Password", "", "password\0", b"\xff")
        found = [verdict(SMALL, record, it) for it in tried]
        self.assertEqual(found, [True, False, False, False, False])

    def test_a_secret_is_rfc_9106s(self):
        """The secret is RFC 9106's K; Rotation in test_values.py tests which hashers read such a
        record."""
        record = SMALL.replace(secret=b"pepper").hash("password", salt=b"somesalt")
        tag = rigzumal.argon2("password", b"somesalt", secret=b"pepper", **COSTS)
        self.assertEqual(record.rsplit("$", 1)[1], unpadded(tag))
        self.assertFalse(SMALL.replace(salt_len=8).check_needs_rehash(record))


class Rehash(unittest.TestCase):
    """A record of any other number needs a rehash, lower or higher."""

    @each(
        (PasswordHasher, Type, OF_ARGON2),
        (argon2_cffi.PasswordHasher, argon2_cffi.Type, OF_ARGON2),
        (ScryptHasher, (), {"log2_n": 4, "block_size": 2, "parallelism": 3}),
    )
    def test_of_other_numbers(self, maker, kinds, costs):
        numbers = {**costs, "hash_len": 32, "salt_len": 16}
        hasher = maker(**numbers)
        record = hasher.hash("x")
        self.assertFalse(hasher.check_needs_rehash(record))
        changes = [{name: it + by} for name, it in numbers.items() for by in (-1, 1)]
        for change in (*changes, *({"type": it} for it in kinds if it.name != "ID")):
            other = maker(**{**numbers, **change})
            self.assertTrue(other.check_needs_rehash(record), change)
            self.assertTrue(hasher.check_needs_rehash(other.hash("x")), change)

    def test_of_another_scheme_and_version(self):
        self.assertTrue(ScryptHasher().check_needs_rehash(ARGON2))
        self.assertTrue(SMALL.check_needs_rehash(ScryptHasher(4).hash("x")))
        self.assertTrue(PasswordHasher(2, 256, 1, salt_len=8, type=Type.I).check_needs_rehash(OLD))


class Inputs(unittest.TestCase):
    def test_a_zero_byte_ends_no_password(self):
        hasher, wrong = PasswordHasher(1, 64, 1), ("pass", "pass\0", "pass\0worD", "\0", "")
        for password in ("pass\0word", b"pass\0word", *wrong):
            with self.subTest(password=password):
                is_right = password not in wrong
                self.assertEqual(hasher.hash(password, salt=b"somesalt") == WITH_NUL, is_right)
                self.assertIs(verdict(hasher, WITH_NUL, password), is_right)
        record = ScryptHasher(4).hash("pass\0word", salt=b"some\0salt")
        self.assertEqual(rigzumal.parts(record).salt_size, 9)
        self.assertFalse(verdict(hasher, record, "pass"))

    @each(
        *(kind(b"sixteen of bytes") for kind in (bytes, bytearray, memoryview)),
        memoryview(bytearray(b"a longer one than sixteen")),
        memoryview(array.array("I", [1, 2, 3, 0x04050607])),
        memoryview(b"_s_i_x_t_e_e_n__")[::2],
    )
    def test_what_holds_bytes_is_taken_whole(self, holds):
        data, scrypt = bytes(holds), ScryptHasher(1, 1, 1)
        wanted = LEAST.hash(data, salt=data)
        self.assertEqual(LEAST.hash(holds, salt=holds), wanted)
        self.assertTrue(LEAST.verify(wanted, holds))
        self.assertEqual(scrypt.hash(holds, salt=holds), scrypt.hash(data, salt=data))

        def tag(data):
            return rigzumal.argon2(data, data, secret=data, associated=data, **LEAST_COSTS)

        self.assertEqual(tag(holds), tag(data))
        made = LEAST.replace(secret=holds).hash("x", salt=data)
        self.assertTrue(LEAST.replace(secret=data).verify(made, "x"))

    def test_a_hasher_keeps_its_secret_as_it_was_given(self):
        secret = bytearray(b"pepper")
        hasher = LEAST.replace(secret=secret)
        made = hasher.hash("x")
        secret.clear()
        secret.extend(b"salted")
        self.assertTrue(hasher.verify(made, "x"))
        self.assertTrue(LEAST.replace(secret=b"pepper").verify(made, "x"))

    @each("\ud800", "\udc80", "pass\udcffword", "\udfff")
    def test_text_is_its_utf_8(self, no_text):
        record = LEAST.hash("p\xe4ss\U0001f600")
        self.assertTrue(LEAST.verify(record, "p\xe4ss\U0001f600".encode()))
        self.assertRaises(ValueError, LEAST.hash, no_text)
        self.assertRaises(ValueError, LEAST.verify, record, no_text)

    def test_scrypt_is_hashlibs(self):
        """scrypt equals hashlib's, for keys, passwords and salts of every length, and in a
        record."""
        lengths = (0, 1, 63, 64, 65, 127, 128, 129, 255, 256, 257, 300, 1000, 5000, 100_000)
        inputs = [some_bytes(length) for length in lengths]
        given = [(password, b"salt", 32) for password in inputs]
        given += [(b"password", salt, 32) for salt in inputs]
        given += [(b"password", b"s", length) for length in (*range(1, 8), *range(62, 101), 1000)]
        for password, salt, length in given:
            with self.subTest(password=password, salt=salt):
                key = rigzumal.scrypt(password, salt, log2_n=2, r=1, p=3, length=length)
                wanted = hashlib.scrypt(password, salt=salt, n=4, r=1, p=3, dklen=length)
                self.assertEqual(key, wanted)
        record = ScryptHasher(log2_n=4, block_size=2, parallelism=3).hash("password", salt=b"s")
        wanted = hashlib.scrypt(b"password", salt=b"s", n=16, r=2, p=3, dklen=32)
        self.assertEqual(record, f"$scrypt$ln=4,r=2,p=3$cw${unpadded(wanted)}")


def some_bytes(length):
    return bytes(at * 37 % 251 for at in range(length))


class Parts(unittest.TestCase):
    @each(
        ("$argon2d$v=16$m=2048,t=7,p=5$c29tZXNhbHQ$nf65EA", ("argon2d", 16, 2048, 7, 5, 8, 4)),
        ("$scrypt$ln=4,r=3,p=2$YmVucyBzYWx0$nf65EA", ("scrypt", 0, 4, 3, 2, 9, 4)),
        (HIGHEST, ("argon2id", 19, 2**21, 2**32 - 1, 255, 8, 4)),
        *(
            (it, (f"argon2{kind.name.lower()}", 19, 256, 2, 1, 8, 32))
            for kind, it in RECORDS.items()
        ),
    )
    def test_each_number_is_in_its_place(self, record, wanted):
        found = rigzumal.parts(record)
        self.assertEqual((found, found.costs), (rigzumal.Parts(*wanted), wanted[:5]))


class Opaque(unittest.TestCase):
    """RFC 8265's form of a password."""

    @each(
        *((it, None) for it in ("correct horse battery staple", "Correct Horse Battery Staple")),
        *((it, None) for it in ("\u03c0\u00df\u00e5", "Jack of \u2666s", "foo\u1680bar")),
        ("", "the password is empty"),
        ("my cat is a \u0009by", "the password has a character that can't be typed"),
    )
    def test_examples_of_the_rfc(self, text, said):
        """The examples of RFC 8265's table 2, and the texts that the RFC refuses."""
        if said:
            self.assertRaisesRegex(ValueError, f"^{said}$", opaque_string, text)
        else:
            self.assertEqual(opaque_string(text), text.replace("\u1680", " "))

    @each("caf\u00e9", "\u1e9b\u0323", "\uac00", "na\u00efve \u212b")
    def test_each_keyboard_makes_the_same(self, text):
        made = {opaque_string(unicodedata.normalize(it, text)) for it in ("NFC", "NFD")}
        self.assertEqual(len(made), 1)
        self.assertEqual(opaque_string(*made), *made)  # a second application changes nothing

    @each(
        *("\0", "\n", "\r", "\x7f", "\x85", "\u00ad", "\u202e", "\u2028", "\ufeff"),
        *("\ue000", "\ufdd0", "\U0010ffff", "\ud800", "\u0378", "\u115f", "\u3164"),
        *("\u034f", "\u17b4", "\u180e", "\u0640", "\U000e0041", "\U000e0100", "\ufe00"),
        # The exceptions of RFC 5892, section 2.6, and both ends of the ranges that nobody sees or
        # types alone.
        *("\u07fa", "\u302e", "\u302f", *"\u3031\u3032\u3033\u3034\u3035", "\u303b"),
        *("\u1100", "\u11ff", "\u17b5", "\u180b", "\u180f", "\ua960", "\ua97c", "\ud7b0"),
        *("\ud7fb", "\ufe0d", "\uffa0", "\U000e01ef"),
    )
    def test_what_nobody_types(self, odd):
        """Characters that nobody types are refused, and the exception doesn't show the password."""
        with self.assertRaises(ValueError) as raised:
            opaque_string(f"hunter{odd}2")
        self.assertNotIn("hunter", str(raised.exception))

    @each(
        *("\u2764\ufe0f", "\U0001f469\u200d\U0001f680", "\u0646\u0627\u0645\u0647\u200c"),
        *("\uff21\uff22", "\u0928\u094d\u200d", "\u5bc6\u7801", "\ud55c\uae00", "a\u0301b"),
        *("\u3030\u3036", "\u1200", "\u2764\ufe0e"),
    )
    def test_what_people_type(self, text):
        self.assertTrue(opaque_string(text))
