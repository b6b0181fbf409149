"""The calls that read a text and hash nothing: records, costs and settings, good and bad; the need
of a rehash; and the words for faults."""

import ctypes
import re
import unittest

from rigzumal_calls import HEADER, LIBRARY, OLD_RECORD, RECORD, SCRYPT_RECORD, RIGZUMAL
from rigzumal_calls import call, written_text

COSTS = "$argon2id$v=19$m=256,t=2,p=1"
SALT, TAG = "c29tZXNhbHQ", "nf65EA"

# Good texts, with their parts.
PARTS = {
    "$argon2id$v=19$m=65536,t=3,p=4": (2, 19, 65536, 3, 4, 0, 0),
    "$scrypt$ln=17,r=8,p=1": (3, 0, 17, 8, 1, 0, 0),
    "$argon2d$v=19$m=2048,t=7,p=5": (0, 19, 2048, 7, 5, 0, 0),
    f"$argon2i$v=19$m=8,t=1,p=1${SALT}": (1, 19, 8, 1, 1, 8, 0),
    "$scrypt$ln=4,r=3,p=2$c2E": (3, 0, 4, 3, 2, 2, 0),
    RECORD: (2, 19, 256, 2, 1, 8, 32),
    OLD_RECORD: (1, 16, 256, 2, 1, 8, 32),
    SCRYPT_RECORD: (3, 0, 8, 8, 1, 9, 32),
}

# Bad records, each with its fault, or with a number that is out of its range in words.
RECORDS = {
    f"{COSTS}${SALT}${TAG}$": RIGZUMAL.SHAPE,
    f"$argon2x$v=19$m=256,t=2,p=1${SALT}${TAG}": RIGZUMAL.SCHEME,
    f"$argon2id$v=18$m=7,t=2,p=1${SALT}${TAG}": RIGZUMAL.VERSION,
    f"$argon2id$v=19$m=0256,t=2,p=1${SALT}${TAG}": RIGZUMAL.PARAMS,
    f"$argon2id$v=19$m=7,t=2,p=1${SALT}${TAG}": "m=7 is under 8 p (8 KiB)",
    f"$argon2i$v=16$m=2097153,t=1,p=1${SALT}${TAG}": "m=2097153 is over 2097152 (KiB)",
    f"$argon2id$v=19$m=64,t=1,p=256${SALT}${TAG}": "p=256 is not from 1 to 255",
    f"$scrypt$ln=23,r=8,p=1$AA${TAG}": "ln=23: r times 2^ln is over 16777216",
    f"{COSTS}$c29t${TAG}": RIGZUMAL.SALT,
    f"{COSTS}${SALT}$nf65E": RIGZUMAL.TAG,
}

# Bad costs and settings.
OTHERS = {
    "": RIGZUMAL.SHAPE,
    "x": RIGZUMAL.SHAPE,
    "$": RIGZUMAL.SCHEME,
    "$argon2id": RIGZUMAL.SHAPE,
    "$scrypt": RIGZUMAL.SHAPE,
    "$2b$12$abc": RIGZUMAL.SCHEME,
    "$argon2x$v=19$m=8,t=1,p=1": RIGZUMAL.SCHEME,
    "$argon2i$m=8,t=1,p=1": RIGZUMAL.VERSION,
    "$argon2id$v=16$m=8,t=1,p=1": RIGZUMAL.VERSION,
    "$argon2id$v=19$m=8,t=1": RIGZUMAL.PARAMS,
    f"$argon2id$v=19$m=64M,t=1,p=1${SALT}": RIGZUMAL.PARAMS,
    "$argon2id$v=19$m=7,t=1,p=1": "m=7 is under 8 p (8 KiB)",
    f"$argon2d$v=19$m={2**64},t=1,p=1": f"m={2**64 - 1} is over 2097152 (KiB)",
    f"$argon2id$v=19$m=31,t=1,p=4${SALT}": "m=31 is under 8 p (32 KiB)",
    "$argon2d$v=19$m=64,t=0,p=1": "t=0 is not from 1 to 4294967295",
    "$argon2d$v=19$m=64,t=4294967296,p=1": "t=4294967296 is not from 1 to 4294967295",
    "$argon2id$v=19$m=64,t=1,p=0": "p=0 is not from 1 to 255",
    "$scrypt$ln=0,r=8,p=1": "ln=0 is under 1",
    "$scrypt$ln=16,r=1,p=1$AA": "ln=16 is not under 16 r (16)",
    "$scrypt$ln=1,r=0,p=1": "r=0 is not from 1 to 255",
    "$scrypt$ln=1,r=256,p=1": "r=256 is not from 1 to 255",
    "$scrypt$ln=1,r=1,p=256": "p=256 is not from 1 to 255",
    "$argon2id$v=19$m=8,t=1,p=1$c29t": RIGZUMAL.SALT,
    "$argon2id$v=19$m=8,t=1,p=1$": RIGZUMAL.SALT,
}

# The words for faults, in the order of their numbers.
MEANINGS = (
    "no fault|field|argon2id and scrypt|version|form of the scheme|outside its range|the salt|"
    "the tag|out of memory|512 bytes|another password|buffer|kind of Argon2|version of Argon2|"
    "lanes is not 1 to 255|8 KiB a lane to 2 GiB|pass|4 to 2^32 - 1 bytes|an input has 2^32 bytes|"
    "the cost is out of range|the block size is not 1 to 255|the parallelization is not 1 to 255|"
    "the key size is not 1|operation|the copy is not a record|256 bytes|random bytes|differ from|"
    "the password is null|the salt is null|the secret is null|the associated data is null"
).split("|")


def parts(text):
    """The fault of a text, and its parts."""
    found = (ctypes.c_uint32 * 7)(*[99] * 7)
    fault = call("parts", ctypes.byref(found), text)
    return fault, tuple(found) if fault == RIGZUMAL.OK else tuple(set(found))


class Texts(unittest.TestCase):
    def check_explained(self, text, fault, words=None):
        """A fault in words, which are cut off at the end of the buffer."""
        words = words or LIBRARY.rigzumal_strerror(fault).decode()
        for room in (RIGZUMAL.TEXT_SIZE, 5, 1):
            buffer = ctypes.create_string_buffer(b"\x5a" * (room + 1), room + 1)
            self.assertEqual(call("explain", (buffer, room), text), fault, text)
            self.assertEqual(buffer.value.decode(), words[: room - 1], text)
            self.assertEqual(buffer.raw[room:], b"\x5a")

    def check_fault(self, text, said):
        """The fault of a text, from the call for its parts and from the one that explains it."""
        fault, words = (RIGZUMAL.RANGE, said) if isinstance(said, str) else (said, None)
        self.assertEqual(parts(text), (fault, (99,)), text)
        self.check_explained(text, fault, words)
        return fault

    def test_parts(self):
        for text, wanted in PARTS.items():
            self.assertEqual(parts(text), (RIGZUMAL.OK, wanted))
            salt_size, tag_size = wanted[-2:]
            self.assertEqual(
                call("record_fault", text), RIGZUMAL.OK if tag_size else RIGZUMAL.SHAPE
            )
            if salt_size and not tag_size:
                self.assertEqual(call("setting_fault", text), RIGZUMAL.OK)
            self.check_explained(text, RIGZUMAL.OK)
        self.assertEqual(call("setting_fault", RECORD), RIGZUMAL.SHAPE)
        setting = f"$argon2id$v=16$m=64,t=1,p=1${SALT}"
        self.assertEqual(call("setting_fault", setting), RIGZUMAL.VERSION)

    def test_faults(self):
        for text, said in OTHERS.items():
            self.check_fault(text, said)
        for text, said in RECORDS.items():
            fault = self.check_fault(text, said)
            self.assertEqual(call("record_fault", text), fault, text)
            self.assertEqual(call("check", text, b"x"), fault, text)
            self.assertEqual(call("check_threads", text, b"x", 2), fault, text)
            self.assertEqual(call("check_with_secret", text, b"x", b"secret"), fault, text)

    def test_long_texts(self):
        """Texts that are too long for any record, and texts of nearly that length."""
        self.assertEqual(call("record_fault", "$" * 599), RIGZUMAL.TOO_LONG)
        for size in range(480, 600):
            self.check_fault(
                "$" * size, RIGZUMAL.SCHEME if size < RIGZUMAL.TEXT_SIZE else RIGZUMAL.TOO_LONG
            )
            fault, _ = parts("$scrypt$ln=4,r=8,p=1$".ljust(size, "A"))
            self.assertIn(fault, (RIGZUMAL.SALT, RIGZUMAL.TOO_LONG, RIGZUMAL.SHAPE))
            one_too_many = f"{RECORD}$".ljust(size, "A")
            fault = RIGZUMAL.SHAPE if size < RIGZUMAL.TEXT_SIZE else RIGZUMAL.TOO_LONG
            self.check_fault(one_too_many, fault)
            self.assertEqual(call("needs_rehash", one_too_many, COSTS, 8, 32), fault)
            self.assertEqual(call("needs_rehash", RECORD, one_too_many, 8, 32), fault)

    def test_long_costs(self):
        """Costs and salts that together are too long, or nearly."""
        good = "$argon2id$v=19$m=16,t=1,p=2"
        for size in range(1, 1100):
            costs = good[:size].ljust(size, "0")
            for salt in map(bytes, range(8, 600, 148)):
                given = (RIGZUMAL.TEXT_SIZE, 32, costs, salt, b"x")
                fault, _ = written_text("record", *given)
                if costs == good and len(salt) == 8:
                    self.assertEqual(fault, RIGZUMAL.OK)
                elif size + 1 + (len(salt) * 4 + 2) // 3 >= RIGZUMAL.TEXT_SIZE:
                    self.assertEqual(fault, RIGZUMAL.TOO_LONG, (size, len(salt)))
                else:
                    self.assertNotIn(fault, (RIGZUMAL.OK, RIGZUMAL.TOO_LONG), (size, len(salt)))

    def test_needs_rehash(self):
        of_i, scrypt = COSTS.replace("2id", "2i"), "$scrypt$ln=8,r=8,p=1"
        other_scrypt = ("$scrypt$ln=7,r=8,p=1", "$scrypt$ln=8,r=9,p=1", "$scrypt$ln=8,r=8,p=2")
        for record, costs, salt_size, tag_size, wanted in (
            (RECORD, COSTS, 8, 32, RIGZUMAL.OK),
            (RECORD, f"{COSTS}${SALT}", 0, 32, RIGZUMAL.OK),
            (RECORD, f"{COSTS}$c29tZXNhbHRz", 0, 32, RIGZUMAL.OTHER_COSTS),
            (RECORD, COSTS, 9, 32, RIGZUMAL.OTHER_COSTS),
            (RECORD, COSTS, 8, 33, RIGZUMAL.OTHER_COSTS),
            (RECORD, COSTS, 8, 2**32 + 32, RIGZUMAL.OTHER_COSTS),
            (RECORD, COSTS.replace("256", "257"), 8, 32, RIGZUMAL.OTHER_COSTS),
            (RECORD, COSTS.replace("t=2", "t=1"), 8, 32, RIGZUMAL.OTHER_COSTS),
            (RECORD, COSTS.replace("p=1", "p=2"), 8, 32, RIGZUMAL.OTHER_COSTS),
            (RECORD, of_i, 8, 32, RIGZUMAL.OTHER_COSTS),
            (RECORD, scrypt, 8, 32, RIGZUMAL.OTHER_COSTS),
            (OLD_RECORD, of_i, 8, 32, RIGZUMAL.OTHER_COSTS),
            (SCRYPT_RECORD, scrypt, 9, 32, RIGZUMAL.OK),
            *((SCRYPT_RECORD, it, 9, 32, RIGZUMAL.OTHER_COSTS) for it in other_scrypt),
            ("x", "y", 8, 32, RIGZUMAL.SHAPE),
            (f"$argon2id$v=19$m=7,t=1,p=1${SALT}${TAG}", "$", 8, 32, RIGZUMAL.RANGE),
            (RECORD, COSTS.replace("v=19", "v=18"), 8, 32, RIGZUMAL.VERSION),
            (RECORD, RECORD, 0, 32, RIGZUMAL.SHAPE),
            (RECORD, f"{COSTS}${SALT}", 8, 32, RIGZUMAL.SHAPE),
        ):
            found = call("needs_rehash", record, costs, salt_size, tag_size)
            self.assertEqual(found, wanted, (record, costs, salt_size, tag_size))

    def test_words(self):
        """Each fault has its own word, which is its name in the header, and a meaning that
        describes the fault."""
        faults = re.search(r"enum rigzumal_fault {(.*?)};", HEADER, re.S)[1]
        names = re.findall(r"RIGZUMAL_(\w+?)(?:_FAULT)? = (\d+)", faults)
        self.assertEqual([int(number) for _, number in names], list(range(len(MEANINGS))))
        for (name, number), meaning in zip(names, MEANINGS):
            word = LIBRARY.rigzumal_word(int(number)).decode()
            self.assertEqual(word, name.replace("_", "").lower())
            self.assertIn(meaning, LIBRARY.rigzumal_strerror(int(number)).decode())
        for number in (-1, len(names)):
            self.assertEqual(LIBRARY.rigzumal_word(number), b"unknown")
            self.assertEqual(LIBRARY.rigzumal_strerror(number), b"no such fault")
