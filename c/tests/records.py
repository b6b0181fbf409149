"""The calls for tags, records and checks, at all sizes and at bad input, with and without a secret
and threads."""

import ctypes
import errno
import itertools
import unittest

from rigzumal_calls import LIBRARY, OLD_RECORD, RECORD, RECORD_OF_I, RECORD_OF_LANES
from rigzumal_calls import SCRYPT_RECORD, RIGZUMAL, call, inputs, numbers, written, written_text

COSTS = "$argon2id$v=19$m=256,t=2,p=1"
SECRETS = (None, b"secret")
COSTS_OF_LANES = COSTS.replace("p=1", "p=2")
LONG = 2**32
ARGON2, SCRYPT = "$argon2id$v=19$m=16,t=1,p=2", "$scrypt$ln=1,r=1,p=1"
GETRANDOM = ctypes.CFUNCTYPE(
    ctypes.c_ssize_t, ctypes.c_void_p, ctypes.c_size_t, ctypes.c_uint, use_errno=True
)
# An input that failed to load has a size and no bytes: its fault.
INPUTS = ("password", "salt", "secret", "associated")
LOST = {name: getattr(RIGZUMAL, f"NULL_{name.upper()}") for name in INPUTS}


class Records(unittest.TestCase):
    def test_room(self):
        """A record into buffers of each size up to its own: the call writes nothing, or all of the
        record."""
        end = len(RECORD) + 1
        for room in range(end + 2):
            wanted = (RIGZUMAL.OK, RECORD) if room >= end else (RIGZUMAL.NO_ROOM, "")
            given = (32, COSTS, b"somesalt", b"password")
            self.assertEqual(written_text("record", room, *given), wanted, room)
        given = (RIGZUMAL.TEXT_SIZE, 32, f"{COSTS}$c29tZXNhbHQ", (None, 0), b"password")
        self.assertEqual(written_text("record", *given), (RIGZUMAL.OK, RECORD))

    def test_sizes_and_numbers(self):
        """Tags and keys of each size, and one bad number, read by C: only the proved code reads the
        others."""
        argon2 = (b"password", b"somesalt", (None, 0), (None, 0))
        scrypt = (b"password", b"salt")
        for size in (*range(201), 2000):
            answer, _ = written("argon2", size, numbers(2, 19, 8, 1, 1), *argon2)
            self.assertEqual(answer, RIGZUMAL.TAG_SIZE_FAULT if size < 4 else RIGZUMAL.OK)
            answer, _ = written("scrypt", size, numbers(1, 1, 1), *scrypt)
            self.assertEqual(answer, RIGZUMAL.KEY_SIZE if size < 1 else RIGZUMAL.OK)
        self.assertEqual(
            written("argon2", 32, numbers(3, 19, 8, 1, 1), *argon2)[0], RIGZUMAL.NO_KIND
        )
        self.assertEqual(written("scrypt", 32, numbers(1, 0, 1), *scrypt)[0], RIGZUMAL.BLOCK_SIZE)

    def test_records_of_others(self):
        for record in (RECORD, RECORD_OF_LANES, RECORD_OF_I, OLD_RECORD, SCRYPT_RECORD):
            for password in (b"password", b"Password", b""):
                is_right = password == b"password" and record != SCRYPT_RECORD
                with self.subTest(record, password=password):
                    found = {call("check", record, password)}
                    found |= {call("check_threads", record, password, it) for it in (1, 3)}
                    self.assertEqual(found, {RIGZUMAL.OK if is_right else RIGZUMAL.MISMATCH})

    def test_faults_of_written_records(self):
        for room, salt, tag, passes, fault in (
            (RIGZUMAL.TEXT_SIZE, b"short", b"tags", 2, RIGZUMAL.SALT),
            (RIGZUMAL.TEXT_SIZE, b"somesalt", b"tag", 2, RIGZUMAL.TAG),
            (RIGZUMAL.TEXT_SIZE, b"somesalt", b"tags", 0, RIGZUMAL.RANGE),
            (40, b"somesalt", b"tags", 2, RIGZUMAL.NO_ROOM),
            (RIGZUMAL.TEXT_SIZE, (None, 16), b"tags", 2, RIGZUMAL.NULL_SALT),
            (RIGZUMAL.TEXT_SIZE, b"somesalt", (None, 32), 2, RIGZUMAL.TAG),
        ):
            given = (numbers(2, 19, 256, passes, 1), salt, tag)
            self.assertEqual(written_text("argon2_write", room, *given), (fault, ""))

    def test_secrets(self):
        """Records with a secret beside those without, of both versions, and of scrypt, which has
        none."""
        given = (RIGZUMAL.TEXT_SIZE, 32, COSTS, b"somesalt", b"password")
        answer, record = written_text("record_with_secret", *given, b"pepper")
        self.assertEqual(answer, RIGZUMAL.OK)
        self.assertNotEqual(record, RECORD)
        self.assertEqual(call("check", record, b"password"), RIGZUMAL.MISMATCH)
        for password, secret in itertools.product(
            (b"password", b"Password"), (b"pepper", b"P", b"")
        ):
            is_right = password == b"password"
            of_record = RIGZUMAL.OK if is_right and secret == b"pepper" else RIGZUMAL.MISMATCH
            of_others = RIGZUMAL.OK if is_right and secret == b"" else RIGZUMAL.MISMATCH
            for text, wanted in (
                (record, of_record),
                (RECORD, of_others),
                (OLD_RECORD, of_others),
                (SCRYPT_RECORD, RIGZUMAL.SCHEME),
            ):
                answer = call("check_with_secret", text, password, secret)
                self.assertEqual(answer, wanted, (text, password, secret))
        given = (RIGZUMAL.TEXT_SIZE, 32, "$scrypt$ln=4,r=1,p=1", b"somesalt", b"password")
        self.assertEqual(written_text("record_with_secret", *given, b"x"), (RIGZUMAL.SCHEME, ""))

    def test_faults(self):
        """One bad input of a new record."""
        for costs, salt, tag_size, room, fault in (
            ("$argon2id$v=16$m=16,t=1,p=2", b"somesalt", 32, 513, RIGZUMAL.VERSION),
            ("$argon2id$v=19$m=15,t=1,p=2", b"somesalt", 32, 513, RIGZUMAL.RANGE),
            *((COSTS, bytes(size), 32, 513, RIGZUMAL.SALT) for size in (1, 5, 7, 49, 100, 300)),
            (COSTS, None, 32, 513, RIGZUMAL.SHAPE),
            (COSTS, bytes(600), 32, 513, RIGZUMAL.TOO_LONG),
            *((COSTS, b"somesalt", size, 513, RIGZUMAL.TAG) for size in (3, 65, LONG + 32)),
            *((COSTS, b"somesalt", 32, room, RIGZUMAL.NO_ROOM) for room in (60, 0)),
        ):
            for secret, threads in itertools.product(SECRETS, (1, 2)):
                given = inputs(password="password", salt=salt, secret=secret, threads=threads)
                found = written_text("record_from", room, tag_size, costs, given)
                self.assertEqual(found, (fault, ""), (costs, salt, tag_size, secret, threads))

    def test_lost_inputs(self):
        """With a lost password, secret or data no record is written or checked. With a lost salt no
        tag is computed; a new record has a random salt, and a check reads none."""
        for (name, fault), threads in itertools.product(LOST.items(), (1, 2)):
            with self.subTest(name, threads=threads):
                good = {"password": "password", "salt": "somesalt", "threads": threads}
                given = inputs(**{**good, name: None, f"{name}_size": 32})
                tag = (numbers(2, 19, 64, 1, 2), given)
                self.assertEqual(written("argon2_from", 32, *tag)[0], fault)
                wanted = RIGZUMAL.OK if name == "salt" else fault
                for costs, record in ((COSTS, RECORD), (COSTS_OF_LANES, RECORD_OF_LANES)):
                    made = written_text("record_from", RIGZUMAL.TEXT_SIZE, 32, costs, given)[0]
                    self.assertEqual((made, call("check_from", record, given)), (wanted, wanted))

    def test_lost_inputs_by_place(self):
        """Lost inputs in the calls with positional inputs: the fault names the first of several."""
        good = {"password": b"password", "salt": b"somesalt", "secret": b"", "associated": b""}
        for at, (name, fault) in enumerate(LOST.items()):
            lost = {each: (None, 32) for each in INPUTS[at:]}
            given = {**good, **lost}
            password, secret = given["password"], given["secret"]
            calls = [written("argon2", 32, numbers(2, 19, 8, 1, 1), *given.values())]
            if name in ("password", "salt"):
                calls.append(written("scrypt", 32, numbers(1, 1, 1), password, given["salt"]))
            if name in ("password", "secret"):
                new = (RIGZUMAL.TEXT_SIZE, 32, COSTS, b"somesalt", password, secret)
                calls.append(written_text("record_with_secret", *new))
                calls.append((call("check_with_secret", RECORD, password, secret),))
            if name == "password":
                for costs in (COSTS_OF_LANES, "$" * 600):
                    new = (RIGZUMAL.TEXT_SIZE, 32, costs, b"somesalt", password)
                    calls += [written_text("record", *new), written_text("record_threads", *new, 2)]
                calls.append((call("check", RECORD_OF_LANES, password),))
                calls.append((call("check_threads", RECORD_OF_LANES, password, 2),))
            for answer, *_ in calls:
                self.assertEqual(answer, fault, name)

    def test_long_inputs(self):
        """An input of 2^32 bytes, which no call reads."""
        plain = {name: "somebyte" for name in INPUTS}
        for name in INPUTS:
            given = inputs(**plain, **{f"{name}_size": LONG}, threads=2)
            found, _ = written("argon2_from", 32, numbers(2, 19, 64, 1, 2), given)
            self.assertEqual(found, RIGZUMAL.INPUT_SIZE, name)
        for secret, threads in itertools.product(SECRETS, (1, 2)):
            given = inputs(
                password="", password_size=LONG, salt_size=8, secret=secret, threads=threads
            )
            found = written_text("record_from", RIGZUMAL.TEXT_SIZE, 32, COSTS, given)
            self.assertEqual(found, (RIGZUMAL.INPUT_SIZE, ""))
            self.assertEqual(call("check_from", RECORD, given), RIGZUMAL.INPUT_SIZE)
            # 4/3 of the second are 16 in 64 bits
            for size in (LONG, 3 * 2**62 + 12, 2**64 - 1):
                given = inputs(password="", salt_size=size, secret=secret, threads=threads)
                found = written_text("record_from", RIGZUMAL.TEXT_SIZE, 32, COSTS, given)
                self.assertEqual(found, (RIGZUMAL.TOO_LONG, ""))


class Salts(unittest.TestCase):
    """Generated salts are the bytes of getrandom, all of them and in their order, whatever the
    pieces. If getrandom fails, no record is written."""

    def record_of(self, piece, costs, salt_size, **others):
        """A record whose salt comes in pieces of this many bytes, or not at all, and the salt."""
        given, draws = bytearray(), itertools.count(1)

        @GETRANDOM
        def getrandom(to, size, flags):
            number = next(draws)
            if flags or piece < 0 or number == 2:
                ctypes.set_errno(errno.EINTR if number == 2 else errno.ENOSYS)
                return -1
            some = bytes((17 * number + 29 * at) % 256 for at in range(min(size, piece)))
            ctypes.memmove(to, some, len(some))
            given.extend(some)
            return len(some)

        drawn = ctypes.c_void_p.in_dll(LIBRARY, "drawn")
        drawn.value = ctypes.cast(getrandom, ctypes.c_void_p).value
        asked = inputs(password="password", salt=None, salt_size=salt_size, **others)
        return written_text("record_from", RIGZUMAL.TEXT_SIZE, 16, costs, asked), bytes(given)

    def test_salts(self):
        """Salts of each size, with and without a secret, on one thread and on two."""
        for secret, threads, costs in itertools.product((None, "x"), (1, 2), (ARGON2, SCRYPT)):
            if secret and costs == SCRYPT:
                continue
            least = 1 if costs == SCRYPT else 8
            for size, piece in itertools.product(range(least, 49), (1, 5, 16, 48)):
                others = {"secret": secret, "threads": threads}
                made, salt = self.record_of(piece, costs, size, **others)
                self.assertEqual((made[0], len(salt)), (RIGZUMAL.OK, size))
                given = inputs(password="password", salt=salt, salt_size=size, **others)
                self.assertEqual(
                    made, written_text("record_from", RIGZUMAL.TEXT_SIZE, 16, costs, given)
                )
            for piece in (-1, 0):
                made, _ = self.record_of(piece, costs, 16, **others)
                self.assertEqual(made, (RIGZUMAL.NO_RANDOM, ""))
