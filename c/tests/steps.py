"""Steps: each operation at each copy of a record, by the proved call, and by the call in C with a
secret or threads."""

import ctypes
import itertools
import unittest

from rigzumal_calls import (
    OLD_RECORD,
    RECORD,
    SCRYPT_RECORD,
    RIGZUMAL,
    StepInputs,
    inputs,
    written_text,
)

COSTS = "$argon2id$v=19$m=256,t=2,p=1$c29tZXNhbHQ"
CHEAP = "$argon2id$v=19$m=8,t=1,p=1$c29tZXNhbHQ"
SCRYPT = "$scrypt$ln=4,r=8,p=1$c2FsdA"
NO_REPLY = 99
OPERATIONS = (RIGZUMAL.ENROL, RIGZUMAL.VERIFY, RIGZUMAL.CHANGE, RIGZUMAL.UPGRADE, RIGZUMAL.REMOVE)


def step(operation, copy, password, new_password, setting, room=RIGZUMAL.TEXT_SIZE):
    """The proved step: the answer, the record that it wrote, and the reply."""
    reply = ctypes.c_uint32(NO_REPLY)
    given = (ctypes.byref(reply), operation, copy, password, new_password, setting)
    return *written_text("step", room, *given), reply.value


def step_from(operation, copy, password, new_password, setting, room=RIGZUMAL.TEXT_SIZE, **others):
    """The step in C, with a secret or threads: the answer, the record that it wrote, and the
    reply."""
    reply, given = ctypes.c_uint32(NO_REPLY), inputs(StepInputs, operation=operation, **others)
    given.copy, given.setting = (pair(it)[0] for it in (copy, setting))
    given.password, given.password_size = password
    given.new_password, given.new_password_size = new_password
    return *written_text("step_from", room, ctypes.byref(reply), given), reply.value


def pair(text):
    """A pointer and its size."""
    return (None, 0) if text is None else (text.encode(), len(text))


class Steps(unittest.TestCase):
    def check_steps(self, secret, threads):
        """Each operation at each copy: the reply, and the record if the step writes one."""

        def made(password, costs):
            given = inputs(password=password, secret=secret)
            return written_text("record_from", RIGZUMAL.TEXT_SIZE, 32, costs, given)[1]

        old, new, cheap = made("password", COSTS), made("new", COSTS), made("password", CHEAP)
        self.assertEqual(old == RECORD, not secret)
        for operation, copy, password, setting, reply, after in (
            (RIGZUMAL.ENROL, None, "password", COSTS, RIGZUMAL.REPLY_ENROLLED, old),
            (RIGZUMAL.ENROL, old, "password", COSTS, RIGZUMAL.REPLY_EXISTS, ""),
            (RIGZUMAL.VERIFY, old, "password", None, RIGZUMAL.REPLY_YES, ""),
            (RIGZUMAL.VERIFY, old, "Password", None, RIGZUMAL.REPLY_NO, ""),
            (RIGZUMAL.VERIFY, None, "password", None, RIGZUMAL.REPLY_ABSENT, ""),
            (RIGZUMAL.CHANGE, old, "password", COSTS, RIGZUMAL.REPLY_REPLACED, new),
            (RIGZUMAL.CHANGE, old, "Password", COSTS, RIGZUMAL.REPLY_WRONG, ""),
            (RIGZUMAL.CHANGE, None, "password", COSTS, RIGZUMAL.REPLY_ABSENT, ""),
            (RIGZUMAL.UPGRADE, old, "password", CHEAP, RIGZUMAL.REPLY_UPGRADED, cheap),
            (RIGZUMAL.UPGRADE, old, "password", COSTS, RIGZUMAL.REPLY_KEPT, ""),
            (RIGZUMAL.UPGRADE, old, "Password", COSTS, RIGZUMAL.REPLY_WRONG, ""),
            (RIGZUMAL.UPGRADE, None, "password", COSTS, RIGZUMAL.REPLY_ABSENT, ""),
            (RIGZUMAL.REMOVE, old, "password", None, RIGZUMAL.REPLY_REMOVED, ""),
            (RIGZUMAL.REMOVE, old, "Password", None, RIGZUMAL.REPLY_WRONG, ""),
            (RIGZUMAL.REMOVE, None, "password", None, RIGZUMAL.REPLY_ABSENT, ""),
        ):
            given = (operation, copy, pair(password), pair("new"), setting)
            for room in (RIGZUMAL.TEXT_SIZE,) if after else (RIGZUMAL.TEXT_SIZE, 0):
                found = step_from(*given, room=room, secret=secret, threads=threads)
                self.assertEqual(found, (RIGZUMAL.OK, after, reply), given)

    def test_steps(self):
        for secret, threads in ((None, 0), ("", 0), (None, 2), ("pepper", 2)):
            self.check_steps(secret, threads)

    def test_lost_inputs(self):
        """A step refuses a password or a secret that has a size and no bytes, whatever the copy."""
        lost, good = (None, 8), pair("password")
        for operation, copy, secret, threads in itertools.product(
            OPERATIONS, (None, RECORD), (None, "pepper"), (1, 2)
        ):
            given = {"secret": secret, "threads": threads}
            with self.subTest(operation=operation, copy=copy, **given):
                found = step_from(operation, copy, lost, good, COSTS, **given)
                self.assertEqual(found, (RIGZUMAL.NULL_PASSWORD, "", NO_REPLY))
                found = step_from(operation, copy, good, lost, COSTS, **given)
                if operation == RIGZUMAL.CHANGE:
                    self.assertEqual(found, (RIGZUMAL.NULL_PASSWORD, "", NO_REPLY))
                else:  # which reads no new one
                    self.assertEqual(found, step_from(operation, copy, good, good, COSTS, **given))
                given |= {"secret": None, "secret_size": 8}
                found = step_from(operation, copy, good, good, COSTS, **given)
                self.assertEqual(found, (RIGZUMAL.NULL_SECRET, "", NO_REPLY))
        for password, new in ((lost, good), (good, lost)):
            found = step(RIGZUMAL.CHANGE, RECORD, password, new, COSTS)
            self.assertEqual(found, (RIGZUMAL.NULL_PASSWORD, "", NO_REPLY))

    def test_beside_the_proved_one(self):
        """An empty secret changes no tag. So with it, and with threads, each step equals the proved
        one, at good and at bad inputs."""
        passwords = ("password", "another", None, "x" * 257)
        settings = (None, "", "x", COSTS, COSTS + "z", CHEAP, COSTS.replace("2id", "2i"))
        settings += (COSTS.replace("256", "7"), SCRYPT, RECORD)
        for number, (operation, copy, password, new, setting) in enumerate(
            itertools.product(
                (0, *OPERATIONS, 6),
                (None, RECORD, OLD_RECORD, SCRYPT_RECORD, "", "x"),
                passwords,
                ("another", None, "x" * 257),
                settings,
            )
        ):
            room = 20 if number % 7 == 0 else RIGZUMAL.TEXT_SIZE
            given = (operation, copy, pair(password), pair(new), setting, room)
            wanted = step(*given)
            self.assertEqual(step_from(*given, threads=4), wanted, given)
            if copy != SCRYPT_RECORD and setting != SCRYPT:
                self.assertEqual(step_from(*given, secret=""), wanted, given)

    def test_secrets(self):
        """Under another secret every password is wrong. scrypt has no secret: its
        settings are refused, whatever the password, and so are its copies."""
        for operation, copy, setting, wanted in (
            (RIGZUMAL.VERIFY, RECORD, None, (RIGZUMAL.OK, "", RIGZUMAL.REPLY_NO)),
            (RIGZUMAL.CHANGE, RECORD, SCRYPT, (RIGZUMAL.SCHEME, "", NO_REPLY)),
            (RIGZUMAL.VERIFY, SCRYPT_RECORD, None, (RIGZUMAL.SCHEME, "", NO_REPLY)),
            (RIGZUMAL.ENROL, None, SCRYPT, (RIGZUMAL.SCHEME, "", NO_REPLY)),
        ):
            found = step_from(
                operation, copy, pair("password"), pair(None), setting, secret="pepper"
            )
            self.assertEqual(found, wanted, operation)
