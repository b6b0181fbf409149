"""The hashes of each check and step, counted by the memory of their tables (tables.c): a wrong
password costs as many as a right one."""

import ctypes
import itertools
import unittest

from rigzumal_calls import LIBRARY, RIGZUMAL, call, inputs, written_text
from steps import OPERATIONS, pair, step_from

SALT = "$c29tZXNhbHQ"
# Costs by the KiB of their table.
TABLES = {
    f"$argon2id$v=19$m=512,t=1,p=2{SALT}": 512,
    f"$argon2id$v=19$m=768,t=1,p=3{SALT}": 768,
    f"$scrypt$ln=7,r=8,p=1{SALT}": 128,
}
PASSWORDS = {"right": RIGZUMAL.OK, "wrong": RIGZUMAL.MISMATCH}


def rows(*lists):
    """Each combination of costs, with a secret or none and one thread or two; scrypt has no
    secret."""
    for *costs, secret, threads in itertools.product(*lists, (None, "pepper"), (1, 2)):
        if secret is None or "scrypt" not in str(costs):
            yield *costs, {"secret": secret, "threads": threads}


def record_of(costs, given):
    of_password = inputs(password="right", **given)
    return written_text("record_from", RIGZUMAL.TEXT_SIZE, 32, costs, of_password)[1]


def tables(operation, costs, setting):
    """The KiB of an operation at a record of these costs, or at none, whatever the password."""
    if costs is None or operation == RIGZUMAL.ENROL:
        return TABLES[setting] if (costs, operation) == (None, RIGZUMAL.ENROL) else 0
    is_new = operation == RIGZUMAL.UPGRADE and costs != setting
    return TABLES[costs] + TABLES[setting] * (is_new or operation == RIGZUMAL.CHANGE)


class Hashes(unittest.TestCase):
    def check(self, answer, kib, made, *given, **named):
        """A call must give this answer, and take tables of so many KiB."""
        taken = ctypes.c_size_t.in_dll(LIBRARY, "taken")
        before = taken.value
        found = made(*given, **named)
        found = found[0] if isinstance(found, tuple) else found
        with self.subTest(given, **named):
            self.assertEqual((found, taken.value - before), (answer, kib))

    def test_checks(self):
        for costs, given in rows(TABLES):
            record = record_of(costs, given)
            for password, answer in PASSWORDS.items():
                judged = inputs(password=password, **given)
                self.check(answer, TABLES[costs], call, "check_from", record, judged)

    def test_steps(self):
        for costs, setting, given in rows((None, *TABLES), TABLES):
            copy = costs and record_of(costs, given)
            for operation, password in itertools.product(OPERATIONS, PASSWORDS):
                step = (operation, copy, pair(password), pair("new"), setting)
                kib = tables(operation, costs, setting)
                self.check(RIGZUMAL.OK, kib, step_from, *step, **given)
