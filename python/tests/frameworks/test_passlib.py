"""rigzumal.passlib under all of passlib's own tests, and its own features."""

import contextlib
import functools
import os
import sys
import unittest
from unittest import mock

import here  # noqa: F401 (before rigzumal)
from tests.frames import shown
from tests.helpers import each, need_module, run
from tests.needs import lacking

os.environ["PASSLIB_TEST_MODE"] = "full"

need_module("passlib")

from passlib.exc import MissingBackendError, PasswordSizeError
from passlib.tests import test_handlers_argon2 as argon2_tests
from passlib.tests import test_handlers_scrypt as scrypt_tests

import rigzumal.passlib
from rigzumal import _library

ours, our_scrypt = rigzumal.passlib.argon2, rigzumal.passlib.scrypt


class Named:
    """passlib's tests; a skip of a kind of handler that we lack gets our own reason."""

    def skipTest(self, reason):
        raise lacking(f"another kind of handler: {reason}")


class Argon2(Named, argon2_tests._base_argon2_test):
    class handler(ours):
        memory_cost = 512
        default_rounds = 2
        parallelism = 2

    backend = None
    descriptionPrefix = "argon2 over rigzumal"
    known_correct_hashes = argon2_tests.argon2_argon2_cffi_test.known_correct_hashes

    def test_data_parameter(self):
        self.backend = "argon2pure"  # the one of passlib's backends that takes data=, as this
        super().test_data_parameter()

    def do_stub_encrypt(self, handler=None, **settings):
        # a string without hashing: the tests ask for the highest numbers of passes
        made = (handler or self.handler).using(**settings)(use_defaults=True)
        made.checksum = made._stub_checksum
        return made.to_string()


class Scrypt(Named, scrypt_tests._scrypt_test):
    handler = our_scrypt
    backend = None
    descriptionPrefix = "scrypt over rigzumal"

    def populate_settings(self, kwds):
        kwds.setdefault("rounds", 6)
        super().populate_settings(kwds)


class Ours(unittest.TestCase):
    def test_the_defaults(self):
        """The defaults are RFC 9106's second choice, whatever passlib's are."""
        record = ours.hash("secret")
        self.assertRegex(record, r"^\$argon2id\$v=19\$m=65536,t=3,p=4\$.{22}\$.{43}$")

    @each(({}, 4), ({"max_threads": -1}, 4), ({"max_threads": 1}, 1), ({"max_threads": 3}, 3))
    def test_threads(self, settings, threads):
        handler = ours.using(memory_cost=64, time_cost=1, parallelism=4, **settings)
        with mock.patch.object(rigzumal, "argon2", wraps=rigzumal.argon2) as call:
            record = handler.hash("password")
            self.assertTrue(handler.verify("password", record))
        self.assertEqual({it.kwargs["threads"] for it in call.mock_calls}, {threads})
        self.assertTrue(ours.verify("password", record))

    @each(ours.using(memory_cost=64, time_cost=1), our_scrypt.using(rounds=4))
    def test_a_wrong_password_costs_one_hash_as_a_right_one(self, handler):
        record, call = handler.hash("right"), getattr(rigzumal, handler.name)
        for password in ("right", "wrong"):
            with mock.patch.object(rigzumal, handler.name, wraps=call) as hashed:
                self.assertIs(handler.verify(password, record), password == "right")
            hashed.assert_called_once()

    @each(ours.using(memory_cost=64, time_cost=1), our_scrypt.using(rounds=4))
    def test_a_password_is_all_of_its_bytes(self, handler):
        """A password is all of its bytes, up to passlib's limit, in UTF-8 or not; no bytes are a
        password too."""
        for password in (b"\xff" * 4096, ""):
            record = handler.hash(password)
            self.assertTrue(handler.verify(password, record))
            self.assertFalse(handler.verify(password[:-1] or "x", record))

    def test_no_exception_shows_a_password(self):
        record = ours.using(memory_cost=64, time_cost=1).hash("topsecret")
        for broken in (record[:-1] + "!", record.replace("m=64", "m=7"), record + "$x"):
            with self.assertRaises(ValueError) as caught:
                ours.verify("topsecret", broken)
            self.assertNotIn("topsecret", repr(caught.exception))
        for handler in (ours, our_scrypt):
            with self.assertRaises(PasswordSizeError) as caught:
                handler.hash("topsecret" * 500)
            self.assertNotIn("topsecret", repr(caught.exception))

    @each(ours.using(memory_cost=64, time_cost=1), our_scrypt.using(rounds=4))
    def test_no_frame_shows_a_password(self, handler):
        """No frame shows a password, whatever a call raises; passlib's own frames have it under
        names that reports hide."""
        record = handler.hash("topsecret")
        hashes, verifies = handler.hash, functools.partial(handler.verify, hash=record)
        library = mock.Mock(wraps=_library._library)
        library.rigzumal_argon2_from = library.rigzumal_scrypt = lambda *given: _library.MEMORY
        no_memory = mock.patch.object(_library, "_library", library)
        for call, password, around in (
            *((it, "topsecret", no_memory) for it in (hashes, verifies)),
            *((it, "topsecret\ud800", contextlib.nullcontext()) for it in (hashes, verifies)),
            *((it, "topsecret" * 500, contextlib.nullcontext()) for it in (hashes, verifies)),
        ):
            raised = None
            with self.subTest(call=call, password=password), around:
                try:
                    call(password)
                except (MemoryError, ValueError) as error:
                    raised = error
                self.assertEqual(shown(raised, "topsecret"), [])

    @each(ours, our_scrypt)
    def test_there_is_one_backend(self, handler):
        self.assertEqual(handler.backends, ("rigzumal",))
        for name in ("any", "default", "rigzumal"):
            self.assertIs(handler.has_backend(name), True)
        self.assertIs(handler.has_backend("argon2_cffi"), False)
        self.assertRaises(MissingBackendError, handler.set_backend, "argon2_cffi")

    @each("", "import passlib.hash; passlib.hash.argon2; passlib.hash.scrypt")
    def test_they_are_registered_by_one_call(self, front):
        """One call registers both handlers, also after passlib's own were loaded."""
        said = run(sys.executable, "-W", "ignore", "-c", front + REGISTERED)
        self.assertEqual(said.split()[-4:], ["rigzumal"] * 4)  # after passlib's own warning


REGISTERED = """
import rigzumal.passlib
rigzumal.passlib.register()
import passlib.hash
from passlib.context import CryptContext
context = CryptContext(["argon2", "scrypt"])
for name in ("argon2", "scrypt"):
    print(context.handler(name).get_backend())
    print(getattr(passlib.hash, name).get_backend())
"""
