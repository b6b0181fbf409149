"""A report of an error shows nothing of a password or a pepper, whatever a call raises."""

import contextlib
import ctypes
import types
import unittest
from unittest import mock

from records import ARGON2, LEAST, LEAST_COSTS

import rigzumal
from rigzumal import PasswordHasher, ScryptHasher, _hidden, _library, argon2_cffi
from rigzumal import opaque_string
from rigzumal.argon2_cffi import low_level
from tests.frames import shown
from tests.helpers import each

TYPED, PEPPER = "HUNTER22", b"PEPPER99"
DATA, NO_TEXT = TYPED.encode(), TYPED + "\ud800"
PEPPERED = LEAST.replace(secret=PEPPER)
ROTATING = LEAST.replace(secrets=[b"newer", PEPPER])
SCRYPT = ScryptHasher(1, 1, 1)
CFFI = argon2_cffi.PasswordHasher(1, 8, 1)
RAW = (DATA, b"somesalt", 1, 8, 1, 32, low_level.Type.ID)
LONG_SALT = f"$argon2id$v=19$m=8,t=1,p=1${'YWFh' * 18}$nf65EA"  # which the library doesn't read


def argon2(password, salt=b"somesalt", **named):
    return rigzumal.argon2(password, salt, **{**LEAST_COSTS, "secret": PEPPER, **named})


def scrypt(password, salt=b"somesalt", **named):
    return rigzumal.scrypt(password, salt, **{"log2_n": 1, "r": 1, "p": 1, **named})


# Calls that hash, with a password and perhaps a pepper.
HASHING = (
    *((it.hash, TYPED) for it in (LEAST, PEPPERED, ROTATING, SCRYPT, CFFI)),
    *((it.verify, ARGON2, TYPED) for it in (LEAST, PEPPERED, ROTATING, SCRYPT, CFFI)),
    *((it.verify_and_rehash, ARGON2, TYPED) for it in (LEAST, PEPPERED, ROTATING, SCRYPT)),
    *((it, TYPED) for it in (argon2, scrypt)),
    *((it, *RAW) for it in (low_level.hash_secret, low_level.hash_secret_raw)),
    (low_level.verify_secret, ARGON2.encode(), DATA, low_level.Type.ID),
    (low_level.verify_secret, LONG_SALT.encode(), DATA, low_level.Type.ID),
)
# Calls that are refused before the hash, with the fault of the call.
REFUSED = (
    *((it.hash, TYPED, {"salt": b"x" * 99}) for it in (LEAST, PEPPERED, ROTATING, SCRYPT)),
    *((it.hash, TYPED, {"salt": TYPED}) for it in (LEAST, PEPPERED, ROTATING, SCRYPT, CFFI)),
    *((it.hash, wrong) for it in (LEAST, PEPPERED, SCRYPT, CFFI) for wrong in (NO_TEXT, [DATA])),
    *((it.verify, "{SSHA}x", TYPED) for it in (LEAST, PEPPERED, ROTATING, SCRYPT, CFFI)),
    *((it.verify, ARGON2, [TYPED]) for it in (LEAST, PEPPERED, ROTATING, SCRYPT, CFFI)),
    *((it.verify_and_rehash, "{SSHA}x", TYPED) for it in (LEAST, PEPPERED, ROTATING, SCRYPT)),
    *((it, TYPED, TYPED) for it in (argon2, scrypt)),
    *((it, NO_TEXT) for it in (argon2, scrypt, opaque_string)),
    (argon2_cffi.PasswordHasher(1, 8, 1, encoding="ascii").hash, TYPED + "\u00e9"),
    *((opaque_string, it) for it in (TYPED + "\0", [TYPED])),
    (argon2, TYPED, {"parallelism": 2}),
    (argon2, TYPED, {"associated": TYPED}),
    (argon2, TYPED, {"secret": [PEPPER]}),
    (scrypt, TYPED, {"log2_n": 99}),
    *((it, *RAW[:2], 0, *RAW[3:]) for it in (low_level.hash_secret, low_level.hash_secret_raw)),
    (low_level.verify_secret, ARGON2.encode(), [DATA], low_level.Type.ID),
    *((PasswordHasher, {"secret": PEPPER, it: 0}) for it in LEAST_COSTS),
    *((PasswordHasher, {"secrets": it}) for it in ([PEPPER, "x"], [b"", PEPPER], "PEPPER99")),
    (PasswordHasher, {"secret": PEPPER, "secrets": [b"x", PEPPER]}),
    (PEPPERED.replace, {"secrets": [b"", PEPPER]}),
    (ROTATING.replace, {"memory_cost": 0}),
)


def refusing(outcome):
    """A library whose hashing calls return this fault's number, or raise this exception."""

    def refuses(*given):
        if isinstance(outcome, int):
            return outcome
        raise outcome

    library = _library._library
    hashing = ("record_from", "check_from", "step_from", "argon2_from", "scrypt")
    others = ("strerror", "word", "explain", "parts")
    calls = {it: getattr(library, f"rigzumal_{it}") for it in others}
    calls.update(dict.fromkeys(hashing, refuses))
    return types.SimpleNamespace(**{f"rigzumal_{it}": call for it, call in calls.items()})


def failing(module, words):
    """A function of a module that raises this text after another has failed, with its password."""
    names = {"__name__": module}
    code = [
        "def fails(own):",
        "    raise KeyError",
        "def called(password):",
        "    try:",
        "        fails(password)",
        "    except KeyError as error:",
        f"        {words}",
    ]
    exec(compile("\n".join(code), "planted", "exec"), names)
    return names["called"]


class Frames(unittest.TestCase):
    def assert_hidden(self, call, *given):
        """The call raises an exception, and neither a frame nor a text shows its arguments."""
        named = given[-1] if isinstance(given[-1], dict) else {}
        raised = None
        try:
            call(*[it for it in given if it is not named], **named)
        except BaseException as error:
            raised = error
        self.assertIsNotNone(raised, "it raises nothing")
        self.assertEqual(shown(raised, TYPED, PEPPER.decode()), [], repr(raised))

    @each(_library.MEMORY, _library.NO_RANDOM, 27, KeyboardInterrupt("planted"))
    def test_what_the_library_refuses(self, outcome):
        """Frames are empty after a lack of memory or random bytes, and after an interrupt amid the
        call."""
        for call in HASHING:
            with self.subTest(call=call), mock.patch.object(
                _library, "_library", refusing(outcome)
            ):
                self.assert_hidden(*call)

    def test_what_is_refused_before(self):
        for call in REFUSED:
            with self.subTest(call=call):
                self.assert_hidden(*call)

    def test_another_password(self):
        for hasher in (LEAST, PEPPERED, ROTATING, CFFI):
            with self.subTest(hasher=hasher):
                self.assert_hidden(hasher.verify, ARGON2, TYPED)

    def test_what_a_caller_handles_keeps_its_variables(self):
        """A caller's handled exception keeps its variables, whatever is raised meanwhile."""

        def fails(own):
            raise KeyError

        @_hidden.hidden_below
        def called(password):
            fails(password)

        try:
            fails(TYPED)
        except KeyError as handled:
            with contextlib.suppress(KeyError):
                called("another")
            frame = handled.__traceback__.tb_next.tb_frame
            self.assertEqual(frame.f_locals, {"own": TYPED})

    @each("raise ValueError", "raise ValueError from error", "raise ValueError from None")
    def test_what_an_exception_came_of(self, words):
        """The frames of an exception's cause are emptied too, whichever way it is chained."""
        self.assert_hidden(_hidden.hidden(failing("rigzumal.planted", words)), TYPED)

    def test_exceptions_that_came_of_each_other(self):
        """Exceptions that are each other's cause are visited once, and all emptied."""

        def called(password):
            raised = [self.raised_by("rigzumal.planted", password) for _ in range(3)]
            for one, other in zip(raised, [*raised[1:], raised[0]]):
                one.__cause__ = other
            raise raised[0]

        self.assert_hidden(_hidden.hidden(called), TYPED)

    def raised_by(self, module, password):
        """The exception of a module's function, in which a variable holds the password."""
        try:
            failing(module, "raise")(password)
        except KeyError as error:
            self.assertNotEqual(shown(error, TYPED), [])
            return error

    @each(
        (_hidden.hidden_below, "of_another", False),
        (_hidden.hidden_in_django, "of_another", True),
        (_hidden.hidden_in_django, "django.db.models", False),
        (_hidden.hidden, "of_another", True),
        (_hidden.hidden, "django.db.models", True),
    )
    def test_frames_of_other_modules(self, hide, module, shows):
        """`hidden_below` empties all frames below, `hidden_in_django` leaves those of a signal's
        handler, and `hidden` those of a hook."""
        try:
            hide(failing(module, "raise"))(TYPED)
        except KeyError as error:
            self.assertEqual(shown(error, TYPED) != [], shows)
        else:
            self.fail("it raises nothing")

    @each(_hidden.hidden_below, _hidden.hidden_in_django, _hidden.hidden)
    def test_a_generator_that_goes_on(self, hide):
        """A caller's generator isn't closed if it handles an exception and goes on, and a call
        raises the same exception again."""

        def notes(noted):
            while True:
                try:
                    yield "waits"
                except KeyError as error:
                    noted.append(error)

        def fails():
            raise noted[0]

        noted = []
        generator = notes(noted)
        next(generator)
        self.assertEqual(generator.throw(KeyError()), "waits")
        with contextlib.suppress(KeyError):  # assertRaises itself closes generators
            hide(fails)()
        self.assertEqual(next(generator), "waits")

    def test_a_coroutine_of_asgiref(self):
        """Frames of asgiref's coroutines may have the password, and are emptied."""
        names = {"__name__": "asgiref.sync"}
        exec(compile("async def called(own): raise KeyError", "planted", "exec"), names)
        call = _hidden.hidden_below(lambda own: names["called"](own).send(None))
        self.assert_hidden(call, TYPED)

    @each(LEAST.hash, LEAST.verify, rigzumal.argon2, opaque_string, low_level.hash_secret)
    def test_names_and_texts_stay(self, call):
        """A wrapped function keeps its name and its text for `help`."""
        code = getattr(call, "__wrapped__").__code__
        self.assertEqual(call.__name__, code.co_name)
        self.assertTrue(call.__doc__)

    def test_modules_whose_names_begin_alike(self):
        """Modules whose names only begin like ours are a caller's, and keep their variables."""
        try:
            _hidden.hidden(failing("rigzumal_shop", "raise"))(TYPED)
        except KeyError as error:
            self.assertIn("fails.own", shown(error, TYPED))
        else:
            self.fail("it raises nothing")

    def raised_with(self, held):
        """The exception of a function outside of the tests' files, with this variable."""
        names = {}
        exec(compile("def called(new): raise KeyError", "a module", "exec"), names)
        try:
            names["called"](held)
        except KeyError as error:
            return shown(error, TYPED)

    def test_the_search_finds_what_is_there(self):
        """The search finds a secret in a variable of any kind, but not under a name that a report
        hides."""
        structure = _library.StepInputs(new_password=DATA)
        buffer, odd = ctypes.create_string_buffer(DATA), types.SimpleNamespace(x=TYPED)
        for held in (TYPED, DATA, bytearray(DATA), structure, buffer, [{"x": (DATA,)}], odd):
            self.assertEqual(self.raised_with(held), ["called.new"], held)
        for held in ({"password": TYPED}, _library.Inputs(password=DATA), PEPPERED):
            self.assertEqual(self.raised_with(held), [], held)
