"""An error report about accounts shows nothing of a password or a pepper, whatever an operation
raises."""

import sqlite3
from unittest import mock

import engines
from support import LOW, Base, called
from rigzumal import InvalidRecordError, OutOfMemoryError, _library
from rigzumal.accounts import OutcomeUnknown, StoreFault, Unavailable
from rigzumal.accounts.types import Kind, Request
from tests.frames import shown

TYPED, NEWER, PEPPER = "HUNTER22", "HUNTER23", "PEPPER99"
ENROL, VERIFY, LOGIN = f"enrol ann {TYPED}", f"verify ann {TYPED}", f"login ann {TYPED}"
UPGRADE, REMOVE, RESET = f"upgrade ann {TYPED}", f"remove ann {TYPED}", f"reset ann {TYPED}"
CHANGE = f"change ann {TYPED} {NEWER}"
CALLS = (ENROL, VERIFY, LOGIN, UPGRADE, REMOVE, RESET, CHANGE)
# The operations that read the record.
READ = (VERIFY, LOGIN, UPGRADE, REMOVE, CHANGE)
# Those that change an account with a record of other costs, except `login`.
ALWAYS_CHANGE = (UPGRADE, REMOVE, RESET, CHANGE)
PARTS = (Kind.CHANGE, "ann", TYPED, NEWER)


class Frames:
    """The frames of operations, over threads and over tasks."""

    low = LOW.replace(secrets=[b"newer", PEPPER.encode()])
    high = low.replace(memory_cost=128)

    def assert_hidden(self, kind, call, *given, **named):
        """The call raises this exception, and neither its frames nor its text show the
        arguments."""
        with self.assertRaises(kind):
            call(*given, **named)
        try:
            call(*given, **named)
        except kind as error:
            self.assertEqual(shown(error, TYPED, NEWER, PEPPER), [], repr(error))

    def assert_all_hidden(self, kind, accounts, texts=CALLS, **more):
        for text in texts:
            with self.subTest(text=text):
                self.assert_hidden(kind, called, accounts, text, **more)

    def assert_parts_hidden(self, kind, accounts):
        """Calls the parts of a change until one raises this exception, and searches for the
        arguments."""

        def in_parts(request):
            accounts.commit(accounts.work(accounts.begin(request)))

        for call in (accounts.perform, in_parts):
            self.assert_hidden(kind, call, Request(*PARTS))

    def test_too_little_memory(self):
        self.give(TYPED)
        accounts = self.accounts(self.high)
        library = mock.Mock(wraps=_library._library)
        for name in ("step", "check", "record"):
            setattr(library, f"rigzumal_{name}_from", lambda *given: _library.MEMORY)
        with mock.patch.object(_library, "_library", library):
            self.assert_all_hidden(OutOfMemoryError, accounts, (*READ, RESET))
            self.assert_parts_hidden(OutOfMemoryError, accounts)
            self.assert_hidden(OutOfMemoryError, accounts.new_record, TYPED)
            self.put(None)
            self.assert_all_hidden(OutOfMemoryError, accounts)

    def test_a_record_of_another_scheme(self):
        """A record of another scheme: any visitor may type the name of a user who hasn't moved."""
        self.put("{SSHA}a record of another scheme")
        accounts = self.accounts(self.high)
        self.assert_all_hidden(InvalidRecordError, accounts, READ)
        self.assert_parts_hidden(InvalidRecordError, accounts)
        self.assert_all_hidden(TypeError, self.accounts(foreign=lambda *given: "yes"), READ)

        def fails(record, password):
            raise StopIteration("mine")

        self.assert_all_hidden((RuntimeError, StopIteration), self.accounts(foreign=fails), READ)

    def test_what_the_table_refuses(self):
        self.give(TYPED)
        accounts = self.accounts(self.high)
        self.execute(engines.AFTER_UPDATE + " BEGIN SELECT RAISE(ABORT, 'refused'); END")
        self.assert_all_hidden(StoreFault, accounts, (UPGRADE, RESET, CHANGE))
        self.assert_parts_hidden(StoreFault, accounts)
        self.execute("DROP TABLE users")
        self.assert_all_hidden(StoreFault, accounts)
        self.assert_parts_hidden(StoreFault, accounts)

    def test_commits_without_an_answer(self):
        for text in ALWAYS_CHANGE:
            self.give(TYPED)
            accounts = self.losing(True, 9999, hasher=self.high, patience=0.0)
            self.assert_all_hidden(OutcomeUnknown, accounts, [text])

    def test_no_connection(self):
        busy = sqlite3.OperationalError("database is locked")
        self.connect = mock.Mock(side_effect=busy)
        accounts = self.accounts(patience=0.0)
        self.assert_all_hidden(Unavailable, accounts)
        self.assert_parts_hidden(Unavailable, accounts)

    def test_what_is_no_password_and_no_key(self):
        accounts, long = self.accounts(), TYPED * 99
        self.assert_hidden(ValueError, accounts.enrol, "ann", long)
        self.assert_hidden(ValueError, accounts.change, "ann", TYPED, long)
        self.assert_hidden(ValueError, accounts.reset, "ann", f"{TYPED}\ud800")
        self.assert_hidden(ValueError, accounts.new_record, long)
        self.assert_hidden(ValueError, Request, Kind.RESET, "ann", "", long)
        for name in ("enrol", "verify", "login", "upgrade", "remove", "reset", "change"):
            with self.subTest(name=name):
                call = getattr(accounts, name)
                self.assert_hidden(TypeError, call, 7, *[TYPED] * (1 + (name == "change")))
                self.assert_hidden(TypeError, call, "ann", *[[TYPED]] * (1 + (name == "change")))
        self.assert_hidden(TypeError, accounts.new_record, [TYPED])

        def refuses(text):
            raise KeyError("mine")

        self.assert_all_hidden(KeyError, self.accounts(prepare=refuses))

    def test_hooks_that_fail(self):
        self.give(TYPED)

        def fails(conn, reply):
            raise KeyError("mine")

        self.assert_all_hidden(KeyError, self.accounts(self.high), also=fails)

    def test_an_interrupt(self):
        self.give(TYPED)
        accounts = self.accounts(self.high)
        accounts._table.compare = mock.Mock(side_effect=KeyboardInterrupt)
        self.assert_all_hidden(KeyboardInterrupt, accounts, ALWAYS_CHANGE)


class OfThreads(Frames, Base):
    """Accounts."""


class OfTasks(Frames, engines.OnSqliteTasks, Base):
    """AsyncAccounts, whose hashes run in other threads."""
