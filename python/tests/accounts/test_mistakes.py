"""Common mistakes, in Python and at a shell, and the words that each message must contain: the
message alone tells its reader what to type."""

import asyncio
import concurrent.futures
import contextlib
import os
import sqlite3
import sys
import warnings
from unittest import mock

import support
from support import FOREIGN, HIGH, LOW, RECORD, Base, each, module, streams
import rigzumal
from rigzumal import InvalidNumbersError, InvalidRecordError, LowMemoryWarning, PasswordHasher
from rigzumal import __main__, _hashers
from rigzumal.accounts import Accounts, AsyncAccounts, PerThread, Postgres, StoreFault, of_engine
from rigzumal.accounts.pools import PerUse

HASHERS = (
    (lambda: LOW.verify("one", RECORD), InvalidRecordError, "pass the record first"),
    (lambda: LOW.verify_and_rehash("one", RECORD), InvalidRecordError, "pass the record first"),
    (lambda: LOW.verify(FOREIGN, "one"), InvalidRecordError, "none of argon2d, argon2i, argon2id"),
    (lambda: LOW.verify("md5$a$b", "one"), InvalidRecordError, "does not begin with '\\$'"),
    (lambda: LOW.verify(f"argon2{RECORD}", "one"), InvalidRecordError, "not begin with '\\$'"),
    # 41 letters, which are never base64
    (lambda: LOW.verify(RECORD[:-2], "one"), InvalidRecordError, "the tag is not base64 of 4 to"),
    (lambda: LOW.verify(f"{RECORD} ", "one"), InvalidRecordError, "a space or a line end after it"),
    (lambda: LOW.hash(None), TypeError, "expected bytes or str, not NoneType"),
    (lambda: LOW.hash(123), TypeError, "expected bytes or str, not int"),
    (lambda: LOW.verify(RECORD, 123), TypeError, "expected bytes or str, not int"),
    (lambda: [*LOW.verify_and_rehash(RECORD, "one")], TypeError, "not NoneType"),
    (lambda: asyncio.run(awaited(LOW)), TypeError, "bool can't be used in 'await'"),
    (lambda: PasswordHasher("argon2id"), TypeError, "time_cost must be an int, not str"),
    (lambda: PasswordHasher(memory_cost="64M"), TypeError, "memory_cost must be an int, not str"),
    (lambda: PasswordHasher(memory_cost=2**22), ValueError, "memory_cost must be 32 to 2097152"),
    (lambda: PasswordHasher(time_cost=0), InvalidNumbersError, "time_cost must be 1 to 4294967295"),
    (lambda: PasswordHasher(memory=65536), TypeError, "unexpected keyword argument 'memory'"),
    (lambda: PasswordHasher(type="id"), TypeError, "type must be Type.ID, Type.I or Type.D"),
    (lambda: PasswordHasher(secret=""), TypeError, "expected bytes, not str"),
    (lambda: rigzumal.argon2(b"x", b"salt"), TypeError, "'time_cost', 'memory_cost'"),
    (lambda: rigzumal.scrypt(b"x", b"salt", n=16, r=8, p=1), TypeError, "argument 'n'"),
)
# Names of other libraries that ours lack: Python's error names the class.
NOT_THERE = ("verify_and_update", "needs_rehash", "check")


THREAD = concurrent.futures.ThreadPoolExecutor(1)  # which starts none before its first work


@contextlib.contextmanager
def use():
    yield


@contextlib.asynccontextmanager
async def of_task():
    yield


async def awaited(hasher):
    return await hasher.verify(RECORD, "one")


class InPython(Base):
    @each(*HASHERS)
    def test_hashers(self, act, kind, words):
        self.assertRaisesRegex(kind, words, act)

    def test_what_other_libraries_have(self):
        for of, name in (
            *((LOW, it) for it in NOT_THERE),
            *((self.accounts(), it) for it in ("authenticate", "create")),
        ):
            self.assertRaisesRegex(AttributeError, f"no attribute '{name}'", getattr, of, name)

    def test_answers_that_are_no_truth(self):
        """verify_and_rehash returns None for a right password; a Reply is neither true nor
        false."""
        self.assertIsNone(LOW.verify_and_rehash(RECORD, "one"))
        reply = self.accounts().login("ann", "two")
        self.assertRaisesRegex(TypeError, "compare it, for example with Reply.YES", bool, reply)
        self.assertNotEqual(reply, False)

    def test_calls_of_accounts(self):
        """Python's own errors name missing and excess arguments."""
        accounts, pool = self.accounts(), PerThread(self.no_connection)
        for act, words in (
            (lambda: accounts.login(email="ann", password="one"), "argument 'email'"),
            (lambda: accounts.change("ann", "one"), "'new_password'"),
            (lambda: Accounts(pool, self.dialect), "'hasher'"),
        ):
            self.assertRaisesRegex(TypeError, words, act)

    @each(64, 128, 8191)
    def test_a_number_of_mebibytes(self, memory):
        """Warns once in each process, at the caller's line; a user's filter may turn the warning
        into an error."""
        with mock.patch.object(_hashers, "_has_warned", False):
            with warnings.catch_warnings(record=True) as told:
                warnings.simplefilter("always")
                hasher = PasswordHasher(memory_cost=memory, parallelism=1)  # of this very frame
                PasswordHasher(memory_cost=memory, parallelism=1)
                hasher.replace(time_cost=1)
            (one,) = told
            said = f"memory_cost={memory} means {memory} KiB, which is low: 64 MiB is 65536"
            self.assertEqual((str(one.message), one.filename), (said, __file__))
            self.assertIs(one.category, LowMemoryWarning)
        with mock.patch.object(_hashers, "_has_warned", False):
            warnings.simplefilter("error")
            for _ in range(2):
                self.assertRaises(LowMemoryWarning, PasswordHasher, memory_cost=memory)

    def test_costs_that_are_no_mistake(self):
        with mock.patch.object(_hashers, "_has_warned", False):
            warnings.simplefilter("error")
            for memory in (8192, 65536):
                self.assertEqual(PasswordHasher(memory_cost=memory).memory_cost, memory)

    def test_the_order_of_two_records_is_no_mistake(self):
        """A password that looks like a record is a wrong password."""
        self.assertFalse(support.is_right(RECORD, RECORD))
        self.assertRaisesRegex(InvalidRecordError, "^(?!.*first)", LOW.verify, "one", "two")

    def test_pools(self):
        """Each kind of accounts names the pools that it accepts, but not the refused one."""

        async def not_asked():
            raise AssertionError

        of_threads, of_tasks = PerThread(self.no_connection), PerUse(not_asked)
        for kind, pool, words in (
            (AsyncAccounts, of_threads, r"not a PerThread: PerUse\(connect\)"),
            (Accounts, of_tasks, r"not a PerUse: PerThread\(connect\)"),
            (Accounts, self.conn, r"not a Connection: PerThread\(connect\)"),
            (AsyncAccounts, self.conn, r"not a Connection: PerUse\(connect\)"),
        ):
            with self.subTest(kind=kind, pool=pool):
                self.assertRaisesRegex(TypeError, words, kind, pool, self.dialect, LOW)
        accounts = AsyncAccounts(self.connect, self.dialect, LOW)
        with self.assertRaisesRegex(TypeError, r"by `async with`, .*: PerUse\(connect\)"):
            asyncio.run(accounts.login("ann", "one"))
        accounts = Accounts(self.another, self.dialect, LOW)
        with self.assertRaisesRegex(TypeError, r"by `with`, .*: PerThread\(connect\)"):
            accounts.login("ann", "one")

    @each(
        (
            lambda case: PerThread(case.conn),
            r"PerThread needs a function that .*, not a Connection",
        ),
        (lambda case: PerThread("sqlite:///users.db"), "opens a connection, not a str"),
        (lambda case: PerUse(case.conn), r"PerUse needs a function that .*, not a Connection"),
        (lambda case: of_engine("sqlite:///users.db"), "an engine of SQLAlchemy, not a str"),
        (lambda case: case.over(use()), r"not a _GeneratorContextManager: PerThread\(connect\)"),
        (lambda case: AsyncAccounts(of_task(), case.dialect, LOW), r"Manager: PerUse\(connect\)"),
        (
            lambda case: case.accounts(patience="10"),
            "patience must be a number of seconds, not a str",
        ),
        (
            lambda case: case.accounts(patience=None),
            "patience must be a number of seconds, not a None",
        ),
        (lambda case: case.accounts(executor=THREAD), "only AsyncAccounts uses an executor"),
        (lambda case: case.accounts(upgrade_from=LOW.costs), "a list of costs, not a str"),
    )
    def test_what_stands_in_the_place_of_another(self, act, words):
        self.assertRaisesRegex(TypeError, words, act, self)

    def test_a_record_among_costs(self):
        with self.assertRaisesRegex(InvalidRecordError, "upgrade_from needs costs such") as raised:
            self.accounts(HIGH, upgrade_from=[RECORD])
        self.assertNotIn(RECORD[-20:], str(raised.exception))

    def test_a_blocking_driver_for_tasks(self):
        """The check closes the connection of a blocking driver, since no task would."""
        made = []

        def connect():
            made.append(self.connect())
            return made[-1]

        accounts = AsyncAccounts(PerUse(connect), self.dialect, LOW)
        with self.assertRaisesRegex(TypeError, "an awaitable: use Accounts and PerThread"):
            asyncio.run(accounts.login("ann", "one"))
        (conn,) = made
        self.assertRaises(sqlite3.ProgrammingError, conn.execute, "SELECT 1")

    @each(
        ({"table": "user"}, "no such table: user"),
        ({"key": "mail"}, "no such column: mail"),
        ({"record": "recrod"}, "no such column: recrod"),
    )
    def test_names_that_are_misspelt(self, names, words):
        accounts = self.accounts(dialect=self.another_dialect(**names))
        for act, *given in (
            (accounts.login, "ann", "one"),
            (accounts.change, "ann", "one", "two"),
            (accounts.reset, "ann", "two"),
        ):
            self.assertRaisesRegex(StoreFault, words, act, *given)

    @each((FOREIGN, "`foreign` that checks"), (RECORD[:-2], "reset this password"))
    def test_a_record_that_cannot_be_read(self, record, words):
        """A record of another scheme needs a hook, and one of ours that is cut off a reset."""
        self.put(record)
        for name, *new in (("login",), ("verify",), ("change", "new")):
            call = getattr(self.accounts(), name)
            self.assertRaisesRegex(InvalidRecordError, words, call, "ann", "x", *new)

    @each(
        (
            lambda case: Accounts(
                PerThread(case.connect), Postgres("users", "name", "record"), LOW
            ),
            "psycopg 3",
        ),
        (
            lambda case: Accounts(
                PerThread(lambda: case.connect(autocommit=False)), case.dialect, LOW
            ),
            "autocommit",
        ),
    )
    def test_connections(self, made, words):
        self.assertRaisesRegex(StoreFault, words, made(self).login, "ann", "one")


class AtAShell(support.Commands):
    def typed(self, *words, status=0):
        """The output of `rigzumal` on both streams."""
        with mock.patch.object(sys, "argv", ["rigzumal", *words]):
            return streams(lambda _: __main__.main(), given="secret", status=status)

    @each(
        ("", "the following arguments are required: command"),
        ("hash secret", "one argument too many; a password is never an argument"),
        ("hash --time 3", "an unknown option, which isn't shown; is --passes meant?"),
        *((f"hash {it}=3", "is --passes meant?") for it in ("--iterations", "--time-cost", "-t")),
        ("hash --rounds 3", "is --passes meant?"),
        *((f"hash {it} 9M", "is --memory meant?") for it in ("--memory-cost", "-m", "-k")),
        *((f"hash {it} 4", "is --lanes meant?") for it in ("--parallelism", "--parallel", "-p")),
        *((f"hash {it} 12", "is --memory, --pass") for it in ("--cost", "--costs", "--setting")),
        *((f"hash --memory {it}", f"'{it}' is not a size") for it in ("M", "x", "6x", "\u0663M")),
        ("hash --memroy 64M", "is --memory meant?"),
        ("hash --pass hunter2", "an unknown option, which isn't shown; is --passes meant?"),
        ("hash --pass=hunter2", "an unknown option, which isn't shown; is --passes meant?"),
        ("accounts --database sqlite:///x add ann --pass hunter2", "isn't shown; is --passes"),
        ("hash --hunter2", "an unknown option, which isn't shown\n"),
        # Options that only other commands have.
        ("calibrate --time 3", "an unknown option, which isn't shown\n"),
        ("calibrate --passes 3", "an unknown option, which isn't shown\n"),
        ("hash --threads 2", "an unknown option, which isn't shown\n"),
        ("verify --cost 3 x", "an unknown option, which isn't shown\n"),
        # Unknown options in front of the command, whose values are no commands.
        *((f"accounts {it} hunter2 list", "is --database meant?") for it in ("--dsn", "--url")),
        ("accounts --database sqlite:///x --column mail list", "is --key or --record meant?"),
        ("accounts --tabel people list", "is --table meant?"),
        ("accounts -d sqlite:///x list", "an unknown option, which isn't shown\n"),
        ("accounts --name email check ada", "an unknown option, which isn't shown\n"),
        ("accounts list --user ada", "an unknown option, which isn't shown\n"),
        ("--hash", "is hash meant?"),
        ("accounts --list", "is list meant?"),
        ("--scrypt hash", "--scrypt follows its command"),
        ("accounts --prometheus report", "--prometheus follows its command"),
        ("accounts check --prometheus ada", "an unknown option, which isn't shown\n"),
        ("calibrate -k 64M", "is --memory meant?"),
        ("calibrate --treads 2", "is --threads meant?"),
        ("verify $2b$12$abc", "the record's scheme is 2b"),
        ("verify =19=65536,t=3,p=4", "in single quotes, so that the shell keeps its $"),
    )
    def test_words(self, words, said):
        found = self.typed(*words.split(), status=1)[1]
        self.assertIn(said, found)
        self.assertNotIn("hunter2", found)

    @each(("64", "write 64M for MiB"), ("64K", ""), ("8M", ""), ("8192", ""), ("8191", "8191M"))
    def test_a_size_without_a_unit(self, memory, said):
        """A size without a unit is in KiB, and a low one is usually a mistake."""
        words = f"hash --memory {memory} --passes 1 --lanes 1"
        record, found = self.typed(*words.split())
        self.assertIn("$argon2id$", record)
        self.assertEqual(bool(found), bool(said))
        self.assertIn(said, found)

    @each(
        ("--table nowhere check ada", "no such table: nowhere"),
        ("--key email check ada", "no such column: email"),
        ("--record password list", "no such column: password"),
    )
    def test_names_that_are_misspelt(self, words, said):
        _, found = self.streams(*words.split(), given="x", status=5)
        self.assertIn(said, found)
        self.assertNotIn("examine()", found)

    @each(("check ada", "x"), ("change ada", "x\ny"))
    def test_a_record_of_another_scheme(self, words, given):
        """A record of another scheme, at the shell, which has no hook."""
        self.insert({"ada": FOREIGN})
        _, found = self.streams(*words.split(), given=given, status=5)
        self.assertIn("the record's scheme is 2y, and the scheme is none of argon2d, ", found)
        self.assertNotIn("`foreign`", found)
        self.execute("DELETE FROM accounts")

    @each(
        ("login ada", "unknown word (choose from"),
        ("add", "the following arguments are required: NAME"),
        ("--database oracle://x list", "a database is sqlite:///.., postgresql://.. or mysql://.."),
        ("--database users.db list", "a database is sqlite:///.., postgresql://.. or mysql://.."),
        ("--database postgresql+psycopg://x/y list", "a database is sqlite:///.., postgresql://.."),
    )
    def test_commands(self, words, said):
        self.assertIn(said, self.streams(*words.split(), given="x", status=1)[1])

    @each(
        ("list", "no database: give --database URL, or set RIGZUMAL_DATABASE", 1),
        ("--database sqlite:///none.db list", "none.db: no such file; init creates one", 5),
        ("--database sqlite:///nodir/u.db init", "nodir: no such folder", 5),
        ("--database postgresql://127.0.0.1:1/x init", "Connection refused", 5),
        ("--database mariadb://127.0.0.1:1/x init", "Can't connect to MySQL server on", 5),
    )
    def test_databases(self, words, said, status):
        for name in ("psycopg", "pymysql"):
            module(name)
        with mock.patch.dict(os.environ):
            del os.environ["RIGZUMAL_DATABASE"]
            self.assertIn(said, self.streams(*words.split(), status=status)[1])

    def test_a_password_that_is_not_followed_by_another(self):
        _, found = self.streams("change", "ada", given="old\n", status=6)
        self.assertIn("change reads two lines: the old password and the new one", found)
