"""The shared parts of the tests: a table on an engine, accounts over it, and deliberate faults."""

import concurrent.futures
import contextlib
import importlib
import io
import logging
import os
import pathlib
import sqlite3
import sys
import traceback
import unittest
import warnings
from unittest import mock

PACKAGE = pathlib.Path(__file__).resolve().parents[2]
sys.path = [str(PACKAGE), str(PACKAGE.parent), *sys.path]
os.environ["PYTHONPATH"] = f"{PACKAGE}:{os.environ.get('PYTHONPATH', '')}".rstrip(":")

import servers
from rigzumal import LowMemoryWarning, PasswordHasher, VerifyMismatchError, _library
from rigzumal.accounts import Accounts, PerThread, Sqlite, _judgement, cli
from rigzumal.accounts._session import Session, run  # noqa: F401: of each test
from rigzumal.accounts.types import Kind, Request
from tests.helpers import each  # noqa: F401: of each test
from tests.needs import lacking

# The codes of sqlite3's errors, which have names from Python 3.11 on.
CHECK_FAILED = FOREIGN_KEY_FAILED = ""
if sys.version_info >= (3, 11):
    CHECK_FAILED, FOREIGN_KEY_FAILED = "SQLITE_CONSTRAINT_CHECK", "SQLITE_CONSTRAINT_FOREIGNKEY"
warnings.simplefilter("ignore", LowMemoryWarning)
# The patience, in seconds, of an operation that must succeed even on a slow machine.
PATIENCE = 60.0
LOW = PasswordHasher(time_cost=1, memory_cost=64, parallelism=1)
HIGH = PasswordHasher(time_cost=1, memory_cost=128, parallelism=1)
# Made by the reference program, of the older version.
OLDER = "$argon2i$m=256,t=2,p=1$c29tZXNhbHQ$/U3YPXYsSb3q9XxHvc0MLxur+GP960kN9j7emXX8zwY"
COSTS = ["--memory", "64K", "--passes", "1", "--lanes", "1"]
FOREIGN = "$2y$05$" + "a" * 53
RECORD, TWO = LOW.hash("one"), LOW.hash("two")
# The answers of the command that have status 4.
NO = ("exists", "no", "no account", "no record", "wrong")
logging.getLogger("rigzumal.accounts").addHandler(logging.NullHandler())
READS = (Kind.VERIFY, Kind.CHANGE, Kind.UPGRADE, Kind.REMOVE)
SERVERS = {}


def server(kind):
    """The server for all tests of a run, or SQLite's file; skips the test if it is missing."""
    if kind is servers.SqliteFile:
        return kind().start()
    if kind not in SERVERS:
        try:
            SERVERS[kind] = kind("shared-" + kind.__name__).start()
        except Exception as reason:
            SERVERS[kind] = reason
    if isinstance(SERVERS[kind], Exception):
        raise SERVERS[kind]
    return SERVERS[kind]


def module(name):
    try:
        return importlib.import_module(name)
    except ImportError as fault:  # one of the module's own imports may be missing
        raise lacking(f"Python's module {fault.name or name}") from None


class Base(unittest.TestCase):
    """A table on an engine (SQLite, unless a class names another), in which `ann` has "one"."""

    kind, dialect = servers.SqliteFile, Sqlite("users", "name", "record")
    low, high = LOW, HIGH
    broken = sqlite3.OperationalError("disk I/O error")

    def setUp(self):
        if self.kind is servers.SqliteFile:
            self.enterContext(warnings.catch_warnings())
            warnings.simplefilter("error")
            warnings.simplefilter("ignore", LowMemoryWarning)
        self.server = server(self.kind)
        self.conn = self.server.connect()
        self.addCleanup(self.conn.close)
        self.dialect = self.another_dialect()
        self.create()
        self.give("one")

    def another_dialect(self, **names):
        """Another dialect, which a test may alter."""
        named = {"table": "users", "key": "name", "record": "record", **names}
        return type(self.dialect)(**named)

    def execute(self, sql, *values, conn=None):
        """Runs a statement, with %s for a value on each engine; returns its rows."""
        cursor = (conn or self.conn).cursor()
        if values:
            cursor.execute(sql.replace("%s", self.dialect.mark), values)
        else:
            cursor.execute(sql)
        rows = cursor.fetchall() if cursor.description else []
        cursor.close()
        return [tuple(row) for row in rows]

    def create(self):
        self.execute("DROP TABLE IF EXISTS users")
        self.execute(self.dialect.create())

    def table(self, record="VARCHAR(512)", key="VARCHAR(150)"):
        self.execute("DROP TABLE IF EXISTS users")
        self.execute(f"CREATE TABLE users (name {key} PRIMARY KEY, record {record})")

    def connect(self, **more):
        return self.server.connect(**more)

    def no_connection(self):
        raise AssertionError("a connection was asked for")

    def another(self, **more):
        """Another connection, which is closed after the test."""
        conn = self.connect(**more)
        self.addCleanup(closed, conn)
        return conn

    def setting(self, *statements, **more):
        """A function that opens connections with these settings."""

        def connect():
            conn = self.connect(**more)
            for sql in statements:
                self.execute(sql, conn=conn)
            return conn

        return connect

    def over(self, pool, hasher=LOW, dialect=None, **more):
        return Accounts(pool, dialect or self.dialect, hasher, **{"patience": PATIENCE, **more})

    def accounts(self, hasher=LOW, dialect=None, connect=None, **more):
        pool = PerThread(connect or self.connect)
        self.addCleanup(pool.close)
        return self.over(pool, hasher, dialect, **more)

    def kept(self, hasher=LOW, conn=None, **more):
        """Accounts over one used connection that stays open whatever happens."""
        conn = conn or self.another()
        accounts = Accounts(lambda: contextlib.nullcontext(conn), self.dialect, hasher, **more)
        accounts.verify("nobody", "x")
        return accounts

    def losing(self, before, times=1, error=None, **more):
        """Accounts whose first COMMITs break: before they take effect, or after."""
        dialect = losing(self.another_dialect(), before, times, error or self.broken)
        return self.accounts(dialect=dialect, **more)

    def assert_given_up(self, pool, *kinds):
        """A pool keeps a connection for the next use, and closes it after each of these
        exceptions."""
        for kind in kinds:
            made = []
            for _ in range(2):
                with pool() as conn:
                    made.append(conn)
            self.assertIs(made[0], made[1])
            with self.assertRaises(kind), pool() as conn:
                raise kind
            with pool() as conn:
                self.assertIsNot(conn, made[0])

    def no_pause(self, accounts):
        """Fails where an operation waits, during a `with` block."""
        raises = mock.AsyncMock(side_effect=AssertionError("it waits"))
        return mock.patch.object(accounts._runtime, "pause", raises)

    def give(self, password, name="ann"):
        """Sets an account's password, or no record; returns the record."""
        record = None if password is None else self.low.hash(password)
        self.put(record, name)
        return record

    def put(self, record, name="ann"):
        self.execute("DELETE FROM users WHERE name = %s", name)
        self.execute("INSERT INTO users (name, record) VALUES (%s, %s)", name, record)

    def stands(self, name="ann"):
        ((record,),) = self.execute("SELECT record FROM users WHERE name = %s", name)
        return record

    def is_right(self, password, name="ann"):
        return is_right(self.stands(name), password, self.low)

    def worked(self, accounts, kind, password, new=""):
        return accounts.work(accounts.begin(Request(kind, "ann", password, new)))

    def assert_replies(self, calls, accounts=None, **more):
        """Calls as "verify ann one yes; change ann two x wrong", one after another."""
        accounts = accounts or self.accounts()
        for call in calls.split("; "):
            text, _, reply = call.rpartition(" ")
            with self.subTest(call=call):
                self.assertEqual(called(accounts, text, **more), reply)

    @contextlib.contextmanager
    def hashes(self, count):
        """The block must hash this many times: steps, and checks. A step that may write a record
        always hashes for it. A step refuses a text of another scheme, and hashes nothing for
        it."""
        step, check = (mock.Mock(wraps=it) for it in (_judgement.step, _judgement.is_right))
        with mock.patch.multiple(_judgement, step=step, is_right=check):
            yield
        made = []
        for call in step.mock_calls:
            kind, copy = call.args[:2]
            if copy is not None and not _library.is_record(copy):
                continue
            if copy is not None or kind is Kind.ENROL:
                made.append(kind.value)
            if copy is not None and kind in (Kind.CHANGE, Kind.UPGRADE):
                made.append("new record")
        self.assertEqual(len(made) + check.call_count, count, made)

    @contextlib.contextmanager
    def statements(self, words):
        """The statements that the block sends must begin with these words."""
        given = {"autospec": True, "side_effect": Session.execute}
        with mock.patch.object(Session, "execute", **given) as execute:
            yield
        found = (it.args[1].split()[0] for it in execute.call_args_list)
        self.assertEqual(" ".join(found), words)

    def said(self, accounts):
        return "; ".join(map(str, accounts.examine()))

    def assert_no_record(self, error):
        """Neither the exception nor its causes may show a record."""
        lines = traceback.format_exception(type(error), error, error.__traceback__)
        self.assertNotIn("$argon2", "".join(lines))


class Commands(Base):
    """The command on a file of SQLite; its table exists, unless a class says otherwise."""

    has_table = True

    def setUp(self):
        super().setUp()
        url = {"RIGZUMAL_DATABASE": self.server.url}
        self.enterContext(mock.patch.dict(os.environ, url))
        if self.has_table:
            self.streams("init")

    def streams(self, *words, **more):
        return streams(cli.main, *COSTS, *words, **more)

    def run_command(self, *words, **more):
        return "".join(self.streams(*words, **more))

    def assert_answers(self, *rows, **more):
        """Each row has the words, the input (a list is typed), and the answer, or a status with its
        message."""
        for words, given, answer in rows:
            if isinstance(answer, int):
                status = answer
            else:
                status = 4 if answer in NO else 0
            given = {"typed" if isinstance(given, list) else "given": given}
            with self.subTest(words=words, **given):
                said, error = self.streams(*words.split(" "), **given, **more, status=status)
                self.assertEqual(said, "" if answer in ("", status) else f"{answer}\n")
                self.assertEqual(bool(error), answer == status and answer != 4, error)
                self.assertNotIn("hunter", error)

    def file(self, *lines, end="\n"):
        """The path of a file with these lines."""
        file = pathlib.Path(f"{self.server.path}.names")
        file.write_text("".join(f"{it}{end}" for it in lines), errors="surrogateescape")
        return str(file)

    def insert(self, rows):
        self.conn.executemany("INSERT INTO accounts VALUES (?, ?)", dict(rows).items())

    def rows(self):
        return dict(self.conn.execute("SELECT * FROM accounts").fetchall())


def is_right(record, password, hasher=LOW):
    try:
        return hasher.verify(record, password)
    except VerifyMismatchError:
        return False


def called(accounts, text, **more):
    """The reply's value, of a call such as "change ann one two"."""
    name, key, *given = text.split()
    if accounts._dialect.key_type is int:
        key = int(key)
    return getattr(accounts, name)(key, *given, **more).value


def streams(main, *words, given=b"", typed=(), shows=False, status=0):
    """The output of a command on standard output, and on standard error, if it ends with this
    status: with something typed the input is a terminal, and with `shows` standard error is one."""
    said, error = io.StringIO(), io.StringIO()
    error.isatty = lambda: shows
    given = given.encode() if isinstance(given, str) else given
    stdin = mock.Mock(buffer=io.BytesIO(given), isatty=lambda: bool(typed))
    asked = mock.patch("getpass.getpass", side_effect=typed)
    with mock.patch.object(sys, "stdin", stdin), asked, contextlib.redirect_stdout(said):
        with contextlib.redirect_stderr(error):
            try:
                found = main([*map(str, words)])
            except SystemExit as end:  # of argparse
                found = end.code
    if found != status:
        raise AssertionError(f"status {found}\n{said.getvalue()}{error.getvalue()}")
    return said.getvalue(), error.getvalue()


def commanded(main, *words, **more):
    return "".join(streams(main, *words, **more))


def closed(conn):
    """Closes the connection; PyMySQL raises an error if it was closed already."""
    with contextlib.suppress(Exception):
        conn.close()


def losing(dialect, before, times=1, error=Base.broken, names=("commit", "put_at_once")):
    """The dialect, whose first COMMITs break: before they take effect, or after."""
    left = [times]

    def breaking(commit):
        async def breaks(session, *given):
            left[0] -= 1
            if left[0] < 0:
                return await commit(session, *given)
            if not before:
                await commit(session, *given)
            raise error

        return breaks

    for name in names:
        setattr(dialect, name, breaking(getattr(dialect, name)))
    return dialect


def after_hash(accounts, act, times=1):
    """Calls `act` after each of the next hashes, before the operation commits its result."""
    work, left = accounts._judge.work, [times]

    def worked(ticket):
        done = work(ticket)
        left[0] -= 1
        if left[0] >= 0:
            act()
        return done

    accounts._judge.work = worked


def in_threads(act, count):
    """The answers of `act` to each number, at the same time."""
    with concurrent.futures.ThreadPoolExecutor(count) as pool:
        return [*pool.map(act, range(count))]


def scripted(*answers):
    """A session that returns these answers, one for each statement, and notes the statements."""
    return mock.Mock(execute=mock.AsyncMock(side_effect=answers))


class Awaiting:
    """sqlite3's connection, and its cursors, as an asynchronous driver has them."""

    def __init__(self, of):
        self.of = of

    def __getattr__(self, name):
        return getattr(self.of, name)

    @contextlib.asynccontextmanager
    async def cursor(self):
        yield Awaiting(self.of.cursor())

    async def close(self):
        self.of.close()

    async def execute(self, *given):
        return self.of.execute(*given)

    async def fetchall(self):
        return self.of.fetchall()
