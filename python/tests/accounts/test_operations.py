"""The operations on any engine: over SQLite, with threads and with asyncio."""

import asyncio
import base64
import contextlib
import functools
import os
import sqlite3
import threading
from unittest import mock

import engines
from servers import SqliteFile
from support import FOREIGN_KEY_FAILED, HIGH, LOW, Base, after_hash, called, each, scripted
from rigzumal import OutOfMemoryError
from rigzumal.accounts import MariaDB, Reply, StoreFault, _connections, _operations
from rigzumal.accounts import parts, types
from rigzumal.accounts._session import Result, run
from rigzumal.accounts._table import Undone
from rigzumal.accounts.types import Answer, Kind, NoConnection, Request, Ticket, Worked
from tests.helpers import longest


ENROLLED = "remove ann one removed; enrol ann x enrolled"


class Operations(Base):
    @each("Request", "Kind", "Reply", "NO_ROW", "StoreFault")
    def test_the_old_name_of_the_types(self, name):
        self.assertIs(getattr(parts, name), getattr(types, name))

    @each(
        ("caf\u00e9", ("cafe\u0301", "cafe", b"caf\xe9")),
        ("\ufb01x", ("fix",)),
        ("One ", ("One", "one ", " One ", "One  ")),
        (b"\xff\0", (b"\xff", b"\0", b"")),
        ("x" * 256, ("x" * 255, "x" * 72, "X" * 256)),
    )
    def test_passwords_are_their_bytes(self, password, others):
        """Two spellings of one letter are two passwords; blanks and case count."""
        accounts = self.accounts()
        accounts.reset("ann", password)
        for same in (password, password.encode() if isinstance(password, str) else password):
            self.assertIs(accounts.verify("ann", same), Reply.YES)
        for other in others:
            self.assertIs(accounts.verify("ann", other), Reply.NO, other)
            self.assertIs(accounts.change("ann", other, "new"), Reply.WRONG, other)

    def test_changed_after_so_many_tries(self):
        """A login whose upgrade wasn't stored isn't YES; an operation without a change answers from
        the record that it read."""
        accounts, turns = self.accounts(HIGH, tries=3), []

        def changed():
            turns.append(self.stands())
            self.give("one")

        after_hash(accounts, changed, 99)
        changed = ("remove ann one", "change ann one two", "login ann one")
        others = ("login ann two", "no", 1), ("verify ann one", "yes", 1)
        for text, reply, count in (*((it, "changed", 3) for it in changed), *others):
            self.give("one")
            turns.clear()
            with self.subTest(text=text):
                self.assertEqual(called(accounts, text), reply)
                self.assertEqual(len(set(turns)), count)
                self.assertIn("m=64,", self.stands())
        answer = accounts.perform(Request(Kind.CHANGE, "ann", "one", "two"))
        self.assertEqual((answer.reply, answer.after), (Reply.CHANGED, self.stands()))

    @each(
        (None, 0, None, StoreFault),
        (None, 0, "other", Reply.CHANGED),
        *(("copy", 0, it, Reply.CHANGED) for it in (None, "other")),
        *(("copy", it, "copy", StoreFault) for it in (0, -1, 2)),
    )
    def test_what_an_update_found(self, copy, count, stands, reply):
        """A record that is replaced while its row is read; a driver without counts; a key of two
        rows."""
        ticket = Ticket(Request(Kind.RESET, "ann", "", "x"), copy)
        session = scripted(*[Result([], count), Result([(stands,)], 1)] * 2)
        job = self.accounts()._table.compare(session, Worked(ticket, Reply.REPLACED, "new"))
        if reply is StoreFault:
            self.assertRaises(StoreFault, run, job)
        else:
            self.assertEqual(run(job), Answer(reply, stands, stands))

    def test_replicas_may_lag(self):
        """A replaced copy doesn't determine the answer: the operation reads the primary."""
        stale = SqliteFile().connect()
        self.addCleanup(stale.close)
        stale.execute(self.dialect.create())
        accounts = self.accounts(replica=lambda: contextlib.nullcontext(stale))
        one, none = [("ann", LOW.hash("old"))], [("ann", None)]
        # An account without a record or a row at the replica may have one at the primary.
        for rows, password, calls in (
            (one, "new", "verify ann old no; verify ann new yes"),
            (one, "new", "change ann old x wrong; change ann new newer replaced"),
            (one, None, "verify ann old absent; remove ann old absent; enrol ann x enrolled"),
            (none, "new", "verify ann new yes; login ann old no; enrol ann x exists"),
            ([], "new", "login ann new yes; verify ann old no; reset ann x replaced"),
            *((it, "", "verify ann old noaccount; enrol ann old noaccount") for it in ([], one)),
        ):
            stale.execute("DELETE FROM users")
            stale.executemany("INSERT INTO users VALUES (?, ?)", rows)
            self.give(password)
            if password == "":
                self.conn.execute("DELETE FROM users")
            with self.subTest(rows=len(rows), calls=calls):
                self.assert_replies(calls, accounts)
                self.assertFalse(accounts._connections._is_passed_over)

    @each("verify ann one yes", "login ann one yes", "change ann one one replaced")
    def test_copies_are_read_from_the_replica(self, text):
        """Each operation reads its copy from the replica; everything else runs at the primary."""
        uses = mock.Mock(side_effect=lambda name: contextlib.nullcontext(self.conn))
        primary, replica = (functools.partial(uses, it) for it in ("primary", "replica"))
        self.assert_replies(text, self.over(primary, replica=replica))
        self.assertEqual(uses.mock_calls, [mock.call("replica"), mock.call("primary")])

    def test_a_late_replica_costs_one_hash(self):
        """If the replica lags, the operation checks the primary's record, and doesn't read it
        again."""
        stale = sqlite3.connect(":memory:", isolation_level=None)
        self.addCleanup(stale.close)
        stale.execute("CREATE TABLE users (name TEXT PRIMARY KEY, record TEXT)")
        stale.execute("INSERT INTO users VALUES ('ann', ?)", [LOW.hash("old")])
        replica = lambda: contextlib.nullcontext(stale)
        with self.statements("SELECT SELECT"), self.hashes(2):
            self.assert_replies("verify ann one yes", self.accounts(replica=replica))

    def test_a_replica_that_is_down(self):
        """If the replica is down, logins and changes continue at the primary."""
        away = mock.Mock(side_effect=ConnectionRefusedError("nobody there"))
        accounts = self.accounts(replica=away, patience=0.0)
        self.assert_replies("login ann one yes; verify ann two no", accounts)
        self.assert_replies("change ann one two replaced; reset ann one replaced", accounts)
        self.assertEqual(away.call_count, 1)

    @each("upgrade ann one upgraded", "change ann one x replaced", "reset ann x replaced", ENROLLED)
    def test_salts_are_the_systems_random_bytes(self, calls):
        """Each record has sixteen random bytes of salt, which show whether a lost COMMIT took
        effect."""
        self.give("one")
        accounts, drawn = self.accounts(HIGH), bytes([len(calls)]) * 16
        with mock.patch.object(os, "urandom", return_value=drawn) as urandom:
            self.assert_replies(calls, accounts)
        self.assertEqual(urandom.call_args.args, (16,))
        salt = base64.b64encode(drawn).decode().rstrip("=")
        self.assertEqual(self.stands().split("$")[4], salt)

    # ---- servers that fail, and connections that break

    def test_a_login_waits_once_for_a_server(self):
        clock, connect = [100.0], mock.Mock(side_effect=ConnectionError("nobody there"))

        async def pause(runtime, seconds):
            clock[0] += seconds

        given = {"dialect": MariaDB("t", "k", "r"), "connect": connect, "patience": 1.0}
        accounts = self.accounts(**given)
        with mock.patch.object(_connections.time, "monotonic", lambda: clock[0]):
            with mock.patch.object(type(accounts._runtime), "pause", pause):
                self.assertRaises(NoConnection, accounts.login, "ann", "one")
        self.assertTrue(101.0 <= clock[0] < 101.9, clock)

    @each((0.0, 1), (11.0, 2))
    def test_a_pool_that_waits_itself(self, patience, count):
        """No operation, not even a login, asks the pool again once `patience` is over."""
        clock, uses = [100.0], []

        def pool():
            uses.append(clock[0])
            clock[0] += 10.0
            raise sqlite3.OperationalError("database is locked")

        accounts = self.over(pool, HIGH, patience=patience)
        with mock.patch.object(_connections.time, "monotonic", lambda: clock[0]):
            for name in ("verify", "login"):
                uses.clear()
                self.assertRaises(NoConnection, getattr(accounts, name), "ann", "one")
                self.assertEqual(len(uses), count)

    def test_a_login_whose_upgrade_waited(self):
        """A login reads again from a read-only server, and its hash isn't wasted."""
        clock, accounts = [100.0], self.accounts(HIGH, patience=1.0)
        reads = sqlite3.OperationalError("database is locked")
        accounts._table.change = mock.AsyncMock(return_value=Undone(reads))

        async def pause(runtime, seconds):
            clock[0] += seconds

        with mock.patch.object(_connections.time, "monotonic", lambda: clock[0]):
            with mock.patch.object(type(accounts._runtime), "pause", pause):
                self.assertIs(accounts.login("ann", "one"), Reply.YES)
        self.assertTrue(101.0 <= clock[0] < 101.9, clock)

    def test_an_unknown_upgrade_is_waited_for_once(self):
        """COMMIT had no answer, and then no server answers: the login waits one `patience` for
        both."""
        clock, accounts = [100.0], self.losing(True, 9999, hasher=HIGH, patience=1.0)

        async def pause(runtime, seconds):
            clock[0] += seconds

        with mock.patch.object(_operations.time, "monotonic", lambda: clock[0]):
            with mock.patch.object(type(accounts._runtime), "pause", pause):
                connect = accounts._connections.primary._connect
                looks = []

                def away():
                    looks.append(clock[0])
                    if len(looks) > 1:
                        raise sqlite3.OperationalError("database is locked")
                    return connect()

                accounts._connections.primary._connect = away
                self.assertRaises(NoConnection, accounts.login, "ann", "one")
        self.assertTrue(101.0 <= clock[0] < 102.0, clock)

    def test_a_connection_that_is_not_rolled_back_is_given_up(self):
        """The server undid the transaction, but ROLLBACK fails: the connection is closed."""
        made = []

        def connect():
            made.append(self.connect())
            return made[-1]

        accounts = self.accounts(connect=connect)
        busy, table = sqlite3.OperationalError("database is locked"), accounts._table
        table.compare = mock.AsyncMock(wraps=table.compare, side_effect=[busy, mock.DEFAULT])
        self.dialect.undo = mock.AsyncMock(side_effect=busy)
        self.assertIs(accounts.change("ann", "one", "two"), Reply.REPLACED)
        self.assertEqual(len(made), 2)

    def test_a_constraint_that_is_judged_at_commit(self):
        """SQLite leaves the transaction open: the operation rolls back, and raises the error at
        once."""
        self.conn.execute("CREATE TABLE known (record TEXT UNIQUE)")
        self.table("TEXT REFERENCES known (record) DEFERRABLE INITIALLY DEFERRED")
        self.give("one")
        accounts = self.accounts(connect=self.setting("PRAGMA foreign_keys = ON"), patience=60.0)
        with self.statements("SELECT BEGIN UPDATE SELECT COMMIT ROLLBACK"):
            with self.assertRaisesRegex(StoreFault, FOREIGN_KEY_FAILED):
                accounts.change("ann", "one", "two")
        self.assertTrue(self.is_right("one"))

    def test_a_login_goes_on(self):
        """The unknown outcome of an upgrade doesn't change the answer."""
        accounts = self.losing(before=True, times=1000, hasher=HIGH, patience=0.5)
        self.assert_replies("login ann one yes; login ann two no", accounts)
        self.assertIn("m=64,", self.stands())
        full = self.accounts(HIGH)
        error = sqlite3.OperationalError("database or disk is full")
        with mock.patch.object(full._table, "compare", mock.Mock(side_effect=error)):
            self.assertIs(full.login("ann", "one"), Reply.YES)
        effects = [OutOfMemoryError(8), mock.DEFAULT]
        full._judge.work = mock.Mock(wraps=full._judge.work, side_effect=effects)
        self.assertIs(full.login("ann", "one"), Reply.YES)

    def test_a_missing_table(self):
        self.conn.execute("DROP TABLE users")
        for text in ("verify ann one", "login ann one"):
            with self.hashes(0), self.assertRaisesRegex(StoreFault, "no such table: users"):
                called(self.accounts(), text)


class Tasks(engines.OnSqliteTasks, Base):
    """Tests of coroutines only."""

    def test_a_hash_holds_up_no_task(self):
        """Hashes run in other threads, and those of two operations run in parallel."""
        accounts, threads = self.accounts().core, set()
        work = accounts._judge.work
        both = threading.Barrier(2, timeout=longest())

        def noted(ticket):
            threads.add(threading.current_thread())
            both.wait()
            return work(ticket)

        async def act():
            accounts._judge.work = noted
            looks = [accounts.verify("ann", "one") for _ in range(2)]
            return await asyncio.gather(*looks)

        self.assertEqual(asyncio.run(act()), [Reply.YES] * 2)
        self.assertNotIn(threading.main_thread(), threads)

    def test_rows_of_ones_own(self):
        """AsyncAccounts awaits `also`, whose row is committed with the reply or not at all."""
        self.conn.execute("CREATE TABLE sessions (reply TEXT)")
        accounts, told = self.accounts(), []

        def plain(conn, reply):
            told.append(reply.value)
            conn.of.execute("INSERT INTO sessions VALUES (?)", (reply.value,))

        async def awaited(conn, reply):
            await asyncio.sleep(0)
            plain(conn, reply)

        async def fails(conn, reply):
            await awaited(conn, reply)
            raise KeyError("mine")

        async def generates(conn, reply):
            yield conn

        future = lambda *given: asyncio.ensure_future(awaited(*given))
        for also in (plain, awaited, future):
            self.assert_replies("change ann one one replaced; login ann one yes", also=also)
        self.assertRaises(KeyError, accounts.change, "ann", "one", "two", also=fails)
        with self.assertRaisesRegex(TypeError, "a generator"):
            accounts.change("ann", "one", "two", also=generates)
        self.assertTrue(self.is_right("one"))
        rows = [row for (row,) in self.conn.execute("SELECT reply FROM sessions")]
        self.assertEqual(rows, ["replaced", "yes"] * 3)
        self.assertEqual(told, [*rows, "replaced"])

    def test_a_hook_that_raises_stopiteration(self):
        """A hook of any kind raises StopIteration, and no task waits for ever."""

        def foreign(record, password):
            return next(iter(()))

        async def awaited(record, password):
            return next(iter(()))

        def also(conn, reply):
            return next(iter(()))

        for stands, more, hook in (
            ("{SSHA}x", {"foreign": foreign}, None),
            ("{SSHA}x", {"foreign": awaited}, None),
            (LOW.hash("one"), {"prepare": lambda text: next(iter(()))}, None),
            (LOW.hash("one"), {}, also),
        ):
            self.put(stands)
            accounts = self.accounts(**more).core
            login = accounts.login("ann", "one", also=hook)
            with self.subTest(more=more), self.assertRaises(RuntimeError):
                asyncio.run(asyncio.wait_for(login, longest()))

    def test_a_nested_call(self):
        """A nested call is refused within `also`; a task that begins there may go on after it."""
        accounts, tasks = self.accounts().core, []

        async def later(over):
            await over.wait()
            return await accounts.login("ann", "two")

        async def act():
            over = asyncio.Event()

            async def also(conn, reply):
                with self.assertRaisesRegex(TypeError, "operation on the same table"):
                    await accounts.verify("ann", "one")
                tasks.append(asyncio.create_task(later(over)))

            reply = await accounts.change("ann", "one", "two", also=also)
            over.set()
            return reply, await tasks[0]

        self.assertEqual(asyncio.run(act()), (Reply.REPLACED, Reply.YES))
