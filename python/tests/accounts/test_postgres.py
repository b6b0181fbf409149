"""Faults of a real PostgreSQL server, one trap at a time."""

import asyncio
import contextlib
import io
import math
import pathlib
import tempfile
import threading
from unittest import mock

import engines
import torture
from support import LOW, Base, Session, called, each, module, run
from rigzumal import InvalidRecordError
from rigzumal.accounts import AsyncAccounts, OutcomeUnknown, Reply
from rigzumal.accounts import StoreFault, Unavailable, _connections
from rigzumal.accounts.types import Kind
from tests.helpers import until
from torture import _torture


class OnPostgres(engines.OnPostgres, Base):
    def test_a_constraint_that_is_judged_at_commit(self):
        """The server has rolled back: the operation isn't sent again, and its outcome isn't
        unknown."""
        when = "ON users DEFERRABLE INITIALLY DEFERRED"
        refuses = "RAISE EXCEPTION USING MESSAGE = NEW.record;"
        self.trigger(refuses, f"CREATE CONSTRAINT TRIGGER tr AFTER UPDATE {when}")
        with self.statements("SELECT UPDATE ROLLBACK"):
            with self.assertRaisesRegex(StoreFault, "P0001") as raised:
                self.accounts().change("ann", "one", "two")
        self.assert_no_record(raised.exception)
        self.assertTrue(self.is_right("one"))
        (fault,) = [it for it in self.accounts().examine() if it.is_error]
        self.assertRegex(str(fault), "no record can be written: .* P0001")
        self.assertTrue(self.is_right("one"))

    @each("22P02", "22021", "22P05")
    def test_a_trigger_that_refuses_as_a_key_is_refused(self, state):
        """A trigger fails like a refused key, for example when it reads a setting as a number:
        `examine` finds that no record can be written."""
        self.create()
        self.give("one")
        self.trigger(f"RAISE EXCEPTION SQLSTATE ''{state}'';")
        said = f"{state}; see examine"
        self.assertRaisesRegex(StoreFault, said, self.accounts().change, "ann", "one", "two")
        (fault,) = self.accounts().examine()
        self.assertEqual((fault.code, fault.is_error), ("no-update", True))
        self.assertIn(state, str(fault))

    def test_row_security_without_a_policy(self):
        """Row security without a policy hides all rows from a role, so each login would be
        NO_ACCOUNT."""
        said = "row security hides every row from this role"
        self.execute("ALTER TABLE users ENABLE ROW LEVEL SECURITY")
        role = self.of_role("SELECT, UPDATE")
        accounts = self.accounts(connect=role)
        with role() as conn:
            ((name,),) = self.execute("SELECT current_user", conn=conn)
        self.assertNotIn(said, self.said(self.accounts()))  # of the owner, whom it doesn't bind
        for policy, is_shown in (
            ("FOR UPDATE USING (true)", False),
            ("AS RESTRICTIVE USING (true)", False),
            ("TO pg_monitor USING (true)", False),
            (f"TO {name} USING (true)", True),
            ("FOR SELECT USING (true)", True),
        ):
            self.execute(f"CREATE POLICY one ON users {policy}")
            with self.subTest(policy=policy):
                reply = accounts.verify("ann", "one")
                self.assertEqual(reply is Reply.YES, is_shown)
                found = {it.text: it.is_error for it in accounts.examine() if said in it.text}
                self.assertEqual([*found.values()], [True] * (not is_shown))
            self.execute("DROP POLICY one ON users")

    @each("uuid", "kinds")
    def test_a_policy_that_reads_no_row(self, kind):
        """A session that can't read its own setting has a fault, and doesn't have an unknown
        name."""
        self.execute("DROP TYPE IF EXISTS kinds CASCADE")
        self.execute("CREATE TYPE kinds AS ENUM ('ann')")
        self.create()
        self.give("one")
        self.execute(f"ALTER TABLE users ADD tenant {kind}, ENABLE ROW LEVEL SECURITY")
        self.execute(f"CREATE POLICY own ON users USING (tenant = current_setting('a.b')::{kind})")
        role = self.of_role("SELECT, UPDATE")

        def unset():
            conn = role()
            conn.execute("SET a.b = ''")
            return conn

        accounts = self.accounts(connect=unset)
        for call in ("verify ann one", "login ann one", "change ann one two", "reset ann two"):
            with self.subTest(call=call):
                self.assertRaisesRegex(StoreFault, "22P02", called, accounts, call)

    @each(
        *(f"CREATE TRIGGER tr {it} UPDATE ON users" for it in ("BEFORE", "AFTER")),
        "CREATE CONSTRAINT TRIGGER tr AFTER UPDATE ON users DEFERRABLE INITIALLY DEFERRED",
    )
    def test_a_trigger_that_warns(self, when):
        """A trigger, for example for auditing, causes warnings: each change is stored once, and its
        COMMIT counts."""
        self.execute("DROP TABLE IF EXISTS audit")
        self.execute("CREATE TABLE audit (record text)")
        self.create()
        body = "RAISE WARNING USING MESSAGE = TG_OP; INSERT INTO audit VALUES (NEW.record);"
        self.trigger(f"{body} RETURN NEW;", when)
        accounts = self.accounts(patience=60.0)
        made = 0
        for text, reply in (
            ("enrol ann one", "enrolled"),
            ("change ann one two", "replaced"),
            ("reset ann one", "replaced"),
            ("remove ann one", "removed"),
        ):
            if made == 0:
                self.give(None)
            made += 1
            with mock.patch.object(_connections.LOGGER, "warning", side_effect=AssertionError):
                self.assertEqual(called(accounts, text), reply)
            self.assertEqual(self.execute("SELECT count(*) FROM audit"), [(made,)])

    def test_a_trigger_that_comes_after(self):
        """RETURNING doesn't show the effect of an AFTER trigger, so `examine` has to report the
        trigger."""
        self.trigger(
            "IF pg_trigger_depth() = 1 THEN UPDATE users SET record = upper(record); END IF;"
            " RETURN NULL;",
            "CREATE TRIGGER tr AFTER UPDATE ON users",
        )
        self.assertIn("trigger tr", self.said(self.accounts()))
        self.assertIs(self.accounts().change("ann", "one", "two"), Reply.REPLACED)
        self.assertRaises(InvalidRecordError, self.accounts().verify, "ann", "two")

    @each("READ UNCOMMITTED", "READ COMMITTED", "REPEATABLE READ", "SERIALIZABLE", "")
    def test_levels_of_a_callers_transaction(self, level):
        """A change with an old snapshot wouldn't see the sessions that it has to end, so its level
        is refused."""
        is_refused = level in ("REPEATABLE READ", "")  # which is this session's own
        accounts, caller = self.accounts(), self.another()
        self.execute("SET default_transaction_isolation = 'repeatable read'", conn=caller)
        for kind, new in ((Kind.VERIFY, ""), (Kind.CHANGE, "new")):
            worked = self.worked(accounts, kind, "one", new)
            caller.execute(f"BEGIN ISOLATION LEVEL {level}" if level else "BEGIN")
            with self.subTest(kind=kind):
                if is_refused:
                    with self.assertRaisesRegex(StoreFault, "REPEATABLE READ"):
                        accounts.commit_in(caller, worked)
                else:
                    self.assertIs(accounts.commit_in(caller, worked).reply, worked.reply)
            caller.execute("ROLLBACK")

    def test_a_commit_that_answers_rollback(self):
        """A caller that swallows a statement's error has a failed transaction, whose COMMIT raises
        nothing. The operation raises a fault at once, and doesn't search for an outcome: nothing
        was stored."""
        accounts, calls = self.accounts(patience=60.0), []

        def swallows(conn, reply):
            calls.append(reply)
            with contextlib.suppress(Exception):
                conn.execute("SELECT 1 FROM nowhere")

        for text, reply in (("change ann one two", Reply.REPLACED), ("login ann one", Reply.YES)):
            calls.clear()
            with self.assertRaisesRegex(TypeError, "swallowed an error"):
                called(accounts, text, also=swallows)
            self.assertEqual(calls, [reply])
        session = Session(self.another())
        run(self.dialect.start(session))
        swallows(session.conn, Reply.REPLACED)
        with self.assertRaisesRegex(StoreFault, "ROLLBACK to COMMIT"):
            run(self.dialect.commit(session))
        self.assertTrue(self.is_right("one"))

    def test_a_database_that_is_set_to_read_only(self):
        """Each change is refused at once, and so is a hook's row. A login goes on without its
        upgrade."""
        only_reads = {"options": "-c default_transaction_read_only=on"}
        accounts = self.accounts(self.high, connect=lambda: self.connect(**only_reads))
        self.execute("DROP TABLE IF EXISTS sessions")
        self.execute("CREATE TABLE sessions (reply text)")
        self.give(None, "ben")
        calls, records = [], (self.stands(), self.stands("ben"))

        def also(conn, reply):
            calls.append(reply)
            conn.execute("INSERT INTO sessions VALUES ('yes')")

        said = "set to read only: ReadOnlySqlTransaction 25006"
        with self.no_pause(accounts):
            for text in ("change ann one two", "upgrade ann one", "remove ann one", "enrol ben x"):
                for more in ({}, {"also": lambda conn, reply: None}):
                    with self.subTest(text=text, more=more):
                        self.assertRaisesRegex(Unavailable, said, called, accounts, text, **more)
            # The row's lock is refused, and so is the row of a hook without such a lock.
            for text in ("verify ann one", "verify b\0b one"):
                self.assertRaisesRegex(Unavailable, said, called, accounts, text, also=also)
            self.assert_replies("login ann one yes; verify ann one yes; login ann x no", accounts)
        self.assertEqual(calls, [Reply.NO_ACCOUNT])
        self.assertEqual((self.stands(), self.stands("ben")), records)
        self.assertIn("no record can be written", self.said(accounts))

    def test_a_standby_that_is_set_to_read_only(self):
        """A change waits for another server: a standby may have such a setting of its own."""
        standby, _ = self.reading()
        only_reads = {"options": "-c default_transaction_read_only=on"}
        accounts = self.accounts(connect=lambda: standby(**only_reads), patience=0.1)
        self.assertRaisesRegex(Unavailable, self.only_reads, called, accounts, "change ann one two")

    # ---- a standby that doesn't answer

    @contextlib.contextmanager
    def cancelled_waits(self):
        """Cancels waits for a standby, as an administrator may; afterwards the server needs no
        standby."""
        stop, cancelled, killer = threading.Event(), [], self.another()
        sql = "SELECT pg_cancel_backend(pid) FROM pg_stat_activity"
        self.server.set(synchronous_standby_names="nobody")

        def cancel():
            while not stop.wait(0.1):
                cancelled.extend(self.execute(f"{sql} WHERE wait_event = 'SyncRep'", conn=killer))
            self.server.set(synchronous_standby_names="")

        thread = threading.Thread(target=cancel)
        thread.start()
        try:
            until(self.does_wait, "a COMMIT waits")
            cancelled.clear()
            yield cancelled
        finally:
            stop.set()
            thread.join()

    def does_wait(self):
        """Whether a COMMIT waited, and was cancelled: a new setting reaches the server's processes
        one by one."""
        notices, conn = [], self.another()
        conn.add_notice_handler(lambda notice: notices.append(notice.severity))
        self.execute("CREATE TABLE IF NOT EXISTS waits ()", conn=conn)
        self.execute("DROP TABLE waits", conn=conn)
        return "WARNING" in notices

    def test_a_wait_for_the_standby_that_is_cancelled(self):
        """COMMIT answers with a warning: the new record isn't safe, and the change never counts as
        done."""
        with self.cancelled_waits() as cancelled, self.assertRaises(OutcomeUnknown):
            are_over = property(lambda waits: len(cancelled) > 1)
            with mock.patch.object(_connections.Waits, "are_over", are_over):
                self.accounts().change("ann", "one", "two")
        self.assertGreater(len(cancelled), 1)

    def test_it_waits_for_the_standby(self):
        """An unconfirmed answer may depend on a record that the standby lacks; a confirmed one
        never does."""
        plain, confirming = self.accounts(), self.accounts(confirm=True, patience=0.5)
        with self.cancelled_waits() as cancelled:
            self.assertIs(plain.verify("ann", "one"), Reply.YES)
            self.assertRaises(Unavailable, confirming.verify, "ann", "one")
        self.assertTrue(cancelled)
        self.assertIs(confirming.verify("ann", "one"), Reply.YES)

    # ---- psycopg

    def test_psycopgs_pool_of_asyncio(self):
        pools = module("psycopg_pool")

        async def act():
            given = {"kwargs": {"autocommit": True}, "min_size": 2, "max_size": 4}
            pool = pools.AsyncConnectionPool(self.server.url, open=False, **given)
            await pool.open()
            accounts = AsyncAccounts(pool.connection, self.dialect, LOW)
            replies = [accounts.login("ann", "one") for _ in range(20)]
            self.assertEqual(set(await asyncio.gather(*replies)), {Reply.YES})
            self.end_sessions()
            self.assertIs(await accounts.change("ann", "one", "two"), Reply.REPLACED)
            await pool.close()

        asyncio.run(act())

    def torture(self, table, **given):
        """The accounts of a torture's verdict; the table is dropped afterwards."""
        self.addCleanup(self.execute, f"DROP TABLE IF EXISTS {table}")
        with tempfile.TemporaryDirectory() as folder:
            given = {"processes": 4, "folder": pathlib.Path(folder), **given}
            return torture.Torture(self.server.url, table, **given).run()

    def test_a_torture_has_tasks_of_asyncio(self):
        """Every fourth process of a torture has tasks of asyncio, some of which are cancelled."""

        def broken(accounts):
            if isinstance(accounts, AsyncAccounts):
                accounts.perform = mock.Mock(side_effect=RuntimeError)

        with contextlib.redirect_stderr(io.StringIO()):
            with self.assertRaisesRegex(StoreFault, "1 processes ended"):
                self.torture("broken", alter=broken, seconds=6.0)
        silent, seconds = [], 2.0
        while not silent:
            with mock.patch.object(_torture, "HASTY", 0.002):
                accounts = self.torture(f"hasty{seconds:.0f}", seconds=seconds)
            self.assertIsNone(torture.verdict(accounts))
            every = [it for one in accounts.values() for it in one.operations]
            silent = [it for it in every if it.answered == math.inf]
            seconds *= 2
            self.assertLess(seconds, 40)
        self.assertTrue(all(it.id.startswith("3-") for it in silent))
