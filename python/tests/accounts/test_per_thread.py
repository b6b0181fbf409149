"""PerThread: one connection for each thread, after interrupts and forks, and within other uses."""

import asyncio
import functools
import itertools
import os
import sqlite3
import sys
from unittest import mock

from support import Base, called, each
from test_pools import Alarm
from rigzumal.accounts import PerThread, Reply, pools
from rigzumal.accounts.types import Kind, NoConnection


class OnePerThread(Base):
    def test_a_pool_that_is_closed(self):
        """The name of its error, or of the error's base, identifies a closed pool: psycopg_pool's
        is a kind of lost connection."""
        closed = type("PoolClosed", (sqlite3.OperationalError,), {})
        ours = type("OurPoolIsClosed", (closed,), {})
        connect = mock.Mock()
        accounts = self.accounts(connect=connect, patience=60.0)
        for name, kind in itertools.product(("verify", "login"), (closed, ours)):
            connect.reset_mock()
            connect.side_effect = kind("the pool 'pool-1' is already closed")
            with self.assertRaisesRegex(NoConnection, "the pool is closed: .* already closed"):
                getattr(accounts, name)("ann", "one")
            self.assertEqual(connect.call_count, 1)

    def forked(self, act):
        """The status of a forked child that runs this function."""
        pid = os.fork()
        if pid == 0:
            try:
                os._exit(act())
            finally:
                os._exit(99)
        return os.waitstatus_to_exitcode(os.waitpid(pid, 0)[1])

    def test_a_forked_child_makes_its_own(self):
        """A forked child uses, closes and drops no connection of its parent."""
        ended = []

        class Connection:
            def __init__(self):
                self.pid = os.getpid()

            def close(self):
                ended.append(os.getpid())

            __del__ = close

        used, shut = PerThread(Connection), PerThread(Connection)
        with used() as mine, shut():
            pass

        def act():
            shut.close()
            with used() as one, shut() as other:
                pass
            return len(ended) + [one.pid, other.pid].count(mine.pid)

        self.assertEqual(self.forked(act), 0)
        self.assertEqual(ended, [])
        with used() as conn:
            self.assertIs(conn, mine)

    def interrupted(self, number, act):
        """Calls this function, and raises an exception before this instruction of the pool, as a
        signal's handler does. Returns whether the pool ran fewer instructions."""
        left = [number]

        def trace(frame, event, arg):
            if frame.f_code.co_filename != pools.__file__:
                return None
            frame.f_trace_opcodes = True
            left[0] -= event == "opcode"
            if left[0] == 0:
                raise Alarm
            return trace

        try:
            sys.settrace(trace)
            act()
        except Alarm as alarm:
            return False, alarm  # a report of errors may keep it, with its frames
        finally:
            sys.settrace(None)
        return True, None

    def test_an_interrupt_at_any_instruction(self):
        """After an interrupt at any instruction the thread's next use works, on a connection
        without an open transaction, and no other connection stays open."""
        made, kept = [], []

        def connect():
            made.append(self.connect())
            return made[-1]

        pool, is_over = PerThread(connect), False

        def use():
            with pool() as conn:
                conn.execute("BEGIN IMMEDIATE")
                conn.execute("COMMIT")

        while not is_over:
            is_over, alarm = self.interrupted(len(kept) + 1, use)
            kept.append(alarm)
            with self.subTest(instruction=len(kept)), pool() as conn:
                self.assertFalse(conn.in_transaction)
        self.assertGreater(len(kept), 50)
        kept.clear()
        pool.close()
        for conn in made:
            self.assertRaises(sqlite3.ProgrammingError, conn.execute, "SELECT 1")

    def test_a_use_within_another(self):
        """A use within another has its own connection, and the thread keeps one of the two."""
        pool = PerThread(self.connect)
        with pool() as one:
            with pool() as other:
                self.assertIsNot(one, other)
            one.execute("SELECT 1")
        with pool() as last:
            self.assertIs(last, other)
        self.assertRaises(sqlite3.ProgrammingError, one.execute, "SELECT 1")
        pool.close()

    def test_an_operation_within_a_use(self):
        """An operation within the caller's own use would wait for the row that the caller's
        transaction holds. The operation is refused at once, even after an inner use."""
        connect = mock.Mock(side_effect=self.connect)
        accounts = self.accounts(connect=connect, patience=0.5)
        pool = accounts._connections.primary
        worked = self.worked(accounts, Kind.CHANGE, "one", "two")
        calls = ("login ann one", "change ann one two", "remove ann one", "verify ann one")
        acts = [*(functools.partial(called, accounts, it) for it in calls), accounts.examine]
        with pool() as conn:
            conn.execute("BEGIN IMMEDIATE")
            for is_after_another, act in itertools.product((False, True), acts):
                with self.subTest(is_after_another=is_after_another, act=act):
                    self.assertRaisesRegex(TypeError, "or call commit_in with its connection", act)
                if act is acts[-1]:
                    self.assertEqual(connect.call_count, 1 + is_after_another)
                    with pool() as inner:
                        inner.execute("SELECT 1")
            self.assert_replies("verify ann one yes", self.accounts())  # over another pool
            self.assertIs(accounts.commit_in(conn, worked).reply, Reply.REPLACED)
            self.assertEqual(self.forked(lambda: called(accounts, "verify ann one") != "yes"), 0)
            conn.execute("COMMIT")
        self.assert_replies("login ann two yes; change ann two one replaced", accounts)

    def test_an_operation_on_another_table_within_also(self):
        """An operation's own use is no `with` of the caller's: the error names `also`."""
        accounts, said = self.accounts(), "use the connection that `also` receives"
        other_table = self.another_dialect(table="others")
        others = self.over(accounts._connections.primary, dialect=other_table)
        refused = lambda *_: self.assertRaisesRegex(TypeError, said, others.verify, "ann", "one")
        self.assert_replies("login ann one yes", accounts, also=refused)

    def test_an_operation_that_is_interrupted(self):
        """After an interrupt of an operation at any instruction of the pool, the thread's next
        operation works, even if a report keeps the interrupt. So does an operation after an
        interrupted use of the caller's own, which nothing keeps."""
        accounts = self.accounts()
        pool, kept, is_over = accounts._connections.primary, [], False
        while not is_over:
            act = functools.partial(accounts.verify, "ann", "one")
            is_over, alarm = self.interrupted(len(kept) + 1, act)
            kept.append(alarm)
            with self.subTest(instruction=len(kept)):
                self.assertIs(accounts.verify("ann", "one"), Reply.YES)
        self.assertGreater(len(kept), 50)

        def use():
            with pool():
                pass

        number, is_over = 0, False
        while not is_over:
            number += 1
            is_over = self.interrupted(number, use)[0]
            with self.subTest(instruction=number):
                self.assertIs(accounts.verify("ann", "one"), Reply.YES)

    @each(None, KeyError)
    def test_the_outer_use_ends(self, kind):
        """The connection of the outer use is closed, however the use ends, even if a traceback
        keeps the use alive. The thread's own connection stays."""
        pool = PerThread(self.connect)
        outer = pool()
        one = outer.__enter__()
        with pool() as other:
            pass
        outer.__exit__(kind, kind, None)
        self.assertRaises(sqlite3.ProgrammingError, one.execute, "SELECT 1")
        with pool() as last:
            self.assertIs(last, other)
            last.execute("SELECT 1")
        pool.close()

    def test_another_process_closes_nothing(self):
        conn = mock.Mock()
        held = pools._Held(conn)
        with mock.patch("os.getpid", return_value=held.pid + 1):
            held.close()
            conn.close.assert_not_called()
        held.close()
        conn.close.assert_called_once_with()

    def test_a_connection_is_given_up_after_an_exception(self):
        """A pool closes a connection after any exception, even after an interrupt or a cancelled
        task."""
        pool = PerThread(self.connect)
        self.assert_given_up(pool, KeyError, KeyboardInterrupt, asyncio.CancelledError, Alarm)
        with self.assertRaises(KeyError), pool() as conn:
            conn.execute("BEGIN IMMEDIATE")
            raise KeyError
        self.assertRaises(sqlite3.ProgrammingError, conn.execute, "SELECT 1")
        pool.close()
