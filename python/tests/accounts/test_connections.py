"""The waits and their causes, over a clock and a runtime that only record them."""

import asyncio
import contextlib
import contextvars
import io
import queue
import sqlite3
import unittest
from unittest import mock

from support import each, module, run
from rigzumal.accounts import Postgres, Sqlite, StoreFault, Unavailable, _connections
from rigzumal.accounts._connections import Connections, Waits
from rigzumal.accounts._running import RUNNING, Also, runs_on, runs_over
from rigzumal.accounts._table import Lost, Table, Undone
from rigzumal.accounts.types import NoConnection

BUSY = sqlite3.OperationalError("database is locked")
REFUSED = sqlite3.OperationalError("no such table: users")


# asyncio's and concurrent.futures' until Python 3.10, which is no OSError.
OldTimeoutError = type("TimeoutError", (Exception,), {})


class Patience(unittest.TestCase):
    def connections(self, *answers, patience=10.0, replica=None):
        """Connections over a runtime whose first uses end in these ways, and whose next use
        succeeds; a pause passes at once."""
        runtime, time = mock.AsyncMock(now=100.0, pauses=[]), _connections.time
        runtime.use.side_effect = [*answers, "done"]

        def pause(seconds):
            runtime.pauses.append(seconds)
            runtime.now += seconds

        runtime.pause.side_effect = pause
        self.enterContext(mock.patch.object(time, "monotonic", lambda: runtime.now))
        self.enterContext(mock.patch.object(_connections.random, "uniform", lambda *span: 1.0))
        table = Table(Sqlite("users", "name", "record"), False, lambda worked: None)
        return runtime, Connections(runtime, "primary", replica, table, patience)

    def used(self, runtime):
        """The pools that were used."""
        return [it.args[0] for it in runtime.use.mock_calls]

    @each(BUSY, Undone(BUSY))
    def test_pauses_double_up_to_half_a_second(self, answer):
        """Pauses grow for a server that can't be reached, and for one that undoes statements."""
        runtime, connections = self.connections(*[answer] * 12)
        with self.assertLogs("rigzumal.accounts", "WARNING") as logs:
            self.assertEqual(run(connections.patiently(None)), "done")
        name = "WARNING:rigzumal.accounts:retrying an operation: OperationalError"
        self.assertEqual(logs.output, [name])
        wanted = [0.002 * 2**it for it in range(8)] + [0.5] * 4
        self.assertEqual([round(it, 3) for it in runtime.pauses], wanted)

    def test_dead_connections_are_worked_through(self):
        """Dead connections are used up for half a second; after that the operation pauses between
        tries."""
        runtime, connections = self.connections(*[Lost()] * 400, patience=1000.0)
        run(connections.patiently(None))
        quick = [it for it in runtime.pauses if it < 0.003]
        self.assertAlmostEqual(sum(quick), 0.502, delta=0.003)
        later = [round(it, 3) for it in runtime.pauses[len(quick) :]]
        self.assertEqual(later[:3], [0.004, 0.008, 0.016])

    @each((0.0, 1), (0.005, 3))
    def test_patience_ends(self, patience, count):
        error = sqlite3.OperationalError("database is locked")
        runtime, connections = self.connections(*[error] * 9)
        with self.assertRaisesRegex(Unavailable, "database is locked") as raised:
            run(connections.patiently(None, patience))
        self.assertEqual(runtime.use.call_count, count)
        self.assertIs(raised.exception.__cause__, error)

    def test_pauses_differ(self):
        """Pauses are random, so that many waiting clients don't return at the same time."""
        pauses = {Waits(1.0, 0.0).next() for _ in range(20)}
        self.assertGreater(len(pauses), 1)
        self.assertTrue(all(0.001 <= it <= 0.003 for it in pauses))

    def test_the_clock_begins_with_the_first_use(self):
        """A statement that hung has used up the whole time."""
        runtime, connections = self.connections(patience=5.0)

        async def hangs(pool, job):
            runtime.now += 8.0
            raise BUSY

        runtime.use = hangs
        self.assertRaises(Unavailable, run, connections.patiently(None))
        self.assertEqual(runtime.pauses, [])

    @each(StoreFault("x"), KeyError("x"), FileNotFoundError("x"), sqlite3.ProgrammingError("x"))
    def test_what_would_be_refused_again_is_raised(self, error):
        runtime, connections = self.connections(error)
        with self.assertRaises(type(error)) as raised:
            run(connections.patiently(None))
        self.assertIs(raised.exception, error)
        self.assertEqual(runtime.pauses, [])

    @each(REFUSED, sqlite3.DatabaseError("no such table: users"))
    def test_a_connection_that_is_refused(self, error):
        """A driver's error from the pool is a fault, as the same error in a statement is."""
        runtime, connections = self.connections(error)
        with self.assertRaisesRegex(StoreFault, "^the server refused the connection: no such"):
            run(connections.patiently(None))
        self.assertEqual(runtime.pauses, [])

    @each(TimeoutError("late"), ConnectionError("late"), OldTimeoutError("late"))
    def test_a_pool_without_a_connection(self, error):
        """The error of a pool that has waited in vain is Unavailable on each engine."""
        runtime, connections = self.connections(error, patience=0.0)
        with self.assertRaisesRegex(NoConnection, "in time: .*Error: late") as raised:
            run(connections.patiently(None))
        self.assertIs(raised.exception.__cause__, error)
        runtime, connections = self.connections(error)
        self.assertEqual(run(connections.patiently(None)), "done")

    def refused(self, *before, patience=10.0, said='database "x" does not exist'):
        """Connections to a server that says this three times after these outcomes."""
        error = module("psycopg").OperationalError(f"failed: FATAL:  {said}\n")
        runtime, connections = self.connections(*before, *[error] * 3, patience=patience)
        connections.table.dialect = Postgres("users", "name", "record")
        return runtime, connections

    def assert_refused(self, connections):
        said = "^the server refused the connection: failed: FATAL:  database"
        self.assertRaisesRegex(NoConnection, said, run, connections.patiently(None))

    def test_a_first_connection_that_is_refused(self):
        """A pool that has never connected isn't asked again after a server's own refusal."""
        runtime, connections = self.refused()
        self.assert_refused(connections)
        self.assertEqual(runtime.pauses, [])

    @each(
        "the database system is starting up",
        "sorry, too many clients already",
        'too many connections for role "ada"',
        "das Datenbanksystem startet",
    )
    def test_a_first_connection_to_a_server_that_starts(self, said):
        """A refusal that may end is waited for, by a pool that has never connected too."""
        runtime, connections = self.refused(said=said)
        self.assertEqual(run(connections.patiently(None)), "done")
        self.assertEqual(len(runtime.pauses), 3)
        runtime, connections = self.refused(said=said, patience=0.0)
        with self.assertRaisesRegex(NoConnection, f"in time: OperationalError: .*{said}"):
            run(connections.patiently(None))

    @each("done", Undone(BUSY), Lost())
    def test_a_later_connection_that_is_refused(self, first):
        """A pool that has connected once is asked again: the server may only start."""
        runtime, connections = self.refused(first)
        for _ in range(1 + (first == "done")):
            self.assertEqual(run(connections.patiently(None)), "done")
        self.assertEqual(runtime.use.call_count, 5)
        runtime, connections = self.refused("done", patience=0.004)
        run(connections.patiently(None))
        self.assert_refused(connections)
        self.assertEqual(len(runtime.pauses), 2)

    def test_a_replica_is_asked_once(self):
        """After any fault of a replica or of its pool the primary does the work, and the fault is
        logged once, without a program's own text."""
        faults = (REFUSED, StoreFault("x"), Unavailable("its pool is full"), queue.Empty("own"))
        for answer in (BUSY, Lost(), Undone(BUSY), *faults):
            given = (answer, answer, "done", answer)
            runtime, connections = self.connections(*given, replica="replica")
            with self.assertLogs("rigzumal.accounts", "WARNING") as logs:
                done = []
                for _ in given:
                    done.append(run(connections.at_replica(None)))
                    runtime.now += 5.1
            self.assertEqual([isinstance(it, Undone) for it in done], [True, True, False, True])
            self.assertEqual((self.used(runtime), runtime.pauses), (["replica"] * 4, []))
            self.assertEqual(len(logs.output), 2)
            self.assertIn("skipping the replica: ", logs.output[0])
            self.assertNotIn("own", logs.output[0])
        self.assertIn("skipping the replica: Empty", logs.output[0])
        runtime, connections = self.connections("a record", replica="replica")
        self.assertEqual(run(connections.at_replica(None)), "a record")
        _, connections = self.connections(asyncio.CancelledError(), replica="replica")
        self.assertRaises(asyncio.CancelledError, run, connections.at_replica(None))
        _, connections = self.connections(replica="replica")
        nested = {"side_effect": TypeError}  # the caller's mistake, and no fault of the replica
        with mock.patch.object(connections.table, "refuse_nested", **nested):
            self.assertRaises(TypeError, run, connections.at_replica(None))
        _, connections = self.connections(queue.Empty("own"), replica="replica")
        (fault,) = run(connections.replica_faults(None))
        self.assertEqual(
            (fault.code, fault.text), ("replica-refuses", "skipping the replica: Empty")
        )
        runtime, connections = self.connections()
        self.assertIsInstance(run(connections.at_replica(None)), Undone)
        self.assertEqual(run(connections.patiently(None)), "done")
        self.assertEqual((self.used(runtime), runtime.pauses), (["primary"], []))

    def test_a_replica_that_is_away_is_left_alone(self):
        """No operation asks a failed replica for five seconds; then one asks it, and the others
        don't wait."""
        runtime, connections = self.connections(BUSY, BUSY, "back", replica="replica")
        look = lambda: isinstance(run(connections.at_replica(None)), Undone)
        uses = []
        for _ in range(11):
            uses.append((look(), runtime.use.call_count))
            runtime.now += 1.0
        self.assertEqual(uses, [(True, 1)] * 5 + [(True, 2)] * 5 + [(False, 3)])
        self.assertEqual((look(), runtime.use.call_count), (False, 4))

    def test_one_operation_asks_a_replica_that_was_away(self):
        runtime, connections = self.connections(replica="replica")
        asked = []

        async def slow(pool, job):
            asked.append(pool)
            if len(asked) == 2:  # another operation comes meanwhile
                self.assertIsInstance(await connections.at_replica(None), Undone)
                runtime.now += 3.0
            raise BUSY

        runtime.use = slow
        for _ in range(2):
            run(connections.at_replica(None))
            runtime.now += 5.1
        self.assertEqual(asked, ["replica"] * 2)
        for _ in range(2):  # `examine` asks the replica at any time
            found = run(connections.replica_faults(None))
            self.assertEqual([it.code for it in found], ["replica-away"])
        self.assertEqual(asked, ["replica"] * 4)


class Running(unittest.TestCase):
    """The hooks within which a caller runs, those of an outer operation too."""

    def test_of_pools_and_tables(self):
        pool = contextlib.closing(io.StringIO())  # its bound methods are equal, and not the same
        within = Also(pool.__enter__, "users"), Also(pool.__exit__, "others")
        context = contextvars.copy_context()
        context.run(RUNNING.set, within)
        for over, table, is_over_it, is_on_it in (
            (pool.__enter__, "users", True, True),
            (pool.__enter__, "others", True, False),
            (pool.__exit__, "others", True, True),
            (pool.__exit__, "users", True, False),
            (pool, "users", False, False),
        ):
            with self.subTest(over=over, table=table):
                self.assertEqual(context.run(runs_over, over), is_over_it)
                self.assertEqual(context.run(runs_on, over, table), is_on_it)
        within[0].is_over = True
        self.assertFalse(context.run(runs_over, pool.__enter__))
        self.assertFalse(context.run(runs_on, pool.__enter__, "users"))
        self.assertTrue(context.run(runs_on, pool.__exit__, "others"))
