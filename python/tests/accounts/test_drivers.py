"""Common drivers and pools: those that work, and those that an error refuses by name."""

import asyncio
import contextlib
import threading
import unittest
from unittest import mock

import engines
import servers
import support
from engines import Awaited
from support import HIGH, LOW, called, module
from rigzumal.accounts import Accounts, AsyncAccounts, MariaDB, Postgres, Reply, Sqlite, StoreFault
from rigzumal.accounts import Unavailable, of_engine
from rigzumal.accounts.types import Kind, Request, Ticket
from tests.needs import lacking


class Refused(unittest.TestCase):
    """An error at a connection of another driver names the driver, and doesn't blame the table."""

    def assert_refused(self, conn, kind, said):
        """Each operation refuses the connection before it sends anything."""
        dialect = kind("users", "name", "record")
        accounts = Accounts(lambda: contextlib.nullcontext(conn), dialect, LOW, patience=0.0)
        ticket = Ticket(Request(Kind.CHANGE, "ann", "one", "two"), LOW.hash("one"))
        acts = (("verify", "ann", "one"), ("change", "ann", "one", "two"), ("examine",))
        worked = accounts.work(ticket)
        for name, *given in (*acts, ("commit", worked), ("commit_in", conn, worked)):
            self.assertRaisesRegex(StoreFault, said, getattr(accounts, name), *given)

    def test_psycopg2(self):
        conn = module("psycopg2").connect(support.server(servers.PostgresServer).url)
        self.addCleanup(conn.close)
        conn.autocommit = True
        self.assert_refused(conn, Postgres, "the driver is psycopg2 instead of psycopg 3")

    def test_mysqlclient(self):
        given = {"host": "127.0.0.1", "user": "store", "passwd": "store", "db": "store"}
        port = support.server(servers.MariaServer).port
        conn = module("MySQLdb").connect(port=port, autocommit=True, **given)
        self.addCleanup(conn.close)
        self.assert_refused(conn, MariaDB, "the driver is MySQLdb instead of PyMySQL")

    def test_asyncpg(self):
        asyncpg = module("asyncpg")
        server = support.server(servers.PostgresServer)

        @contextlib.asynccontextmanager
        async def pool():
            conn = await asyncpg.connect(server.url)
            try:
                yield conn
            finally:
                await conn.close()

        accounts = Awaited(AsyncAccounts(pool, Postgres("users", "name", "record"), LOW))
        self.assertRaisesRegex(StoreFault, "the driver is asyncpg", accounts.verify, "ann", "one")

    def test_others(self):
        """The error for SQLAlchemy's own connections names the function that makes a pool of their
        engine."""
        sqlalchemys = type("Connection", (), {"__module__": "sqlalchemy.pool", "info": {}})
        for kind in (Sqlite, MariaDB, Postgres):
            said = "the driver is sqlalchemy instead of .* of_engine"
            self.assert_refused(sqlalchemys(), kind, said)
            self.assert_refused(object(), kind, "the driver is builtins")


class Engines:
    """SQLAlchemy's engine as the pool: `name` is its word for the database."""

    def url(self, driver):
        return f"{self.name}+{driver}:{self.server.url.partition(':')[2]}"

    def setUp(self):
        super().setUp()
        self.sqlalchemy = module("sqlalchemy")

    def engine(self, **given):
        given = {"isolation_level": "AUTOCOMMIT", **given}
        made = self.sqlalchemy.create_engine(self.url(self.driver), **given)
        self.addCleanup(made.dispose)
        return made

    def over(self, engine, **more):
        return Accounts(of_engine(engine), self.dialect, LOW, **more)

    def test_operations(self):
        plain = self.engine(isolation_level=None)
        committing = plain.execution_options(isolation_level="AUTOCOMMIT")
        for engine in (self.engine(pool_size=2), committing):
            accounts = self.over(engine)
            self.assertEqual(accounts.examine(), [])
            for _ in range(3):
                self.assert_replies("reset ann one replaced", accounts)
                self.assert_replies("login ann one yes; change ann one two replaced", accounts)
                self.assert_replies("login ann two yes; login ann one no", accounts)
            self.assertEqual(engine.pool.checkedout(), 0)

    def test_pools_that_will_not_do(self):
        """Errors name an engine that isn't in autocommit, and an engine's own connections."""
        manual = of_engine(self.engine(isolation_level=None)), "must be in autocommit"
        own = self.engine().connect, "the driver is sqlalchemy instead of .* of_engine"
        for pool, said in (manual, own):
            for name in ("verify", "login", "enrol"):
                with self.assertRaisesRegex(StoreFault, said):
                    getattr(Accounts(pool, self.dialect, LOW), name)("ann", "one")

    def test_a_connection_is_given_up_after_an_exception(self):
        engine = self.engine(pool_size=1)
        self.assert_given_up(of_engine(engine), KeyError, KeyboardInterrupt)
        self.assertEqual(engine.pool.checkedout(), 0)

    def test_a_pool_that_is_empty(self):
        """A pool that has waited for a connection up to its own timeout isn't asked again."""
        kind = self.sqlalchemy.pool.QueuePool
        engine = self.engine(poolclass=kind, pool_size=1, max_overflow=0, pool_timeout=0.01)
        with of_engine(engine)():
            with self.assertRaisesRegex(Unavailable, "no connection was free: QueuePool limit"):
                self.over(engine, patience=60.0).verify("ann", "one")
        self.assert_replies("verify ann one yes", self.over(engine))


class AwaitedEngines(Engines):
    def test_asyncio(self):
        module(self.asynchronous_driver)
        module("greenlet")  # which SQLAlchemy's asyncio needs
        from sqlalchemy.ext.asyncio import create_async_engine

        async def act():
            # SQLAlchemy's default for SQLite keeps no connection, and so closes each.
            kind = self.sqlalchemy.pool.AsyncAdaptedQueuePool
            given = {"isolation_level": "AUTOCOMMIT", "poolclass": kind, "pool_size": 1}
            engine = create_async_engine(self.url(self.asynchronous_driver), **given)
            pool = of_engine(engine)
            accounts = AsyncAccounts(pool, self.dialect, LOW)
            self.assertIs(await accounts.reset("ann", "one"), Reply.REPLACED)
            self.assertIs(await accounts.change("ann", "one", "two"), Reply.REPLACED)
            said = await asyncio.gather(*(accounts.login("ann", it) for it in ("one", "two")))
            self.assertEqual(said, [Reply.NO, Reply.YES])
            with self.assertRaises(KeyError):
                async with pool() as conn:
                    raise KeyError
            made = []
            for _ in range(2):
                async with pool() as other:
                    made.append(other)
            self.assertIsNot(made[0], conn)
            self.assertIs(made[0], made[1])
            await engine.dispose()

        asyncio.run(act())


class EnginesOfSqlite(AwaitedEngines, engines.OnSqlite, support.Base):
    name, driver, asynchronous_driver = "sqlite", "pysqlite", "aiosqlite"

    def engine(self, **given):
        given.setdefault("poolclass", self.sqlalchemy.pool.QueuePool)
        arguments = {"check_same_thread": False, "timeout": 5}
        return super().engine(connect_args=arguments, **given)


class EnginesOfMariaDB(Engines, engines.OnMariaDB, support.Base):
    name, driver = "mysql", "pymysql"

    def test_a_restart(self):
        """The operation waits for the server: the dialect reads the driver's refusal inside
        SQLAlchemy's."""
        accounts = self.over(self.engine())
        self.assert_replies("login ann one yes", accounts)
        self.server.end()
        timer = threading.Timer(1.0, self.server.start)
        timer.start()
        try:
            self.assertIs(accounts.login("ann", "one"), Reply.YES)
        finally:
            timer.join()


class EnginesOfPostgres(AwaitedEngines, engines.OnPostgres, support.Base):
    name, driver, asynchronous_driver = "postgresql", "psycopg", "psycopg"

    def setUp(self):
        super().setUp()
        if self.sqlalchemy.__version__ < "2":
            raise lacking("a newer SQLAlchemy")


class Prepared(engines.OnPostgres, support.Base):
    def test_a_services_own_statements(self):
        """A service's own statements stay prepared on a shared connection; ours are never
        prepared."""
        conn = self.another()
        for _ in range(9):
            self.kept(conn=conn).login("ann", "one")
            conn.execute("SELECT 'a service'")
        ((statement,),) = conn.execute("SELECT statement FROM pg_prepared_statements").fetchall()
        self.assertEqual(statement, "SELECT 'a service'")
        self.assertEqual(conn.prepare_threshold, 5)


class Pooler(engines.OnPgBouncer, support.Base):
    """PgBouncer, which may lend a session to another client after each transaction."""

    def test_no_statement_is_prepared(self):
        """No statement is prepared, although psycopg by default prepares a statement at its sixth
        use."""
        accounts = self.accounts(connect=lambda: self.connect(prepare_threshold=5))
        calls = "reset {0} a; change {0} a b; login {0} b; remove {0} b; enrol {0} a".split("; ")
        for number in range(4):
            self.give("a", f"user{number}")

        def act(number):
            said = [called(accounts, it.format(f"user{number}")) for it in calls * 12]
            accounts._connections.primary.close()
            return said

        replies = ["replaced", "replaced", "yes", "removed", "enrolled"]
        self.assertEqual(support.in_threads(act, 4), [replies * 12] * 4)


class OfStatements(servers.PooledPostgres):
    """A pooler that lends a session for one statement."""

    mode = "statement"


class StatementMode(support.Base):
    """PgBouncer in statement mode, which has no transactions: each error names this mode."""

    kind, dialect = OfStatements, Postgres("users", "name", "record")
    named = "PgBouncer's pool_mode is statement, .* set it to transaction or session"

    def create(self):
        """Creates the table at the server behind the pooler, whose own session doesn't matter
        here."""
        self.conn = self.server.of.connect()
        self.addCleanup(self.conn.close)
        super().create()

    def test_examine(self):
        (fault,) = self.accounts().examine()
        self.assertTrue(fault.is_error)
        self.assertRegex(str(fault), self.named)

    def test_operations(self):
        """An operation that needs a transaction raises a fault at once, and writes no record."""
        record = LOW.hash("one")
        self.put(record)
        self.put(None, "ben")
        accounts, dearer = self.accounts(), self.accounts(HIGH)
        also = mock.Mock(side_effect=AssertionError)
        confirming, own = self.accounts(confirm=True), {"also": also}
        for of, text, more in (
            *((accounts, it, {}) for it in ("enrol ben one", "remove ann one")),
            *((accounts, it, own) for it in ("login ann one", "change ann one two")),
            (confirming, "verify ann one", {}),
        ):
            with self.no_pause(of):
                self.assertRaisesRegex(StoreFault, self.named, called, of, text, **more)
        self.assertEqual((self.stands(), self.stands("ben")), (record, None))
        # A look and a change are one statement each.
        self.assert_replies("login ann one yes; change ann one two replaced", accounts)
        self.assertIs(dearer.login("ann", "two"), Reply.YES)
        self.assertTrue(self.is_right("two"))

    def test_a_transaction_of_ones_own(self):
        """A caller's transaction can't begin, so no operation runs in one."""
        self.put(LOW.hash("one"))
        accounts = self.accounts()
        worked = accounts.work(accounts.begin(Request(Kind.VERIFY, "ann", "one")))
        conn = self.another()
        self.assertRaises(StoreFault, accounts.commit_in, conn, worked)
        with self.assertRaisesRegex(servers.psycopg.Error, "statement pooling mode"):
            conn.execute("BEGIN")
