"""The engines, each with its own settings, errors, and statements of an operation."""

import asyncio
import functools
import itertools
import sqlite3
import uuid

import servers
from galera import Galera
from support import CHECK_FAILED, HIGH, LOW, PATIENCE, Awaiting, Base, module
from rigzumal import ScryptHasher
from rigzumal.accounts import AsyncAccounts, MariaDB, MySQL, Postgres, Sqlite
from rigzumal.accounts.pools import PerUse

DISK = sqlite3.OperationalError("disk I/O error")
DISK.sqlite_errorcode, DISK.sqlite_errorname = 10, "SQLITE_IOERR"
NUMBERS = itertools.count()
BEFORE_UPDATE = "CREATE TRIGGER tr BEFORE UPDATE ON users"
AFTER_UPDATE = "CREATE TRIGGER tr AFTER UPDATE ON users"
PUTS = "BEGIN UPDATE users SET record = {} WHERE name = NEW.name; END"  # on SQLite
LEVELS = ("repeatable read", "serializable", "read committed")


class OnSqlite:
    kind, dialect = servers.SqliteFile, Sqlite("users", "name", "record")
    # The driver's error for a connection that has ended; this engine has none.
    broken = ended = sqlite3.OperationalError("disk I/O error")
    again = lost_look = sqlite3.OperationalError("database is locked")
    # The errors that a COMMIT may raise though it took effect.
    unknown = (broken, DISK)
    # The statements of a change at once, of one in a transaction, and of a confirmed answer.
    one = several = confirmed = "BEGIN UPDATE SELECT COMMIT"
    # Around a hook, where its BEGIN would commit.
    held = ""
    levels = ("SELECT 1",)
    check_number = CHECK_FAILED
    holding = "SELECT 1 FROM users"
    lock_timeout = statement_timeout = "PRAGMA busy_timeout = 10"
    # Columns of keys, each with the key of a row, and a key that no row has.
    keys = (("BIGINT", int, 7, 8), ("BLOB", bytes, b"\0\xff", b"x"))
    # The statements before the creation of a table with keys of an enum, and its column.
    enum = (), "TEXT CHECK (name IN ('ann', 'ben'))"
    shouting = (f"{AFTER_UPDATE} WHEN NEW.record LIKE '%m=%' {PUTS.format('upper(NEW.record)')}",)
    ignoring = (f"{BEFORE_UPDATE} BEGIN SELECT RAISE(IGNORE); END",)
    emptying = (f"{AFTER_UPDATE} {PUTS.format('NULL')}",)
    # Columns whose collation equates different texts; columns that change a record; and settings of
    # connections under which they do.
    folding, changing, modes = ("TEXT COLLATE NOCASE",), (), ()
    begins_late = True

    def patient(self):
        """A connection that waits for others as long as a test may take."""
        return self.connect(timeout=60)

    def as_dictionaries(self):
        def dictionary(cursor, row):
            return {it[0]: value for it, value in zip(cursor.description, row)}

        for factory in (sqlite3.Row, dictionary):
            conn = self.connect()
            conn.row_factory = factory
            yield conn


class OnSqliteWithPepper(OnSqlite):
    low, high = (it.replace(secret=b"new") for it in (LOW, HIGH))


class OnSqliteWithScrypt(OnSqlite):
    low, high = ScryptHasher(log2_n=4), ScryptHasher(log2_n=5)


class OnServer:
    broken = lost_look = ConnectionError("planted")
    unknown = (broken,)
    begins_late, held = False, ""
    holding = "SELECT 1 FROM users FOR UPDATE"

    def patient(self):
        return self.connect()


def postgres_trigger(body, when=BEFORE_UPDATE):
    """The statements that create a trigger with this body."""
    function = "CREATE OR REPLACE FUNCTION made() RETURNS trigger LANGUAGE plpgsql"
    return f"{function} AS 'BEGIN {body} END'", f"{when} FOR EACH ROW EXECUTE FUNCTION made()"


class OnPostgres(OnServer):
    kind, dialect = servers.PostgresServer, Postgres("users", "name", "record")
    one, several, confirmed = "UPDATE", "BEGIN UPDATE COMMIT", "BEGIN UPDATE COMMIT"
    levels = [f"SET default_transaction_isolation = '{it}'" for it in LEVELS]
    keys = (
        ("bigint", int, 7, 8),
        *((it, int, 7, 2**40) for it in ("smallint", "numeric")),
        ("bytea", bytes, b"\0\xff", b"of another size"),
        ("uuid", uuid.UUID, uuid.UUID(int=7), uuid.UUID(int=8)),
    )
    enum = (
        ("DROP TYPE IF EXISTS clerk", "CREATE TYPE clerk AS ENUM ('ann', 'ben')"),
        "clerk",
    )
    check_number = "23514"
    lock_timeout = "SET lock_timeout = '300ms'"
    statement_timeout = "SET statement_timeout = '200ms'"
    shouting = postgres_trigger("NEW.record = upper(NEW.record); RETURN NEW;")
    ignoring = postgres_trigger("RETURN NULL;")
    emptying = postgres_trigger("NEW.record = NULL; RETURN NEW;")
    folding, changing = ("text COLLATE ci", "citext", "char(20)"), ("char(300)", "varchar(60)")
    modes = ("SELECT 1",)

    only_reads = "in time: ReadOnlySqlTransaction 25006"

    @property
    def ended(self):
        return servers.psycopg.OperationalError("mine")

    @property
    def again(self):
        return servers.psycopg.errors.DeadlockDetected("planted")

    def reading(self):
        """A function that connects to a standby, as after an early move of the address, and the
        call that promotes the standby."""
        standby = servers.PostgresServer("standby", self.server).start()
        self.addCleanup(standby.kill)
        return standby.connect, standby.promote

    def trigger(self, *given):
        for sql in postgres_trigger(*given):
            self.execute(sql)

    def refused(self):
        """Functions that connect to a missing database, and as a missing user."""
        place = self.server.url.rpartition("/")[0]
        for url in (f"{place}/nope", self.server.url.replace("store@", "nobody@")):
            yield functools.partial(servers.psycopg.connect, url, autocommit=True)

    def create(self):
        """Creates the database with the extension and the collation that some tests need."""
        # A prepared statement knows the earlier table.
        self.conn.prepare_threshold = None
        super().create()
        self.execute("CREATE EXTENSION IF NOT EXISTS citext")
        self.execute(
            "CREATE COLLATION IF NOT EXISTS ci"
            " (provider = icu, locale = 'und-u-ks-level2', deterministic = false)"
        )

    def end_sessions(self):
        self.execute(
            "SELECT pg_terminate_backend(pid) FROM pg_stat_activity"
            " WHERE pid <> pg_backend_pid() AND datname = 'postgres'"
        )

    def as_dictionaries(self):
        from psycopg.rows import dict_row

        yield self.connect(row_factory=dict_row)

    def of_role(self, grants):
        """A function that connects as a role with only these rights."""
        name = f"looker{next(NUMBERS)}"
        self.execute(f"CREATE ROLE {name} LOGIN")
        self.execute(f"GRANT {grants} ON users TO {name}")
        url = self.server.url.replace("store@", f"{name}@")
        return lambda: servers.psycopg.connect(url, autocommit=True)


class OnMariaDB(OnServer):
    kind, dialect = servers.MariaServer, MariaDB("users", "name", "record")
    one, several = "BEGIN", "START UPDATE SELECT COMMIT"
    confirmed = "START UPDATE UPDATE SELECT COMMIT"
    held = "SAVEPOINT RELEASE "
    levels = [f"SET SESSION TRANSACTION ISOLATION LEVEL {it}" for it in LEVELS]
    keys = (("BIGINT", int, 7, 8), ("VARBINARY(16)", bytes, b"\0\xff", b"x"))
    enum = (), "ENUM('ann', 'ben') CHARACTER SET utf8mb4 COLLATE utf8mb4_nopad_bin"
    check_number = "4025"
    lock_timeout = "SET innodb_lock_wait_timeout = 1"
    statement_timeout = "SET SESSION max_statement_time = 0.2"
    shouting = (f"{BEFORE_UPDATE} FOR EACH ROW SET NEW.record = UPPER(NEW.record)",)
    emptying = (f"{BEFORE_UPDATE} FOR EACH ROW SET NEW.record = NULL",)
    ignoring = ()
    folding = ("TEXT CHARACTER SET utf8mb4 COLLATE utf8mb4_general_ci",)
    changing = ("VARCHAR(60)", "VARCHAR(90)")
    # Without strict mode the server cuts off what is too long.
    modes = ("SET sql_mode = 'STRICT_TRANS_TABLES'", "SET sql_mode = ''")

    only_reads = "1290"

    @property
    def ended(self):
        return servers.pymysql.err.OperationalError(2013, "mine")

    @property
    def again(self):
        return servers.pymysql.err.OperationalError(1213, "planted")

    def reading(self):
        """A function that connects to a read-only server, and the call that makes the server
        writable."""

        def set_to(value):
            self.server.as_root(f"SET GLOBAL read_only = {value}")

        set_to(1)
        self.addCleanup(set_to, 0)
        return self.connect, lambda: set_to(0)

    def refused(self):
        return [functools.partial(self.connect, **{it: "nope"}) for it in ("database", "user")]

    def end_sessions(self, conn=None):
        others = "WHERE id <> CONNECTION_ID() AND user = 'store'"
        sql = f"SELECT id FROM information_schema.processlist {others}"
        for (number,) in self.execute(sql, conn=conn):
            self.execute(f"KILL {number}", conn=conn)

    def as_dictionaries(self):
        from pymysql.cursors import DictCursor

        yield self.connect(cursorclass=DictCursor)

    def of_role(self, grants):
        """A function that connects as a user with only these rights."""
        name, password = "looker@'127.0.0.1'", self.server.password
        made = f"CREATE USER {name} IDENTIFIED BY '{password}'"
        granted = f"GRANT {grants} ON store.users TO {name}"
        self.server.as_root(f"DROP USER IF EXISTS {name}", made, granted)
        return lambda: self.connect(user="looker")


class OnMySQL(OnMariaDB):
    kind, dialect = servers.MySqlServer, MySQL("users", "name", "record")
    one = OnMariaDB.several
    enum = (), "ENUM('ann', 'ben') CHARACTER SET utf8mb4 COLLATE utf8mb4_0900_bin"
    check_number = "3819"
    statement_timeout = OnMariaDB.lock_timeout  # max_execution_time is of SELECT alone


class OnPgBouncer(OnPostgres):
    kind = servers.PooledPostgres


class OnGalera(OnMariaDB):
    kind = Galera
    # If both nodes write one row, one of the writers is undone at its COMMIT, again and again.
    test_strangers_guesses_beside_the_owner = None

    def end_sessions(self):
        for node in self.server.nodes:
            own = node.port == self.conn.port
            super().end_sessions(self.conn if own else node.connect())


def made(suite, *bases, **more):
    """The name and the class of a suite's tests over an engine, for a module's globals."""
    name = "".join([*(it.__name__ for it in (suite, *bases)), *more.values()])
    return name, type(name, (*bases, suite, Base), {"__doc__": suite.__doc__, **more})


class Awaited:
    """AsyncAccounts with blocking calls: each runs an operation to its end."""

    def __init__(self, accounts):
        self.core = accounts

    def __getattr__(self, name):
        found = getattr(self.core, name)
        if name.startswith("_") or not asyncio.iscoroutinefunction(found):
            return found
        return lambda *given, **named: asyncio.run(found(*given, **named))


class OnSqliteTasks(OnSqlite):
    async def awaiting(self):
        return Awaiting(self.connect())

    def over(self, pool, hasher=LOW, dialect=None, **more):
        given = {"patience": PATIENCE, **more}
        return Awaited(AsyncAccounts(pool, dialect or self.dialect, hasher, **given))

    def accounts(self, hasher=LOW, dialect=None, **more):
        return self.over(PerUse(self.awaiting), hasher, dialect, **more)


class OnAiosqlite(OnSqliteTasks):
    """The tests of SQLite over an asynchronous driver."""

    async def awaiting(self):
        given = {"isolation_level": None, "timeout": 5}
        return await module("aiosqlite").connect(self.server.path, **given)


class OnPostgresTasks(OnPostgres):
    async def awaiting(self):
        return await servers.psycopg.AsyncConnection.connect(self.server.url, autocommit=True)

    over, accounts = OnSqliteTasks.over, OnSqliteTasks.accounts
