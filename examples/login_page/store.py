"""The data of the login page: accounts, sessions and tries, in SQLite or PostgreSQL."""

from __future__ import annotations

import contextlib
import hashlib
import math
import pathlib
import secrets
import sqlite3
import time
from collections.abc import Callable, Iterator
from functools import partial
from typing import Any, Optional

from environment import POSTGRES
from rigzumal import PasswordHasher
from rigzumal.accounts import Accounts, PerThread, Postgres, Reply, Sqlite
from rigzumal.accounts.dialects import Dialect
from werkzeug.exceptions import TooManyRequests

TABLES = pathlib.Path(__file__).with_name("tables.sql")
LASTS = 12 * 3600  # a session, in seconds
WINDOW = 15 * 60  # the time for which a try counts, in seconds
TRIES = {"account": 10, "session": 10, "address": 50, "signup": 50}


class Store:
    """The tables, and the operations on them. `sign_up`, `log_in` and `change` return a new
    session's token, or None. The session's row is committed with the operation: both are stored, or
    neither.
    """

    def __init__(self, database: str, hasher: PasswordHasher) -> None:
        self._lost: Any = ()  # the error of a connection that the server has closed
        if database.startswith(POSTGRES):
            import psycopg

            self._lost = psycopg.OperationalError
            limits: dict[str, Any] = {"connect_timeout": 5, "tcp_user_timeout": 10_000}
            self._pool = PerThread(lambda: psycopg.connect(database, autocommit=True, **limits))
            self._dialect: Dialect = Postgres("account", "name", "record")
        else:
            self._pool = PerThread(lambda: _sqlite(database))
            self._dialect = Sqlite("account", "name", "record")
        with self._pool() as conn:
            for statement in TABLES.read_text().split(";"):
                conn.execute(statement)
        self._accounts = Accounts(self._pool, self._dialect, hasher)
        for fault in self._accounts.examine():
            if fault.is_error:
                raise SystemExit(f"the database has a fault: {fault}")

    def sign_up(self, name: str, password: str, old: str) -> Optional[str]:
        """Adds an account with its record, if the name is free."""
        record, token = self._accounts.new_record(password), secrets.token_urlsafe()
        add = "INSERT INTO account VALUES (?, ?) ON CONFLICT DO NOTHING RETURNING name"
        with self._transaction() as conn:
            if not self._in(conn, add, name, record):
                return None
            self._begin_session(conn, name, token, old)
        return token

    def log_in(self, name: str, password: str, old: str) -> Optional[str]:
        """Begins a session, if the password is right."""
        return self._enter(partial(self._accounts.login, name, password), name, old)

    def change(self, name: str, password: str, new: str, old: str) -> Optional[str]:
        """If the old password is right, stores the new one and ends all other sessions."""
        return self._enter(partial(self._accounts.change, name, password, new), name, old)

    def _enter(self, act: Callable[..., Reply], name: str, old: str) -> Optional[str]:
        token = secrets.token_urlsafe()

        def also(conn: Any, reply: Reply) -> None:
            if reply is Reply.REPLACED:
                self._in(conn, "DELETE FROM session WHERE name = ?", name)
                self._begin_session(conn, name, token, old, has_note=True)
            elif reply is Reply.YES:
                self._begin_session(conn, name, token, old)

        return token if act(also=also) in (Reply.YES, Reply.REPLACED) else None

    def _begin_session(
        self, conn: Any, name: str, token: str, old: str, has_note: bool = False
    ) -> None:
        """Begins a session in the place of the old one, within the open transaction."""
        now = time.time()
        self._in(conn, "DELETE FROM session WHERE token = ? OR until <= ?", _hash(old), now)
        values = (_hash(token), name, now + LASTS, int(has_note))
        self._in(conn, "INSERT INTO session VALUES (?, ?, ?, ?)", *values)

    def who(self, token: str) -> Optional[str]:
        """The name of a session's user."""
        query = "SELECT name FROM session WHERE token = ? AND until > ?"
        found = self._do(query, _hash(token), time.time())
        return found[0][0] if found else None

    def take_note(self, token: str) -> bool:
        """Whether the page must tell the session, once, that the password was changed."""
        query = "UPDATE session SET has_note = 0 WHERE token = ? AND has_note = 1 RETURNING 1"
        return bool(self._do(query, _hash(token)))

    def end(self, token: str) -> None:
        """Ends a session."""
        self._do("DELETE FROM session WHERE token = ?", _hash(token))

    def count(self, **tried: str) -> str:
        """Counts a try before its password is hashed, so that many at once count too. A try that
        TooManyRequests refuses doesn't count. Returns a ticket, by which `forgive` takes a right
        try back.
        """
        ticket, now = secrets.token_urlsafe(), time.time()
        limits = {_hash(f"{kind} {what}"): TRIES[kind] for kind, what in tried.items()}
        free_at = now
        with self._transaction() as conn:
            if isinstance(self._dialect, Postgres):
                conn.execute("LOCK TABLE try IN EXCLUSIVE MODE")
            self._in(conn, "DELETE FROM try WHERE at <= ?", now - WINDOW)
            for what, limit in limits.items():
                query = "SELECT count(*), min(at) FROM try WHERE what = ?"
                ((tries, first),) = self._in(conn, query, what)
                if tries >= limit:
                    free_at = max(free_at, first + WINDOW)
            for what in limits if free_at == now else ():
                self._in(conn, "INSERT INTO try VALUES (?, ?, ?)", what, now, ticket)
        if free_at > now:
            raise TooManyRequests(retry_after=math.ceil(free_at - now))
        return ticket

    def forgive(self, ticket: str, account: Optional[str] = None) -> None:
        """Forgets a right try, and all tries of its account."""
        what = _hash(f"account {account}")
        self._do("DELETE FROM try WHERE ticket = ? OR what = ?", ticket, what)

    @contextlib.contextmanager
    def _transaction(self) -> Iterator[Any]:
        # After an exception the pool closes the connection, which undoes the open transaction.
        with self._pool() as conn:
            conn.execute(self._dialect.begin)
            yield conn
            conn.execute("COMMIT")

    def _do(self, query: str, *values: Any) -> list[Any]:
        """Runs a statement by itself; runs it once more if this thread's connection was closed."""
        with contextlib.suppress(self._lost), self._pool() as conn:
            return self._in(conn, query, *values)
        with self._pool() as conn:
            return self._in(conn, query, *values)

    def _in(self, conn: Any, query: str, *values: Any) -> list[Any]:
        cursor = conn.execute(query.replace("?", self._dialect.mark), values)
        return list(cursor) if cursor.description else []


def _hash(text: str) -> str:
    """The hash of a token or of a try's name: a reader of the tables gets neither a session nor a
    password that was typed as a name."""
    return hashlib.sha256(text.encode()).hexdigest()


def _sqlite(database: str) -> sqlite3.Connection:
    """A connection to SQLite. Only the owner can read the file, its folder, and the files that
    SQLite adds."""
    file = pathlib.Path(database)
    file.parent.mkdir(mode=0o700, exist_ok=True)
    file.touch(mode=0o600)
    file.chmod(0o600)
    conn = sqlite3.connect(database, isolation_level=None, timeout=30)
    conn.execute("PRAGMA journal_mode = WAL")
    conn.execute("PRAGMA synchronous = FULL")
    return conn
