"""Accounts in a service's own database: no login undoes a change of a password.

    accounts = Accounts(
        PerThread(lambda: psycopg.connect(conninfo, autocommit=True)),
        Postgres("users", "id", "record", int),
        PasswordHasher(),
    )
    if accounts.login(user_id, password) is Reply.YES: ...

An operation reads the account's record, hashes without a lock, and commits by an UPDATE that
compares the row's record with the record that the operation read. If the row has a different record
by then, the operation starts again. The replies are therefore those of one legal history, however
operations overlap.

The package runs on SQLite (sqlite3), PostgreSQL (psycopg 3), MariaDB and MySQL (PyMySQL), and
imports no driver itself. `AsyncAccounts` is the class for asyncio. Use `rigzumal.accounts.types`
for an operation in three parts, and `rigzumal.accounts.dialects` for your own engine. The shell
command is `python3 -m rigzumal accounts`.
"""

from rigzumal.accounts._accounts import Accounts, AsyncAccounts
from rigzumal.accounts.dialects import MariaDB, MySQL, Postgres, Sqlite
from rigzumal.accounts.types import AccountsError, OutcomeUnknown, Reply, StoreFault
from rigzumal.accounts.types import Unavailable
from rigzumal.accounts.pools import PerThread, of_engine

__all__ = [
    "Accounts",
    "AccountsError",
    "AsyncAccounts",
    "MariaDB",
    "MySQL",
    "OutcomeUnknown",
    "PerThread",
    "Postgres",
    "Reply",
    "Sqlite",
    "StoreFault",
    "Unavailable",
    "of_engine",
]
