"""The accounts of a service whose web servers share one PostgreSQL.

Each web server makes one Store for all of its threads. Run `make_table` once.
"""

import psycopg
from psycopg_pool import ConnectionPool
from rigzumal import PasswordHasher
from rigzumal.accounts import Accounts, Postgres, Reply

TABLE = 'CREATE TABLE users (email text COLLATE "C" PRIMARY KEY, record varchar(512))'
ADD = "INSERT INTO users VALUES (%s, %s) ON CONFLICT DO NOTHING"


def make_table(dsn: str) -> None:
    with psycopg.connect(dsn) as conn:
        conn.execute(TABLE)


class Store:
    """The accounts. Raises the exceptions of Accounts, above all Unavailable if no server answers
    in time."""

    def __init__(self, dsn: str) -> None:
        given = {"autocommit": True, "connect_timeout": 5, "tcp_user_timeout": 10_000}
        self.pool = ConnectionPool(dsn, kwargs=given, open=True, timeout=5)
        self.columns = Postgres("users", "email", "record")
        self.accounts = Accounts(self.pool.connection, self.columns, PasswordHasher())
        for fault in self.accounts.examine():
            if fault.is_error:
                raise SystemExit(fault)

    def sign_up(self, email: str, password: str) -> bool:
        """False if the address is taken: nobody else's row is touched.

        ValueError if no new account may have the address or the password.
        """
        self.columns.check_key(email)  # for example a TypeError for None
        if len(email) > 254 or not self.columns.can_stand(email):
            raise ValueError("an address has up to 254 letters, no NUL and no lone surrogate")
        self.columns.check_new_key(email)
        record = self.accounts.new_record(password)
        with self.pool.connection() as conn:
            return conn.execute(ADD, [email, record]).rowcount == 1

    def log_in(self, email: str, password: str) -> bool:
        """Whether the password is right; also replaces a record of old costs, by the same
        comparison."""
        return self.accounts.login(email, password) is Reply.YES

    def change(self, email: str, old: str, new: str) -> bool:
        """False if the old password is wrong."""
        return self.accounts.change(email, old, new) is Reply.REPLACED
