"""Runs a page's login over a table in PostgreSQL, from the file that the argument names."""

import pathlib
import sys
import unittest

import servers
from rigzumal import PasswordHasher
from rigzumal.accounts import Accounts, PerThread, Postgres, Reply


def table_in(server, record):
    with server.connect() as conn:
        columns = "id INTEGER PRIMARY KEY, email VARCHAR(150) UNIQUE NOT NULL, record VARCHAR(512)"
        conn.execute(f"CREATE TABLE users ({columns})")
        conn.execute("INSERT INTO users VALUES (7, 'ada@example.org', %s)", (record,))


def main():
    try:
        import psycopg

        server = servers.PostgresServer("of-the-page").start()
    except (ImportError, unittest.SkipTest) as reason:
        print(f"not there: {reason}")
        return
    old = PasswordHasher(time_cost=1, memory_cost=64, parallelism=1)
    table_in(server, old.hash("a secret"))
    names = {it.__name__: it for it in (Accounts, PerThread, Postgres, PasswordHasher, Reply)}
    code = pathlib.Path(sys.argv[1]).read_text().replace("...", "told.append(password)")
    told = []
    names.update(psycopg=psycopg, dsn=server.url, conninfo=server.url, user_id=7, told=told)
    for password in ("another", "a secret", "a secret"):
        exec(code, {**names, "password": password})
    assert told == ["a secret", "a secret"], told
    with server.connect() as conn:
        ((record,),) = conn.execute("SELECT record FROM users").fetchall()
    assert PasswordHasher().verify(record, "a secret")
    assert not PasswordHasher().check_needs_rehash(record)


main()
