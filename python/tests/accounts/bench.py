"""Measures operations a second on private servers, beside a plain UPDATE without a comparison.

    python3 python/tests/accounts/bench.py [sqlite] [postgres] [mariadb] [galera] [--logins]
                                           [--seconds 10] [--turns 10] [--processes 1,4,8,16]

The script prints tables in Markdown, for all engines in some half an hour. docs/SCALE.md has some.
With --logins the script prints only the tables of a login and a plain one, for three engines in
some three minutes. The hashes cost almost nothing (64 KiB), so the figures show the database. Each
process has a connection, and the table a thousand accounts. The rows of a table take turns, so that
other work of the machine affects all of them. "change in a transaction" is a change on an engine
without a single statement for it.
"""

import argparse
import collections
import multiprocessing
import os
import random
import statistics
import sys
import time
import unittest

from support import LOW
from runs import GALERA, MARIADB, POSTGRES, SQLITE
from rigzumal import PasswordHasher
from rigzumal.accounts import Accounts, PerThread
from rigzumal.accounts._import import Import
from rigzumal.accounts._session import Session
from rigzumal.accounts.database import Database

COUNT = 1000
MIDDLE = PasswordHasher(time_cost=1, memory_cost=8192, parallelism=1)
DEAR = PasswordHasher(time_cost=3, memory_cost=65536, parallelism=1)
CHANGE, SEVERAL = "change", "change in a transaction"
PLAIN, BRACED = "plain UPDATE", "plain UPDATE in BEGIN, COMMIT"
LOGIN, LOOK = "login", "plain login"
ROWS = ("hash", CHANGE, SEVERAL, PLAIN, BRACED)


class Load:
    """One process: its connection, and the operation that it repeats."""

    def __init__(self, url, number=0):
        self.rng, self.database = random.Random(number), Database(url, number)
        self.pool, self.kind = PerThread(self.connect), self.database.dialect_kind()
        self.accounts, self.several = self.over(LOW), self.over(LOW)
        self.several._dialect.at_once = ""
        self.record, self.dialect = LOW.hash("pw"), self.accounts._dialect
        self.plain = self.dialect.update.partition(" AND ")[0]

    def connect(self):
        """A connection as a service opens it, with the settings that Galera needs."""
        conn = self.database.connect()
        if "," in self.database.url:
            with conn.cursor() as cursor:
                cursor.execute("SET SESSION wsrep_sync_wait = 1")
        return conn

    def over(self, hasher):
        dialect = self.kind("bench", "name", "record", str)
        return Accounts(self.pool, dialect, hasher, patience=30, tries=50)

    def act(self, row):
        name = f"user{self.rng.randrange(COUNT)}"
        if row == "hash":
            LOW.verify(self.record, "pw")
        elif row == LOGIN:
            self.accounts.login(name, "pw")
        elif row in (CHANGE, SEVERAL):
            (self.accounts if row == CHANGE else self.several).change(name, "pw", "pw")
        else:
            self.by_hand(name, row)

    def by_hand(self, name, row):
        """A login as services write it: read, verify, hash, and update without a comparison."""
        with self.pool() as conn:
            cursor = conn.cursor()
            cursor.execute(self.dialect.select, (name,))
            ((record,),) = cursor.fetchall()
            LOW.verify(record, "pw")
            if row != LOOK:
                made = LOW.hash("pw")
                if row == BRACED:
                    cursor.execute(self.dialect.begin)
                cursor.execute(self.plain, (made, name))
                if row == BRACED:
                    cursor.execute(self.dialect.commit_sql)
            cursor.close()

    def fill(self):
        """Fills the table: all accounts have the same record."""
        with self.pool() as conn:
            if self.database.kind == "sqlite":
                conn.execute("PRAGMA journal_mode = WAL")
            conn.cursor().execute(self.dialect.create())
        lines = [(f"user{number}", self.record) for number in range(COUNT)]
        Import(self.accounts, self.dialect, self.pool).put(lines)
        self.pool.close()


def rate(url, row, number, seconds):
    """Operations a second of one process."""
    load = Load(url, number)
    load.act(row)
    count, begun = 0, time.monotonic()
    while time.monotonic() < begun + seconds:
        try:
            load.act(row)
            count += 1
        except Exception:  # a deadlock of the plain UPDATE
            if row not in (PLAIN, BRACED):
                raise
    return count / (time.monotonic() - begun)


def measured(url, row, processes, seconds):
    """Operations a second of all processes together."""
    with multiprocessing.get_context("fork").Pool(processes) as pool:
        given = [(url, row, number, seconds) for number in range(processes)]
        return sum(pool.starmap(rate, given, chunksize=1))


def table(engine, url, rows, counts, seconds, turns):
    """The rows of an engine, and the share of a plain UPDATE's throughput that our operations
    reach."""
    print(f"\n| {engine} |", " | ".join(f"{it}" for it in counts), "|")
    print("|---|" + "---|" * len(counts))
    figures = collections.defaultdict(list)
    for count in counts:
        for _ in range(turns):
            for row in rows:
                figures[row, count].append(measured(url, row, count, seconds / turns))
    middle = {it: statistics.median(found) for it, found in figures.items()}
    for row in rows:
        print(f"| {row} |", " | ".join(f"{middle[row, it]:.0f}" for it in counts), "|")
    for ours, plain in ((CHANGE, PLAIN), (CHANGE, BRACED), (LOGIN, LOOK)):
        if ours in rows:
            parts = (f"{middle[ours, it] / middle[plain, it]:.2f}" for it in counts)
            print(f"| {ours} of a {plain} | {' | '.join(parts)} |", flush=True)


def statements(load):
    """The statements of a login and of a change, and the time of each: the medians, in ms; and the
    share of a change under 64 MiB that isn't a hash, in percent."""
    execute, lines, dear, shares = Session.execute, [], load.over(DEAR), []

    async def timed(session, sql, *values):
        begun = time.perf_counter()
        result = await execute(session, sql, *values)
        found.append((sql.split()[0], 1000 * (time.perf_counter() - begun)))
        return result

    Session.execute = timed
    for row in (LOGIN, CHANGE):
        took = collections.defaultdict(list)
        for _ in range(300):
            found = []
            load.act(row)
            for place, (word, milliseconds) in enumerate(found):
                took[place, word].append(milliseconds)
        # The first use of a connection sends more statements.
        often = ((word, it) for (_, word), it in sorted(took.items()) if len(it) > 150)
        said = ", ".join(f"{word} {statistics.median(it):.2f}" for word, it in often)
        lines.append(f"{row}: {said}")
    Session.execute, work = execute, dear._judge.work

    def hashed(ticket):
        begun = time.perf_counter()
        worked = work(ticket)
        found.append(time.perf_counter() - begun)
        return worked

    dear._judge.work = hashed
    dear.reset("user0", "pw")
    for _ in range(20):
        found, begun = [], time.perf_counter()
        dear.change("user0", "pw", "pw")
        shares.append(100 * (1 - sum(found) / (time.perf_counter() - begun)))
    return f"{'; '.join(lines)} | change {statistics.median(shares):.2f} %"


def times():
    """The time of a verify by the record in the table, in ms: medians of 60, with 8 MiB."""
    load = Load(SQLITE())
    load.fill()
    accounts, took = load.over(MIDDLE), collections.defaultdict(list)
    accounts.reset("user0", "pw")
    accounts.remove("user1", "pw")
    tried = (("right", "user0", "pw"), ("wrong", "user0", "x"))
    tried += (("no record", "user1", "x"), ("no account", "nobody", "x"))
    for _ in range(60):
        for what, name, password in tried:
            begun = time.perf_counter()
            accounts.verify(name, password)
            took[what].append(1000 * (time.perf_counter() - begun))
    said = ", ".join(f"{name} {statistics.median(it):.2f}" for name, it in took.items())
    print(f"\nA verify under 8 MiB takes, in ms: {said}.")


URLS = {"sqlite": SQLITE, "postgres": POSTGRES, "mariadb": MARIADB, "galera": GALERA}


def main():
    words = argparse.ArgumentParser()
    words.add_argument("engines", nargs="*")
    words.add_argument("--logins", action="store_true")
    words.add_argument("--seconds", type=float, default=10.0)
    words.add_argument("--turns", type=int, default=10)
    words.add_argument("--processes", default="1,4,8,16")
    given = words.parse_args()
    counts = [int(it) for it in given.processes.split(",")]
    begun, ends = time.monotonic(), []
    for engine in given.engines or URLS:
        try:
            url = URLS[engine]()
        except unittest.SkipTest as reason:
            print(f"{engine} is skipped: {reason}", file=sys.stderr)
            continue
        load = Load(url)
        load.fill()
        rows = (LOOK, LOGIN) if given.logins else ROWS
        table(engine, url, rows, counts, given.seconds, given.turns)
        if not given.logins:
            ends.append(f"| {engine} | {statements(load)} |")
    if ends:
        print("\n| Engine | Statements, with ms | The database's share under 64 MiB |")
        print("|---|---|---|", *ends, sep="\n")
        times()
    load, took = os.getloadavg()[0], time.monotonic() - begun
    print(f"{os.cpu_count()} processors, a load of {load:.1f}; it took {took:.0f} s.")


if __name__ == "__main__":
    main()
