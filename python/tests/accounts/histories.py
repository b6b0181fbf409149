"""Runs many processes on real servers, and tests which histories are legal or refused.

    /usr/bin/python3 python/tests/accounts/histories.py [-k NAME..]

RIGZUMAL_SECONDS is the length of each run; all runs take ten minutes. docs/SCALE.md describes each
run.
"""

import time
import unittest

import breaking
from breaking import OWN, lossy, queued, queued_tasks, resent_at_none
from runs import GALERA, MARIADB, POSTGRES, SECONDS, SQLITE, Crashes, Pair, Run
from runs import on_a_full_disk
from runs import galera, killed_servers, lagging, legal, maria, maria_without_log, postgres, refused

LOST = {"alter": lossy, "patience": 5.0}
LOST_IN_POOLS = {"alter": queued, "patience": 5.0, "ways": OWN}
# All processes use asyncio, with four tasks each; some tasks are cancelled.
TASKS = {"every": 1, "tasks": 4}
LOST_IN_TASKS = {"alter": queued_tasks, "ways": OWN, **TASKS}
# Without upgrades and looks, so that records come and go as fast as they can.
CHANGES = {"mix": {"enrol": 3, "verify": 3, "change": 6, "remove": 2, "reset": 1}}
NONE = {"mix": {"enrol": 6, "remove": 6, "verify": 2}, "accounts": 1, "alter": resent_at_none}
WHOLE = {"patience": 3.0, "ways": ("whole",)}
WAITS = {"settings": ("SET SESSION wsrep_sync_wait = 1",)}
# Galera's default: a node may read a record that was replaced at another node.
NO_WAITS = {"settings": ("SET SESSION wsrep_sync_wait = 0",), "accounts": 1}
UNCOMPARED = {"alter": breaking.uncompared, **CHANGES}
SNAPSHOTS = {"alter": breaking.snapshots, "accounts": 2}


def is_legal(url, **given):
    def test(self):
        self.told(legal(Run(url(), **given)))

    return test


def is_refused(url, **given):
    def test(self):
        self.told(refused(lambda: Run(url(), **given)))

    return test


class Histories(unittest.TestCase):
    """Each test prints the counts of its verdict, or the operations that contradict each other."""

    def told(self, said):
        print(f"{self.id().rpartition('.test_')[2]}: {said}", flush=True)

    test_sqlite_with_kills = is_legal(SQLITE, kill=True)
    test_sqlite_on_a_full_disk = lambda self: self.told(on_a_full_disk(self, kill=True))
    test_sqlite_lost_commits = is_legal(SQLITE, **LOST)
    test_sqlite_lost_commits_in_pools = is_legal(SQLITE, **LOST_IN_POOLS)
    test_postgres_lost_commits = is_legal(POSTGRES, **LOST)
    test_postgres_lost_commits_in_pools = is_legal(POSTGRES, **LOST_IN_POOLS)
    test_postgres_tasks_cancelled = is_legal(POSTGRES, **TASKS)
    test_postgres_tasks_lost_commits_in_pools = is_legal(POSTGRES, **LOST_IN_TASKS)
    test_mariadb_lost_commits = is_legal(MARIADB, **LOST)
    test_mariadb_lost_commits_in_pools = is_legal(MARIADB, **LOST_IN_POOLS)
    test_galera = is_legal(GALERA, kill=True, **WAITS)
    test_galera_lost_commits = is_legal(GALERA, **LOST, **WAITS)

    test_refused_uncompared_sqlite = is_refused(SQLITE, **UNCOMPARED)
    test_refused_uncompared_postgres = is_refused(POSTGRES, **UNCOMPARED)
    test_refused_uncompared_mariadb = is_refused(MARIADB, **UNCOMPARED)
    test_refused_uncounted = is_refused(SQLITE, alter=breaking.uncounted, **CHANGES)
    test_refused_snapshots_postgres = is_refused(POSTGRES, **SNAPSHOTS)
    test_refused_snapshots_mariadb = is_refused(MARIADB, **SNAPSHOTS)
    test_refused_resent = is_refused(POSTGRES, alter=breaking.resent, **CHANGES, **WHOLE)
    test_refused_resent_at_none = is_refused(POSTGRES, **NONE, **WHOLE)
    test_refused_galera_without_sync_wait = is_refused(GALERA, **NO_WAITS)

    def test_postgres_with_kills(self):
        """Clients are killed, and every other second the server is killed or stopped at once."""
        run = Run(POSTGRES(), kill=True, seconds=2 * SECONDS)
        self.told(killed_servers(run, postgres()))

    def test_mariadb_with_kills(self):
        """Clients are killed, and every other second the server."""
        run = Run(MARIADB(), kill=True, seconds=2 * SECONDS)
        self.told(killed_servers(run, maria(), pause=3.0))

    def test_mariadb_confirmed_with_kills(self):
        """The same kills without a binary log: a COMMIT that writes confirms each look."""
        server = maria_without_log()
        run = Run(server.url, kill=True, confirm=True, seconds=2 * SECONDS)
        self.told(killed_servers(run, server, pause=3.0))

    def test_mariadb_what_was_read_stays(self):
        """The server is killed just after a login that depended on an unanswered change."""
        logged = Crashes(maria()).run(6)
        confirmed_ones = Crashes(maria_without_log(), confirm=True).run(6)
        for crashes in (logged, confirmed_ones):
            self.assertEqual(crashes.lost, 0, f"of {crashes.kills}")
        self.told(f"{logged.kills} kills with a binary log, {confirmed_ones.kills} confirmed")

    def test_refused_mariadb_without_a_binary_log(self):
        """Without a binary log a crash does, though seldom, lose the change on which a login
        depended."""
        crashes = Crashes(maria_without_log()).run(30, until_lost=True)
        self.assertTrue(crashes.lost, f"none was lost in {crashes.kills} kills")
        self.told(f"1 lost of {crashes.kills}")

    def failed_over(self, pair, fail_over):
        """A run during which the standby takes over."""
        run = Run(pair.url, seconds=2 * SECONDS, end_url=pair.standby.url)
        self.addCleanup(pair.end)
        time.sleep(SECONDS)
        fail_over(pair)
        return run

    def test_postgres_synchronous_failover(self):
        """The primary is killed under load, and its synchronous standby takes over."""
        self.told(legal(self.failed_over(Pair(is_synchronous=True), Pair.fail_over)))

    def test_postgres_synchronous_failover_with_a_slow_receiver(self):
        """A failover after the standby's receiver was stopped, and then killed."""
        self.told(legal(self.failed_over(Pair(is_synchronous=True), Pair.fail_over_with_lag)))

    def test_refused_asynchronous_failover(self):
        """A lagging asynchronous standby takes over: acknowledged changes are lost."""
        self.told(refused(lambda: self.failed_over(Pair(), Pair.fail_over_with_lag)))

    def test_postgres_copies_of_a_replica(self):
        """Copies come from a standby that lags; commits go to the primary."""
        pair = lagging()
        self.told(legal(Run(pair.primary.url, replica=pair.standby.url)))

    def test_refused_unlooked_replica(self):
        pair = lagging()
        given = {"replica": pair.standby.url, "alter": breaking.unlooked}
        self.told(refused(lambda: Run(pair.primary.url, **given)))

    def test_galera_copies_that_do_not_wait(self):
        """Sessions with wsrep_sync_wait=0 read the copies, and other sessions do everything
        else."""
        self.told(legal(Run(GALERA(), replica=GALERA(), **WAITS)))

    def test_galera_with_a_node_killed(self):
        """A node is killed under load, and started again."""
        run = Run(GALERA(), seconds=2 * SECONDS, **WAITS)
        node = galera().nodes[2]
        time.sleep(SECONDS / 2)
        node.kill()
        time.sleep(SECONDS / 2)
        node.start()
        self.told(legal(run))


if __name__ == "__main__":
    unittest.main()
