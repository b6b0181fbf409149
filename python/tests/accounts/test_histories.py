"""Short runs of histories.py: the answers to many processes are one legal history, while processes
are killed, COMMITs lose their answers, and a disk is full. Broken accounts are refused.

Each run prints the counts of its verdict, and the seed of its operations.
"""

import re
import unittest

import histories
from runs import MARIADB, POSTGRES, SQLITE, Run, legal, maria, on_a_full_disk, postgres, refused
from runs import killed_servers

SHORT = {"seconds": 4.0, "processes": 4}


class ShortHistories(unittest.TestCase):
    def told(self, said):
        """The summary counts judged changes, and each other thing that is named."""
        print(f"{self.id().rpartition('.test_')[2]}: {said}", flush=True)
        (changes,) = re.findall(r" (\d+) changes", said)
        self.assertGreater(int(changes), 0)

    def check(self, url, **given):
        self.told(legal(Run(url(), **SHORT, **given)))

    def test_sqlite_lost_commits(self):
        self.check(SQLITE, **histories.LOST)

    def test_postgres_lost_commits(self):
        self.check(POSTGRES, **histories.LOST)

    def test_mariadb_lost_commits(self):
        self.check(MARIADB, **histories.LOST)

    def test_sqlite_on_a_full_disk(self):
        self.told(on_a_full_disk(self, kill=True, **SHORT))

    def test_postgres_with_kills(self):
        """PostgreSQL, while clients and the server are killed."""
        self.told(killed_servers(Run(POSTGRES(), kill=True, **SHORT), postgres()))

    def test_mariadb_with_kills(self):
        self.told(killed_servers(Run(MARIADB(), kill=True, **SHORT), maria(), pause=3.0))

    def test_refused(self):
        """The checker refuses the history of an UPDATE without a comparison."""
        print(refused(lambda: Run(SQLITE(), **SHORT, **histories.UNCOMPARED)), flush=True)


if __name__ == "__main__":
    unittest.main()
