"""A book of RIGZUMAL_ACCOUNTS accounts. Without this variable the tests skip themselves; with
100000 accounts they take some ten minutes."""

import contextlib
import os
import random
import shutil
import sqlite3
import unittest

from tests.credkeep import test_kills
from tests.credkeep.books import RECORD, SERVE, rows
from tests.credkeep.test_full_disks import LostTest
from tests.helpers import Ended

COUNT = int(os.environ.get("RIGZUMAL_ACCOUNTS", "0"))


@unittest.skipUnless(COUNT, "needs the variable RIGZUMAL_ACCOUNTS")
class LargeTest(LostTest, test_kills.ServicesTest):
    def setUp(self) -> None:
        """Names come in random order; every third has no record."""
        super().setUp()
        names = [f"n{it:07x}" for it in random.Random(COUNT).sample(range(16**7), COUNT)]
        self.accounts = {name: "" if at % 3 == 0 else RECORD for at, name in enumerate(names)}
        with contextlib.closing(sqlite3.connect(self.book.path)) as connection, connection:
            statement = "INSERT INTO account VALUES (?, nullif(?, ''))"
            connection.executemany(statement, self.accounts.items())

    def test_full_disk(self) -> None:
        size = self.book.path.stat().st_size + 400 * 1024
        self.assertLost(*self.on_full_disk(size), self.accounts)

    def test_bad_rows(self) -> None:
        """A row that is no account is named by its number, wherever it is."""
        no_record = "the text there is no record: a field is missing, or there is one too many"
        no_name = "there is no name; a name has 1 to 32 of a-z, 0-9, '.', '_', '-'"
        hurt = self.file("hurt.db")
        for row in (1, COUNT // 2, COUNT):
            for change, why in (
                ("record = 'x'", f"{no_record} (1 shape)"),
                ("name = 'Ann'", f"{no_name} (3 name)"),
            ):
                with self.subTest(row=row, change=change):
                    shutil.copy(self.book.path, hurt.path)
                    rows(hurt.path, f"UPDATE account SET {change} WHERE rowid = {row}")
                    done = hurt(*SERVE, given="t show ann\n")
                    self.assertEqual(done, Ended(5, "", f"credkeep: row {row}: {why}\n"))
