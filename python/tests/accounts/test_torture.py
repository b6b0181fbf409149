"""A torture: the kills of its processes, its logs and its verdicts."""

import contextlib
import io
import json
import os
import pathlib
import re
import sqlite3
from unittest import mock

from support import Base, commanded, each, losing
import torture
from rigzumal.accounts import StoreFault
from rigzumal.accounts._table import Table
from rigzumal.accounts.types import Answer
from torture import __main__ as command, _torture
from torture.logs import Log


class Tortures(Base):
    def setUp(self):
        super().setUp()
        self.logs = pathlib.Path(f"{self.server.path}.logs")

    def command(self, *words, status=0):
        given = ("--database", self.server.url, "--seconds=1", "--accounts=2")
        return commanded(command.main, *given, *words, status=status)

    def run_one(self, **given):
        """The parsed logs of a short run of two processes."""
        given = {"processes": 2, "seconds": 1.0, "folder": self.logs, **given}
        self.torture = torture.Torture(self.server.url, **given)
        with contextlib.redirect_stderr(io.StringIO()):
            return self.torture.run()

    def lines(self):
        for path in self.logs.glob("log-*-*"):
            yield [json.loads(it) for it in path.read_text().splitlines()]

    def operations(self, accounts):
        return [it for one in accounts.values() for it in one.operations]

    # ---- kills

    def test_the_command(self):
        """However short the run is, it kills a process, and drops the table afterwards."""
        said = self.command("--processes=2", "--kill")
        self.assertTrue(said.startswith("legal: "), said)
        (killed,) = re.findall(r", (\d+) killed, seed \d+\n", said)
        self.assertGreater(int(killed), 0)
        self.assertIn(", 0 killed", self.command("--processes=2"))
        found = self.conn.execute("SELECT name FROM sqlite_master WHERE type = 'table'")
        self.assertEqual(found.fetchall(), [("users",)])

    @each(*_torture.WAYS)
    def test_kills_before_a_commit(self, way):
        """Each process is killed between its first UPDATE and COMMIT: nothing was stored."""
        self.logs = pathlib.Path(f"{self.server.path}.{way}")
        with mock.patch.object(_torture, "RISK", 1.0):
            with mock.patch.object(_torture.random, "random", return_value=0.9):
                accounts = self.run_one(kill=True, ways=(way,), table=way, mix={"reset": 1})
        self.assertGreater(self.torture.killed, 0)
        ends = [it[-1]["event"] for it in self.lines() if it]
        self.assertGreaterEqual(ends.count("try"), self.torture.killed - 2)
        self.assertIsNone(torture.verdict(accounts))
        self.assertEqual([it for it in self.operations(accounts) if it.makes_change], [])

    def test_kills_after_a_commit(self):
        """Each process is killed between its first COMMIT and the answer: the change is stored,
        unanswered."""

        def tried(log, *given):
            log.risk = 0.0
            told(log, *given)
            log.risk = 1.0

        told = Log.tried
        with mock.patch.object(Log, "tried", tried), mock.patch.object(_torture, "RISK", 1.0):
            accounts = self.run_one(kill=True)
        self.assertGreater(self.torture.killed, 0)
        self.assertIsNone(torture.verdict(accounts))
        found_out = [it for it in self.operations(accounts) if it.found_out]
        self.assertGreater(len(found_out), 0)

    # ---- what is noted

    @each(
        *(("perform", "whole"), ("perform", "also"), ("login", "whole"), ("commit_in", "within")),
        *((it, "parts") for it in ("begin", "work", "commit")),
    )
    def test_everything_is_called(self, name, way):
        """A torture calls whole operations, some with a statement of their own, operations in
        parts, in a caller's transaction, and logins. An exception in a process is a fault."""

        broken = lambda accounts: setattr(accounts, name, mock.Mock(side_effect=RuntimeError))
        mix = {"login" if name == "login" else "change": 1}
        given = {"table": f"t{name}{way}", "seconds": 10, "ways": (way,), "mix": mix}
        with self.assertRaisesRegex(StoreFault, "2 processes ended by an exception"):
            self.run_one(alter=broken, **given)

    def test_an_unknown_outcome_is_no_failure(self):
        unknown = lambda accounts: losing(accounts._dialect, before=False, times=10**6)
        mix = {"enrol": 1, "remove": 2, "reset": 1}
        accounts = self.run_one(alter=unknown, mix=mix, patience=0.0)
        events = [event for log in self.lines() for event in log]
        answers = [event for event in events if event["event"] == "answer"]
        self.assertIn("unknown", {answer["reply"] for answer in answers})
        self.assertIsNone(torture.verdict(accounts))
        self.assertTrue(any(it.found_out for it in self.operations(accounts)))

    def test_a_login_is_an_upgrade_and_what_its_caller_is_told(self):
        kinds, replies = set(), set()
        wanted = {"upgraded", "kept", "yes", "no", "wrong"}
        for turn in range(10):
            folder, mix = pathlib.Path(f"{self.logs}{turn}"), {"login": 3, "change": 1, "reset": 1}
            accounts = self.run_one(mix=mix, folder=folder, table=f"t{turn}")
            self.assertIsNone(torture.verdict(accounts))
            kinds |= {it.kind for it in self.operations(accounts)}
            replies |= {it.reply for it in self.operations(accounts)}
            if wanted <= replies:
                break
        self.assertEqual(kinds, {"upgrade", "verify", "change", "reset"})
        self.assertLessEqual(wanted, replies)

    # ---- what is judged

    def test_logs(self):
        """The command judges the logs of one run, and refuses files that aren't logs."""
        self.command("--processes=2", f"--logs={self.logs}")
        said = commanded(command.main, *self.logs.iterdir())
        self.assertTrue(said.startswith("legal: "), said)
        file = pathlib.Path(f"{self.logs}.none")
        for line in ("x", "[]", "{}", '{"event": "answer", "id": "1"}', '{"event": "seed"}'):
            file.write_text(f"{line}\n")
            self.assertRaises(ValueError, command.main, [str(file)])

    def test_the_end_is_read_where_it_is_said(self):
        """The torture reads the last records at `end_url`: after a failover that is another
        server."""
        end = f"{self.server.path}.end"
        with contextlib.closing(sqlite3.connect(end)) as conn:
            conn.execute("CREATE TABLE ended (name TEXT PRIMARY KEY, record TEXT)")
            conn.execute("INSERT INTO ended VALUES ('user0', 'x'), ('user1', 'y')")
            conn.commit()
        given = {"table": "ended", "accounts": 2, "mix": {"verify": 1}, "seconds": 0.2}
        accounts = self.run_one(end_url=f"sqlite:///{end}", **given)
        self.assertEqual([it.end.before for it in accounts.values()], ["x", "y"])
        self.assertIn("nobody put", str(torture.verdict(accounts)))

    def test_one_that_shows_nothing(self):
        for words in ("--processes=0", "--seconds=0", "--accounts=-1", "--seconds=x"):
            self.command(words, status=1)
        with mock.patch.object(torture.Torture, "_load", return_value=0):
            self.assertIn("no change was made", self.command("--accounts=1", status=4))
        with mock.patch.object(os, "kill"), mock.patch.object(Log, "_dare"):
            said = self.command("--processes=2", "--kill", "--table=two", status=4)
        self.assertIn("no process was killed", said)

    def test_one_that_is_refused(self):
        """A refused run ends with status 4, prints the contradiction, and keeps the table and the
        logs."""
        compare = Table.compare

        async def lies(table, session, worked):
            """Reports that the record was written, and writes nothing."""
            if not worked.reply.makes_change:
                return await compare(table, session, worked)
            return Answer(worked.reply, worked.ticket.copy, worked.after)

        with mock.patch.object(Table, "compare", lies):
            said = self.command("--processes=2", f"--logs={self.logs}", status=4)
        self.assertTrue(said.startswith("illegal: account"))
        self.conn.execute("SELECT * FROM rigzumal_torture")
        self.assertTrue(os.listdir(self.logs))
