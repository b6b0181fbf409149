"""Faults of a real MariaDB server, one trap at a time."""

import tempfile
import tracemalloc
from unittest import mock

import engines
import servers
import support
import torture
from support import LOW, Base, called, commanded, each, run, scripted
from rigzumal.accounts import AsyncAccounts, MariaDB, PerThread, Reply, StoreFault, _import, cli
from rigzumal.accounts._session import Result
from rigzumal.accounts.dialects import mariadb
from rigzumal.accounts.types import Kind


class OnMariaDB(engines.OnMariaDB, Base):
    def test_a_callers_repeatable_read(self):
        self.give("old")
        accounts = self.accounts()
        caller = self.another(autocommit=False)
        ((copy,),) = self.execute("SELECT record FROM users", conn=caller)
        late = self.worked(accounts, Kind.CHANGE, "old", "another")
        self.assertIs(accounts.change("ann", "old", "new"), Reply.REPLACED)
        self.assertIs(accounts.commit_in(caller, late).reply, Reply.CHANGED)
        stale = self.execute("SELECT record FROM users", conn=caller)
        self.assertEqual(stale, [(copy,)])
        worked = self.worked(accounts, Kind.VERIFY, "new")
        self.assertIs(accounts.commit_in(caller, worked).reply, Reply.YES)
        worked = self.worked(accounts, Kind.CHANGE, "new", "newer")
        self.assertIs(accounts.commit_in(caller, worked).reply, Reply.REPLACED)
        caller.commit()
        self.assertTrue(LOW.verify(self.stands(), "newer"))

    @each("BEGIN", "START TRANSACTION", "COMMIT; BEGIN", "CREATE TABLE made (i INT); BEGIN")
    def test_a_hook_that_begins(self, words):
        """A hook's BEGIN commits the operation's open transaction, and releases the lock on its
        row. The hook gets a TypeError, and no record is written."""
        self.execute("DROP TABLE IF EXISTS made")
        calls, accounts = [], self.accounts(patience=60.0)

        def begins(conn, reply):
            calls.append(reply)
            for sql in words.split("; "):
                self.execute(sql, conn=conn)

        for text in ("login ann one", "login ann two", "change ann one two", "remove ann one"):
            self.execute("DROP TABLE IF EXISTS made")
            calls.clear()
            record = self.give("one")
            with self.subTest(text=text):
                said = "has ended the operation's transaction"
                self.assertRaisesRegex(TypeError, said, called, accounts, text, also=begins)
                self.assertEqual((len(calls), self.stands()), (1, record))

    @each(1267, 3988)
    def test_a_trigger_that_refuses_as_a_key_is_refused(self, number):
        """`examine` finds a trigger that prevents every write of a record."""
        self.create()
        self.give("one")
        self.execute(
            f"{engines.BEFORE_UPDATE} FOR EACH ROW"
            f" SIGNAL SQLSTATE '45000' SET MYSQL_ERRNO = {number}"
        )
        said = f"{number}; see examine"
        self.assertRaisesRegex(StoreFault, said, self.accounts().change, "ann", "one", "two")
        (fault,) = self.accounts().examine()
        self.assertEqual((fault.code, fault.is_error), ("no-update", True))
        self.assertIn(str(number), str(fault))

    @each((1305, False), (2013, None), (1317, None))
    def test_a_mark_that_is_asked_for(self, number, is_held):
        """A missing savepoint differs from a broken connection, after which the operation runs
        again."""
        error = servers.pymysql.err.OperationalError(number, "planted")
        asked = self.dialect.is_held(scripted(error))
        if is_held is None:
            with self.assertRaises(type(error)) as raised:
                run(asked)
            self.assertIs(raised.exception, error)
        else:
            self.assertIs(run(asked), is_held)

    def test_a_hook_with_savepoints(self):
        """A hook may use savepoints of its own, and roll back to them."""

        def also(conn, reply):
            for sql in ("SAVEPOINT one", "UPDATE users SET record = 'x'", "ROLLBACK TO one"):
                self.execute(sql, conn=conn)

        self.assert_replies("login ann one yes; change ann one two replaced", also=also)

    def test_uncommitted_reads(self):
        """A read and a commit refuse READ UNCOMMITTED, in one statement and in a transaction."""
        connect = self.setting("SET SESSION TRANSACTION ISOLATION LEVEL READ UNCOMMITTED")
        accounts, kept = self.accounts(connect=connect), connect()
        self.addCleanup(kept.close)
        changes = (Kind.CHANGE, "one", "two"), (Kind.REMOVE, "one")
        worked = [self.worked(self.accounts(), *it) for it in changes]
        prepare = lambda: run(self.dialect.prepare(support.Session(kept)))
        for act, *given in (
            (accounts.login, "ann", "one"),
            *((accounts.commit, it) for it in worked),
            *((prepare,), (prepare,)),  # a refused connection is refused again
        ):
            self.assertRaisesRegex(StoreFault, "READ UNCOMMITTED", act, *given)
        self.assertIn("READ UNCOMMITTED", self.said(accounts))

    def test_a_connection_is_asked_once(self):
        """The dialect asks a connection for its level only once. The dialect also asks a new
        connection that has the id of an old one."""
        for _ in range(3):
            conn = self.connect()
            with self.statements("SHOW"):
                for _ in range(2):
                    run(self.dialect.prepare(support.Session(conn)))
            conn.close()
            del conn

    def test_a_statement_that_was_ended_at_its_commit(self):
        """max_statement_time may end as the COMMIT takes effect: the row shows the outcome."""
        over = self.again.__class__(1969, "max_statement_time exceeded")
        for stands, expected in (("new", None), ("old", OSError), ("other", ConnectionError)):
            session = scripted(over, Result([], 0), Result([(stands,)], 1))
            put = self.dialect.put_at_once(session, "new", "ann", "old")
            if expected is None:
                self.assertEqual(run(put), 1)
            else:
                with self.assertRaises(expected) as raised:
                    run(put)
                self.assertEqual(self.dialect.gave_up(raised.exception), stands == "old")
            self.assertEqual(session.execute.call_args_list[1], mock.call("ROLLBACK"))

    def test_texts_that_come_as_bytes(self):
        """Each operation, and `examine`, reports texts that the driver returns as bytes, before any
        hash."""
        accounts = self.accounts(connect=self.setting(use_unicode=False))
        for act, *given in (
            (accounts.login, "ann", "one"),
            (accounts.change, "ann", "one", "two"),
            (accounts.examine,),
        ):
            with self.hashes(0):
                self.assertRaisesRegex(StoreFault, "use_unicode is False", act, *given)

    def test_rows_are_read_as_they_are_sent(self):
        """The command reads rows as the server sends them, and never keeps all of them."""
        large = "SELECT CONCAT('user', seq), REPEAT('x', 500) FROM seq_1_to_9000"
        self.execute(f"INSERT INTO users {large}")
        tracemalloc.start()
        self.addCleanup(tracemalloc.stop)
        rows = _import.Rows(PerThread(self.connect), self.dialect).every()
        self.assertEqual(sum(1 for _ in rows), 9001)
        self.assertLess(tracemalloc.get_traced_memory()[1], 9000 * 500 / 4)

    def test_found_rows(self):
        from pymysql.constants import CLIENT

        accounts = self.accounts(connect=self.setting(client_flag=CLIENT.FOUND_ROWS))
        self.assertIs(accounts.change("ann", "one", "one"), Reply.REPLACED)
        slow = self.worked(accounts, Kind.CHANGE, "one", "two")
        self.assertIs(accounts.change("ann", "one", "one"), Reply.REPLACED)
        self.assertIs(accounts.commit(slow).reply, Reply.CHANGED)

    def test_names_that_the_server_cuts_off(self):
        """If a server without strict mode truncates a name, the operation leaves nothing behind."""
        self.execute("DROP TABLE IF EXISTS accounts")
        self.execute(MariaDB("accounts", "name", "record").create())
        ((mode,),) = self.server.as_root("SELECT @@global.sql_mode")
        self.server.as_root("SET GLOBAL sql_mode = ''")
        self.addCleanup(self.server.as_root, f"SET GLOBAL sql_mode = '{mode}'")
        with tempfile.NamedTemporaryFile("w") as file:
            file.write(f"{'n' * 300} {LOW.hash('x')}\n")
            file.flush()
            for words in (("add", "m" * 300), ("import", file.name)):
                given = ("--database", self.server.url, *words)
                said = commanded(cli.main, *given, given=b"pw", status=5)
                self.assertIn("the server stored another name", said)
                self.assertEqual(self.execute("SELECT * FROM accounts"), [])

    def test_what_examine_says_of_a_session(self):
        """After a power cut the server rolls back transactions that the binary log lacks, so the
        log must be synced."""
        seen = dict(self.execute("SHOW SESSION VARIABLES"))
        fine = {"sql_mode": "STRICT_ALL_TABLES", "log_bin": "ON", "sync_binlog": "1"}
        self.assertTrue(set(fine) <= set(seen))
        sync, galera = "wsrep_sync_wait lacks bit 1", {"wsrep_on": "ON"}
        for more, *words in (
            ({},),
            ({"sync_binlog": "0"}, "sync_binlog is 0"),
            ({"sync_binlog": "0", "log_bin": "OFF"},),
            ({"sql_mode": "NO_ENGINE_SUBSTITUTION"}, "sql_mode isn't strict"),
            *(({**galera, "wsrep_sync_wait": it}, sync) for it in "06"),
            *(({**galera, "wsrep_sync_wait": it},) for it in "17"),
        ):
            found = [str(it) for it in mariadb.of_server({**fine, **more})]
            self.assertEqual([it[: len(word)] for it, word in zip(found, words)], words)
            self.assertEqual(len(found), len(words), found)

    @each(
        ("NOT ATOMIC", "NO ATOMS", False),
        ("SET touched", "SIGNAL SQLSTATE '45000'; SET touched", True),
    )
    def test_a_statement_that_the_server_does_not_take(self, old, new, is_again):
        """A server such as MySQL refuses the statement once, and then the library uses transactions
        for changes. A failure after the UPDATE undoes it within the statement, and a transaction
        follows."""
        self.give("one")
        self.dialect = self.another_dialect()
        self.dialect.at_once = self.dialect.at_once.replace(old, new, 1)
        accounts, both = self.kept(), f"SELECT {self.one} {self.several}"
        for password, words in (
            ("one", both),
            ("two", both if is_again else f"SELECT {self.several}"),
        ):
            with self.statements(words):
                self.assert_replies(f"change ann {password} two replaced", accounts)
        self.assertTrue(self.is_right("two"))

    def test_what_is_shown_early(self):
        """An early visible commit is a fault if answers aren't confirmed; examine and torture have
        --confirm too."""
        said = "log_bin is OFF: a crash may undo a change that a login has used"
        others = {"log_bin": "ON"}, {"log_bin": "OFF", "wsrep_on": "ON"}
        for seen in ({"log_bin": "OFF"}, {}, *others):
            words = () if seen in others else (said,)
            self.assertEqual(tuple(map(str, mariadb.shown_early(seen))), words)
        early = (mariadb.error("shown-early", "early"),)
        given = ("--database", self.server.url, "--table", "users")
        with mock.patch.object(mariadb, "shown_early", return_value=early):
            self.assertEqual(self.accounts().examine(), [*early])
            self.assertEqual(self.accounts(confirm=True).examine(), [])
            said = commanded(cli.main, *given, "examine", status=5)
            self.assertEqual(said, "error: early\n")
            self.assertEqual(commanded(cli.main, *given, "--confirm", "examine"), "")
        for confirm in (False, True):
            tortured = torture.Torture(self.server.url, confirm=confirm)
            made = tortured.made(AsyncAccounts, self.no_connection, 64)
            self.assertEqual(made._table.confirm, confirm)

    def test_the_two_updates(self):
        """A record between the two UPDATEs is never committed."""
        refused = (1, 0, StoreFault), (1, 2, StoreFault)
        for first, second, wanted in ((0, None, 0), (2, None, 2), (1, 1, 1), *refused):
            session = scripted(Result([], first), Result([], second))
            put = self.dialect.put(session, "r", "ann", "r")
            if wanted is StoreFault:
                self.assertRaises(StoreFault, run, put)
            else:
                self.assertEqual(run(put).affected, wanted)
            self.assertEqual(session.execute.call_args_list[0].args[1:], (None, "ann", "r"))
            self.assertEqual(session.execute.call_count, 1 if second is None else 2)
        session = scripted(Result([], 1), Result([], 1))
        run(self.dialect.put(session, None, "ann", None))
        (_, other, _, copy), (_, *values) = (it.args for it in session.execute.call_args_list)
        self.assertEqual((other[:9], copy), ("$argon2id", None))
        self.assertEqual(values, [None, "ann", other])
