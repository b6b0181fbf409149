"""The behaviour of every engine: test classes that test_engines.py runs over each engine, with
those of of_tables.py and of_hooks.py.

To test your own dialect, write a subclass of these classes with the attributes of an engine in
`engines.py`: its `kind` (a server that starts and connects), its `dialect`, and its settings.
"""

import itertools
import re
import threading
from unittest import mock

from support import after_hash, called, each, losing
from rigzumal.accounts import OutcomeUnknown, Reply, StoreFault, Unavailable
from rigzumal.accounts.types import NO_ROW, Answer, Kind, Request

AT_ONE = """verify ann one yes; verify ann two no; login ann one yes; login ann two no
upgrade ann one kept; upgrade ann two wrong; change ann one x replaced; change ann two x wrong
reset ann x replaced; remove ann one removed; remove ann two wrong; enrol ann x exists"""
AT_NONE = """enrol ann x enrolled; reset ann x enrolled; verify ann one absent; login ann one absent
upgrade ann one absent; remove ann one absent; change ann one x absent; verify bob one noaccount
login bob one noaccount; upgrade bob one noaccount; remove bob one noaccount
enrol bob one noaccount; reset bob one noaccount; change bob one x noaccount"""
UPGRADED = "upgrade ann one upgraded; login ann one yes; login ann two no"
# Costs of new records, the record in the row, the call, and the reply.
TABLE = ("low", "one", AT_ONE), ("low", None, AT_NONE), ("high", "one", UPGRADED)
CALLS = []
for of_new_records, of_row, texts in TABLE:
    for line in re.split("; |\n", texts):
        call, _, answer = line.rpartition(" ")
        CALLS.append((of_new_records, of_row, call, answer))


class Operations:
    """Each operation, for threads and for asyncio."""

    @each(*CALLS)
    def test_replies_and_records(self, costs, stands, text, reply):
        """Each method's reply, and the records before and after the operation."""
        hasher, record, told = getattr(self, costs), self.give(stands), []
        accounts = self.accounts(hasher)
        self.assertEqual(called(accounts, text), reply)
        name, key, *given = text.split()
        if name == "login":
            return
        self.put(record)
        given = ["", *given] if name == "reset" else given
        also = {"also": lambda conn, reply: told.append(reply)} if costs == "low" else {}
        answer = accounts.perform(Request(Kind(name), key, *given), **also)
        self.assertIs(answer.reply, Reply(reply))
        self.assertEqual(told, [answer.reply] if also else [])
        self.assertEqual(answer.before, NO_ROW if key == "bob" else record)
        self.assertEqual(answer.after, NO_ROW if key == "bob" else self.stands())
        self.assertEqual(self.stands() != record, answer.reply.makes_change)
        if answer.reply.makes_change and name != "remove":
            self.assertTrue(self.is_right(given[-1]))
            self.assertTrue(self.stands().startswith(f"{hasher.costs}$"))

    def test_a_slow_login_never_undoes_a_change(self):
        """The race: a login with the stolen password, begun before the change."""
        self.give("stolen")
        accounts, owner, once = self.accounts(self.high), self.accounts(self.high), []
        after_hash(accounts, lambda: once.append(owner.change("ann", "stolen", "new")))
        self.assertIs(accounts.login("ann", "stolen"), Reply.NO)
        self.assertEqual(once, [Reply.REPLACED])
        self.assertTrue(self.is_right("new"))
        self.assertEqual(accounts.examine(), [])

    @each(
        (None, Kind.ENROL, "x", ""),
        (None, Kind.RESET, "", "x"),
        ("one", Kind.RESET, "", "two"),
        ("one", Kind.CHANGE, "one", "two"),
        *(("one", it, "one", "") for it in (Kind.UPGRADE, Kind.REMOVE, Kind.VERIFY)),
    )
    def test_each_change_compares(self, stood, kind, password, new):
        """No operation writes or answers a result that it computed from a replaced record."""
        self.give(stood)
        accounts = self.accounts(self.high)
        slow = self.worked(accounts, kind, password, new)
        self.assertEqual(slow.reply.makes_change, kind is not Kind.VERIFY)
        others = ["another", "one"]
        if stood is not None:
            others.append(None)
        for stands in others:
            record = self.give(stands)
            self.assertEqual(accounts.commit(slow), Answer(Reply.CHANGED, record, record))
            self.assertEqual(self.stands(), record)
        self.execute("DELETE FROM users")
        self.assertEqual(accounts.commit(slow), Answer(Reply.NO_ACCOUNT, NO_ROW, NO_ROW))


class LostAnswers:
    """COMMITs without an answer, whether they took effect or not."""

    # The replies, and whether the row has a record: if the COMMIT took no effect, and if it did.
    @each(
        ("one", "change ann one two", ("replaced", True), ("replaced", True)),
        ("one", "reset ann two", ("replaced", True), ("replaced", True)),
        ("one", "upgrade ann one", ("upgraded", True), ("upgraded", True)),
        (None, "enrol ann x", (OutcomeUnknown, False), ("enrolled", True)),
        (None, "reset ann x", (OutcomeUnknown, False), ("enrolled", True)),
        ("one", "remove ann one", ("removed", False), (OutcomeUnknown, False)),
    )
    def test_what_stands_tells(self, stands, text, undone, done):
        """A new record in the row shows that it was stored; NULL shows nothing, so nothing is sent
        again."""
        for is_done, error, times in itertools.product((False, True), self.unknown, (1, 3)):
            reply, is_record = done if is_done else undone
            record = self.give(stands)
            accounts = self.losing(not is_done, times, error, hasher=self.high)
            with self.subTest(done=is_done, error=error, times=times):
                if reply is OutcomeUnknown:
                    self.assertRaises(OutcomeUnknown, called, accounts, text)
                else:
                    self.assertEqual(called(accounts, text), reply)
                    self.assertNotEqual(self.stands(), record)
                self.assertEqual(self.stands() is not None, is_record)

    def at_second_look(self, accounts, act, is_after=False):
        """Calls `act` before the read of the record, or between that read and the statement that is
        sent again."""
        look, looks = accounts._table.look, []

        async def looked(*given):
            looks.append(1)
            if len(looks) == 2 and not is_after:
                act()
            found = await look(*given)
            if len(looks) == 2 and is_after:
                act()
            return found

        accounts._table.look = looked

    @each(*itertools.product((True, False), (True, False)))
    def test_another_change_meanwhile(self, before, is_after):
        """The new record may have been stored and replaced: the outcome is unknown, and nothing is
        written."""
        self.give("one")
        accounts = self.losing(before)
        self.at_second_look(accounts, lambda: self.give("another"), is_after)
        self.assertRaises(OutcomeUnknown, accounts.change, "ann", "one", "two")
        self.assertTrue(self.is_right("another"))

    def test_what_was_done_is_put_over_itself(self):
        """The record in the table may not be on the disk yet, so the operation writes it again."""
        accounts = self.losing(before=False)
        put = accounts._dialect.put = mock.Mock(wraps=accounts._dialect.put)
        with self.assertLogs("rigzumal.accounts", "WARNING") as logs:
            self.assertIs(accounts.change("ann", "one", "two"), Reply.REPLACED)
        (line,) = logs.output
        self.assertIn("COMMIT had no answer: " + type(self.broken).__name__, line)
        self.assertNotRegex(line, r"\bann\b|argon2|two")
        _, after, _, copy = put.call_args.args
        self.assertEqual(after, copy)

    @each(True, False)
    def test_a_fault_after_a_lost_answer_says_nothing_of_it(self, before):
        """The change is stored, or may be stored later, so the call raises OutcomeUnknown instead
        of StoreFault."""
        self.give("one")
        accounts = self.losing(before)
        self.at_second_look(accounts, mock.Mock(side_effect=StoreFault("the disk is full")))
        with self.assertRaisesRegex(OutcomeUnknown, "StoreFault") as raised:
            accounts.change("ann", "one", "two")
        self.assertIsNone(raised.exception.__context__)
        self.assertEqual(self.is_right("two"), not before)


class Confirmed:
    """Operations without a change, confirmed by a COMMIT that writes."""

    @each(("one", "two", Reply.NO), ("one", None, Reply.ABSENT), (None, "two", Reply.NO))
    def test_what_was_replaced_meanwhile(self, stands, other, reply):
        """The operation runs again on the present record, and never restores the old one."""
        accounts = self.accounts(confirm=True)
        stood = self.give(stands)
        worked = self.worked(accounts, Kind.VERIFY, "one")
        now = self.give(other)
        answer = accounts.commit(worked)
        self.assertEqual((answer.reply, answer.after), (Reply.CHANGED, now))
        self.assertEqual(self.stands(), now)
        self.put(stood)
        after_hash(accounts, lambda: self.put(now))
        self.assertIs(accounts.verify("ann", "one"), reply)
        self.assertEqual(self.stands(), now)
        self.assertEqual(accounts.examine(), [])

    @each(("one", Reply.YES), (None, Reply.ABSENT))
    def test_a_commit_without_an_answer(self, stands, reply):
        """The operation changed nothing, so it is sent again, and its outcome is never unknown."""
        self.give(stands)
        accounts = self.losing(True, 2, self.lost_look, confirm=True)
        self.assertIs(accounts.verify("ann", "one"), reply)


class AtOnce:
    """A change by one statement, which keeps the promises of a change in a transaction."""

    def test_it_is_told_before_it_is_sent(self):
        """`_before_commit` runs before the statement, for a log of attempts; the table then has the
        answer's record."""
        accounts, seen = self.accounts(), []
        accounts._table.before_commit = lambda worked: seen.append(
            (worked.reply, self.is_right("one"))
        )
        answer = accounts.commit(self.worked(accounts, Kind.CHANGE, "one", "two"))
        self.assertIs(answer.reply, Reply.REPLACED)
        self.assertEqual(seen, [(Reply.REPLACED, True)])
        self.assertEqual(self.stands(), answer.after)
        self.assertTrue(self.is_right("two"))

    def test_who_may_not_update(self):
        """A role without UPDATE gets a StoreFault: the change surely took no effect."""
        accounts = self.accounts(connect=self.of_role("SELECT"))
        self.assertRaisesRegex(StoreFault, "42501|1142", accounts.change, "ann", "one", "two")


class OnServers:
    """Servers that end waits, restart, or only read."""

    def test_restart(self):
        """The pool's connection is broken after a restart: the pool opens another."""
        accounts = self.accounts()
        self.assert_replies("verify ann one yes", accounts)
        self.server.end()
        self.assertRaises(Unavailable, self.accounts(patience=0.3).verify, "ann", "one")
        self.server.start()
        self.assert_replies("change ann one two replaced; verify ann two yes", accounts)

    def test_a_connection_that_the_server_refuses(self):
        """A database or a user that doesn't exist is named in the error, which begins with the
        refusal. An operation doesn't wait for it."""
        said = "^the server refused the connection: .*(nope|nobody)"
        for connect in self.refused():
            accounts = self.accounts(connect=connect)
            with self.no_pause(accounts):
                for text in ("login ann one", "change ann one two"):
                    with self.assertRaisesRegex((StoreFault, Unavailable), said):
                        called(accounts, text)

    def test_a_server_that_only_reads(self):
        """A change waits for a read-only server, as in a failover; it raises Unavailable when
        patience ends."""
        self.give(None, "ben")
        connect, frees = self.reading()
        accounts = self.accounts(connect=connect, patience=60.0)
        impatient = self.accounts(connect=connect, patience=0.2)
        self.assert_replies("login ann one yes", accounts)
        for text in ("change ann one two", "enrol ben x"):
            self.assertRaisesRegex(Unavailable, self.only_reads, called, impatient, text)
        timer = threading.Timer(1.0, frees)
        timer.start()
        self.assert_replies("change ann one two replaced; enrol ben x enrolled", accounts)
        timer.join()

    @each(*itertools.product(("put_at_once", "commit"), (AttributeError, TypeError, NameError)))
    def test_a_fault_of_a_program_comes_through(self, name, error):
        """A program's own fault doesn't count as a lost answer, although the statement may have
        been sent."""
        dialect = losing(self.another_dialect(), True, 9, error("mine"), [name])
        if name == "put_at_once" and not dialect.at_once:
            return
        if name == "commit":
            dialect.at_once = ""
        with self.assertRaisesRegex(error, "mine"):
            self.accounts(dialect=dialect).change("ann", "one", "two")
        self.assertTrue(self.is_right("one"))

    def test_a_rollback_that_fails(self):
        """The call raises a refusal of the server at once, instead of after the whole patience."""
        self.execute("ALTER TABLE users ADD CHECK (record LIKE '%m=64,%')")
        dialect = losing(self.another_dialect(), True, 99, ConnectionError("planted"), ["undo"])
        made = []

        def connect():
            made.append(self.connect())
            return made[-1]

        accounts = self.accounts(self.high, dialect, connect, patience=60.0)
        self.assertRaises(StoreFault, accounts.change, "ann", "one", "two")
        self.assertLess(len(made), 5)
