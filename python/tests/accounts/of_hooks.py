"""The behaviour of each engine with a caller's hook: classes of tests, like those of
of_engines.py."""

import contextlib
import contextvars
import itertools
from operator import methodcaller

from of_engines import CALLS
from servers import SqliteFile
from support import after_hash, called, each, in_threads
from rigzumal.accounts import OutcomeUnknown, Reply, StoreFault, Unavailable
from rigzumal.accounts._running import RUNNING

CHANGES = ("change ann one two", "login ann one", "remove ann one")


class RowsOfOnesOwn:
    """A row that `also` writes is stored exactly if the operation is."""

    def setUp(self):
        super().setUp()
        self.execute("DROP TABLE IF EXISTS sessions")
        self.execute("CREATE TABLE sessions (name VARCHAR(150), reply VARCHAR(20))")
        self.calls = []

    def also(self, conn, reply):
        self.calls.append(reply)
        self.execute("INSERT INTO sessions VALUES ('ann', %s)", reply.value, conn=conn)

    def begin(self, password="one"):
        """Starts with a record of this password and no row of the hook; returns the record."""
        self.execute("DELETE FROM sessions")
        self.calls.clear()
        return self.give(password)

    def rows(self):
        return [value for (value,) in self.execute("SELECT reply FROM sessions")]

    @each(*CALLS, ("low", None, "login b\0b one", "noaccount"))
    def test_each_reply(self, costs, stands, text, reply):
        """The hook receives the same reply as the caller, and its row is committed."""
        self.begin(stands)
        accounts = self.accounts(getattr(self, costs))
        self.assertEqual(called(accounts, text, also=self.also), reply)
        self.assertEqual(self.calls, [Reply(reply)])
        self.assertEqual(self.rows(), [reply])

    def test_an_exception_undoes_all(self):
        """The caller gets the exception unchanged, even a driver's, and nothing is stored."""
        accounts = self.accounts(patience=60.0)
        # A mail server's error looks like a connection's, and another server's refusal like this
        # server's.
        network = (ConnectionRefusedError("mine"), TimeoutError("mine"), self.broken, self.ended)
        others = (StoreFault("mine"), Unavailable("mine"), OutcomeUnknown("mine"))
        errors = (KeyError("mine"), FileNotFoundError("mine"), *network, *others, None)
        for error, text in itertools.product(errors, CHANGES):

            def raises(conn, reply):
                self.also(conn, reply)
                if error is None:
                    self.execute("INSERT INTO nowhere VALUES (1)", conn=conn)
                raise error

            record = self.begin()
            with self.subTest(error=error, text=text):
                with self.assertRaises(Exception) as raised:
                    called(accounts, text, also=raises)
                self.assertIs(raised.exception, error or raised.exception)
                if error is None:
                    self.assertNotIsInstance(raised.exception, StoreFault)
                self.assertEqual(len(self.calls), 1)
                self.assertEqual((self.rows(), self.stands()), ([], record))
        self.assert_replies("verify ann one yes", accounts)

    @each(("login ann one", "no"), ("change ann one x", "wrong"))
    def test_it_is_called_again_at_each_turn(self, text, reply):
        """The row has a different record at the first commit: the hook's row was undone with it."""
        accounts, owner = self.accounts(self.high), self.accounts()
        self.begin()
        after_hash(accounts, lambda: owner.reset("ann", "two"))
        self.assertEqual(called(accounts, text, also=self.also), reply)
        self.assertEqual(self.rows(), [reply])

    def test_what_may_pass_is_done_again(self):
        """The operation runs again from its BEGIN after the server undid it, or its connection
        broke."""
        accounts = self.accounts()

        def undone(conn):
            raise self.again

        def killed(conn):
            self.end_sessions()
            self.execute("SELECT 1", conn=conn)

        for fail in (undone,) if self.kind is SqliteFile else (undone, killed):
            self.begin()

            def fails(conn, reply):
                self.also(conn, reply)
                if len(self.calls) == 1:
                    fail(conn)

            self.assert_replies("change ann one two replaced", accounts, also=fails)
            self.assertEqual(self.rows(), ["replaced"])
            self.assertEqual(len(self.calls), 2)

    def test_a_hook_that_does_not_keep_to_its_transaction(self):
        """A hook that breaks the rules of its transaction gets an error that says so. It is called
        once, and no record is written."""
        accounts = self.accounts(patience=60.0)

        def rewrites(conn):
            self.execute("UPDATE users SET record = %s", self.low.hash("x"), conn=conn)

        def nests(conn):
            with contextlib.suppress(Exception):
                accounts.verify("ann", "one")
            accounts.verify("ann", "one")

        def uses_the_pool(conn):
            with accounts._connections.primary():
                raise AssertionError

        async def awaited():
            raise AssertionError

        for (act, said), text in itertools.product(
            (
                *((methodcaller(it), "has ended the operation's") for it in ("commit", "rollback")),
                (methodcaller("close"), "closed its connection"),
                (rewrites, "has changed the account's own record"),
                (nests, "operation on the same table"),
                (uses_the_pool, "connection is in use"),
                # A call of a generator function returns no answer, nor does one of a coroutine
                # function.
                (lambda conn: (it for it in ()), "a generator, which nobody runs"),
                (lambda conn: awaited(), "use AsyncAccounts"),
            ),
            CHANGES,
        ):

            def also(conn, reply):
                self.calls.append(reply)
                return act(conn)

            record = self.begin()
            with self.subTest(said=said, text=text):
                self.assertRaisesRegex(TypeError, said, called, accounts, text, also=also)
                self.assertEqual((len(self.calls), self.stands()), (1, record))
        self.assert_replies("verify ann one yes", accounts)

    def test_a_nested_call_leaves_the_transaction_alone(self):
        """If the hook continues after the refused nested call, so does the operation."""
        accounts = self.accounts()

        def nests(conn, reply):
            self.assertRaisesRegex(TypeError, "use the connection", accounts.verify, "ann", "one")
            self.also(conn, reply)

        self.assert_replies("change ann one two replaced", accounts, also=nests)
        self.assertEqual(self.rows(), ["replaced"])

    def test_a_nested_call_over_a_pool_of_several(self):
        """A nested call on another connection would wait for the row that its own operation
        locks."""
        self.execute("DROP TABLE IF EXISTS others")
        self.execute(self.another_dialect(table="others").create())
        self.execute("INSERT INTO others VALUES ('ann', %s)", self.low.hash("one"))
        used, given = [], {"patience": 0.5}
        # Each Accounts gets another object as its pool, as with psycopg_pool's `pool.connection`.
        accounts, dearer = (self.over(self.of_several, it, **given) for it in (self.low, self.high))
        other_table = self.another_dialect(table="others")
        others = self.over(self.of_several, self.low, other_table, **given)

        def also(conn, reply):
            self.also(conn, reply)
            for nested, text in (
                *((it, text) for it in (accounts, dearer) for text in (*CHANGES, "verify ann one")),
                *((it, "reset ann x") for it in (accounts, dearer)),
            ):
                with self.assertRaisesRegex(TypeError, "operation on the same table"):
                    called(nested, text)
            used.append(called(others, "verify ann one"))

        for text, reply in (("login ann one", "yes"), ("change ann one two", "replaced")):
            self.begin()
            self.assert_replies(f"{text} {reply}", accounts, also=also)
            self.assertEqual(self.rows(), [reply])
        self.assertEqual(used, ["yes"] * 2)
        self.assert_replies("verify ann two yes", accounts)

    def test_what_is_no_nested_call(self):
        """A call over another pool, which may use another database, isn't nested. A call that
        begins within `also` and runs after it isn't nested either."""
        accounts, other, contexts = self.accounts(), self.accounts(), []

        def also(conn, reply):
            self.also(conn, reply)
            self.assert_replies("verify ann one yes", other)
            contexts.append(contextvars.copy_context())

        self.assert_replies("change ann one two replaced", accounts, also=also)
        self.assertEqual(self.rows(), ["replaced"])
        (kept,) = contexts
        self.assertEqual(kept.run(called, accounts, "verify ann two"), "yes")
        self.assertEqual(RUNNING.get(), ())

    @contextlib.contextmanager
    def of_several(self):
        """A pool of several connections, which don't wait long for a row."""
        conn = self.setting(self.lock_timeout)()
        try:
            yield conn
        finally:
            conn.close()

    def test_strangers_guesses_beside_the_owner(self):
        """Each hook writes the account's own row, as a counter of failures does. No operation
        answers CHANGED, and no hook is called twice for one operation."""
        self.execute("ALTER TABLE users ADD failures INT DEFAULT 0")
        accounts = self.accounts(connect=self.patient, patience=0.0)

        def counts(conn, reply):
            self.calls.append(reply)
            sql = "UPDATE users SET failures = failures + 1 WHERE name = 'ann'"
            self.execute(sql, conn=conn)

        def log_in(number):
            password = "one" if number == 0 else "a guess"
            return {accounts.login("ann", password, also=counts) for _ in range(12)}

        owner, *strangers = in_threads(log_in, 5)
        self.assertEqual((owner, strangers), ({Reply.YES}, [{Reply.NO}] * 4))
        self.assertEqual(len(self.calls), 60)
        self.assertEqual(self.execute("SELECT failures FROM users"), [(60,)])

    @each(
        ("shouting", "from the one that the UPDATE wrote"),
        ("ignoring", "which an UPDATE doesn't change"),
        ("emptying", "record differs|doesn't change"),
    )
    def test_triggers(self, name, said):
        """A trigger's change of a record is undone with the hook's row, and the error doesn't show
        the record."""
        self.create()
        accounts, confirming = self.accounts(), self.accounts(confirm=True)
        for sql in getattr(self, name):
            self.execute(sql)
        if not getattr(self, name):
            return  # no trigger here does so
        texts = ("change ann one two", "reset ann two", "enrol ann two")
        calls = [*itertools.product([accounts], texts, ({}, {"also": self.also}))]
        for of, text, more in (*calls, (confirming, "verify ann one", {})):
            # Written past the trigger, as by another program.
            record = self.begin(None if "enrol" in text else "one")
            with self.subTest(text=text, more=more):
                with self.assertRaisesRegex(StoreFault, said) as raised:
                    called(of, text, **more)
                self.assert_no_record(raised.exception)
                self.assertEqual((self.stands(), self.rows()), (record, []))
        self.assertRegex(self.said(accounts), said)

    @each(True, False)
    def test_a_commit_without_an_answer(self, before):
        """After a change exactly one row of the hook is stored, with the record; otherwise the
        outcome is unknown."""
        self.begin()
        losing = self.losing(before)
        self.assert_replies("change ann one two replaced", losing, also=self.also)
        self.assertEqual(self.rows(), ["replaced"])
        self.assertTrue(self.is_right("two"))
        self.execute("DELETE FROM sessions")
        for name in ("login", "verify"):
            with self.assertRaises(OutcomeUnknown):
                getattr(self.losing(before), name)("ann", "two", also=self.also)
        self.assertEqual(self.rows(), [] if before else ["yes"] * 2)
