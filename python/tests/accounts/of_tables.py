"""The behaviour of each engine with its connections and tables: classes of tests, like those of
of_engines.py."""

import itertools
import threading
import time

from of_engines import CALLS
from support import LOW, called, each, in_threads
from rigzumal.accounts import Reply, StoreFault, Unavailable
from rigzumal.accounts.types import Kind, Request, Ticket


class Connections:
    """The state of a connection, and the statements that are sent on it."""

    def test_modes(self):
        """Connections that aren't in autocommit, or have a transaction open."""
        worked = self.worked(self.accounts(), Kind.CHANGE, "one", "two")
        manual, opened = "the pool's connections must be in auto", "is open .* the pool must close"
        modes = (False, "", manual), (False, "SELECT 1", manual), (True, self.dialect.begin, opened)
        acts = ("verify", "ann", "one"), ("change", "ann", "one", "two"), ("commit", worked)
        for mode, (name, *given) in itertools.product(modes, (*acts, ("examine",))):
            autocommit, begin, said = mode
            conn = self.another(autocommit=autocommit)
            if begin:
                self.execute(begin, conn=conn)
            accounts = self.accounts(connect=lambda: conn)
            with self.subTest(autocommit=autocommit, begin=begin, name=name):
                self.assertRaisesRegex(StoreFault, said, getattr(accounts, name), *given)
        # Out of autocommit too none is open on SQLite before the first change.
        lone = [self.conn, *([self.another(autocommit=False)] if self.begins_late else [])]
        looked = self.worked(self.accounts(), Kind.VERIFY, "one")
        for conn, of in itertools.product(lone, (worked, looked)):
            with self.assertRaisesRegex(StoreFault, "no transaction is open"):
                self.accounts().commit_in(conn, of)
        self.assertTrue(self.is_right("one"))

    def test_a_callers_transaction(self):
        """A caller's transaction stores all or nothing, and writes nothing over a replaced copy."""
        accounts, caller = self.accounts(), self.another()
        worked = self.worked(accounts, Kind.CHANGE, "one", "two")
        replaced = ("ROLLBACK", Reply.REPLACED, "one"), ("COMMIT", Reply.REPLACED, "two")
        for end, reply, right in (*replaced, ("ROLLBACK", Reply.CHANGED, "two")):
            self.execute(self.dialect.begin, conn=caller)
            self.assertIs(accounts.commit_in(caller, worked).reply, reply)
            self.execute(end, conn=caller)
            self.assertTrue(self.is_right(right))

    def test_a_session_beside_a_verify(self):
        """A session written by a verify is stored before a change, or not at all."""
        accounts, owner, caller, done = self.accounts(), self.accounts(), self.another(), []
        worked = self.worked(accounts, Kind.VERIFY, "one")
        self.execute(self.dialect.begin, conn=caller)
        self.assertIs(accounts.commit_in(caller, worked).reply, Reply.YES)
        thread = threading.Thread(target=lambda: done.append(owner.change("ann", "one", "two")))
        thread.start()
        time.sleep(0.5)
        self.assertEqual(done, [])
        self.execute("COMMIT", conn=caller)
        thread.join()
        self.assertEqual(done, [Reply.REPLACED])

    @each(*CALLS)
    def test_what_is_sent(self, costs, stands, text, reply):
        """Each operation sends only the statements that docs/SCALE.md lists. If a record is added
        or removed, the row wouldn't show the outcome of a single statement."""
        hasher, conn, several = getattr(self, costs), self.another(), self.several
        plain, confirming = (self.kept(hasher, conn, confirm=it) for it in (False, True))
        begin, _, rest = several.partition(" ")
        # Locked for `also`, and compared after it.
        own = {"also": lambda conn, reply: None}
        locked = f"{begin} SELECT {self.held}"
        changed, looked = f"{locked}{rest}", f"{locked}SELECT COMMIT"
        changes = Reply(reply).makes_change or (costs == "high" and reply == "yes")
        at_once = self.one if stands and "remove" not in text else several
        confirmed = "" if reply == "noaccount" else self.confirmed
        for accounts, more, words in (
            (plain, {}, at_once if changes else ""),
            (plain, own, changed if changes else looked),
            (confirming, {}, at_once if changes else confirmed),
        ):
            record = self.give(stands)
            with self.subTest(words=words), self.statements(f"SELECT {words}".rstrip()):
                self.assertEqual(called(accounts, text, **more), reply)
            if not changes:
                self.assertEqual(self.stands(), record)

    def test_changes_at_any_level(self):
        """Exactly one of eight changes of a record is stored, whatever the session's isolation
        level. Eight logins all succeed, and the record gets the higher costs."""
        for setting in self.levels:
            connect = self.setting(setting)
            self.give("one")
            accounts = self.accounts(connect=connect)
            said = in_threads(lambda n: accounts.change("ann", "one", f"new{n}").value, 8)
            self.assertEqual(sorted(said), ["replaced"] + ["wrong"] * 7, setting)
            self.give("one")
            accounts = self.accounts(self.high, connect=connect)
            self.assertEqual(in_threads(lambda n: accounts.login("ann", "one"), 8), [Reply.YES] * 8)
            self.assertIn("m=128,", self.stands())

    def test_a_connection_is_as_before(self):
        """No transaction is open after a change, a refusal or another client's change."""
        self.table("VARCHAR(512) CHECK (record LIKE '%m=64,%')")
        self.give("one")
        conn = self.another()
        accounts, dearer = self.kept(conn=conn), self.kept(self.high, conn)
        worked = self.worked(accounts, Kind.CHANGE, "one", "two")
        self.assert_replies("change ann one one replaced", accounts)
        self.assertIs(accounts.commit(worked).reply, Reply.CHANGED)
        for _ in range(2):
            with self.assertRaisesRegex(StoreFault, self.check_number) as raised:
                dearer.change("ann", "one", "two")
            self.assert_no_record(raised.exception)
            self.assert_replies("login ann one yes", dearer)

    def test_waits_that_the_engine_ends(self):
        """The engine ends a wait for a lock, and a statement that takes too long. It undoes the
        statement, so the operation sends it again within patience, on the same connection and with
        the same hash. After that it raises Unavailable, and nothing is stored. A login succeeds."""
        settings = {self.lock_timeout, self.statement_timeout}
        for setting, stands in itertools.product(settings, ("one", None)):
            connect, record = self.setting(setting), self.give(stands)
            counted, made = counting(connect)
            patient = self.accounts(connect=counted, patience=60.0)
            impatient = self.accounts(self.high, connect=connect, patience=0.8)
            holder = self.another()
            self.execute(self.dialect.begin, conn=holder)
            self.execute(self.holding, conn=holder)
            self.assertRaises(Unavailable, impatient.reset, "ann", "two")
            self.assert_replies(f"login ann one {'yes' if stands else 'absent'}", impatient)
            self.assertEqual(self.stands(), record)
            timer = threading.Timer(0.6, lambda: self.execute("ROLLBACK", conn=holder))
            timer.start()
            with self.subTest(setting=setting, stands=stands), self.hashes(1):
                reply = "replaced" if stands else "enrolled"
                self.assert_replies(f"reset ann two {reply}", patient)
            timer.join()
            self.assertEqual(len(made), 1)


def counting(connect):
    """A function that connects, and a list that gets an element at each call."""
    made = []

    def counted():
        made.append(1)
        return connect()

    return counted, made


class Tables:
    """The kinds of tables, and the values that they store for a record."""

    def test_rows_as_dictionaries(self):
        for conn in self.as_dictionaries():
            self.give("one")
            accounts = self.accounts(connect=lambda: conn)
            self.assert_replies("change ann one two replaced; remove ann two removed", accounts)
            self.assertEqual(accounts.examine(), [])

    def test_keys_of_other_types(self):
        for column, kind, key, other in self.keys:
            self.dialect = self.another_dialect(key_type=kind)
            for make in (self.create, lambda: self.table(key=column)):
                make()
                accounts = self.accounts()
                self.assertEqual(accounts.examine(), [])
                self.execute(self.dialect.insert, key)
                self.assertIs(accounts.enrol(key, "one"), Reply.ENROLLED)
                self.assertIs(accounts.login(key, "one"), Reply.YES)
                self.assertIs(accounts.login(other, "one"), Reply.NO_ACCOUNT)
                self.assertRaises(TypeError, accounts.login, str(key), "one")

    def test_keys_of_an_enum(self):
        """The names in an enum are accounts, and no others are; an empty table with such keys has
        no fault."""
        before, key = self.enum
        self.execute("DROP TABLE IF EXISTS users")
        for sql in before:
            self.execute(sql)
        self.table(key=key)
        accounts = self.accounts()
        for _ in range(2):
            self.assertEqual([it for it in accounts.examine() if it.is_error], [])
            self.give("one")
        with self.hashes(1):
            self.assertIs(accounts.login("eve", "x"), Reply.NO_ACCOUNT)
        self.assertIs(accounts.reset("eve", "x"), Reply.NO_ACCOUNT)
        self.assert_replies("login ann one yes; login ann two no; change ann one two replaced")

    def test_a_key_of_two_rows(self):
        self.execute("DROP TABLE users")
        self.execute("CREATE TABLE users (name VARCHAR(90), record VARCHAR(512))")
        record = LOW.hash("one")
        for _ in range(2):
            self.execute("INSERT INTO users VALUES ('ann', %s)", record)
        accounts = self.accounts()
        self.assertRaises(StoreFault, accounts.verify, "ann", "one")
        worked = accounts.work(Ticket(Request(Kind.CHANGE, "ann", "one", "two"), record))
        self.assertRaises(StoreFault, accounts.commit, worked)
        self.assertEqual(self.execute("SELECT record FROM users"), [(record,)] * 2)

    def test_names_with_signs(self):
        """Tables and columns whose names have signs, in statements with values and without."""
        dialect = self.another_dialect(table='a"`b%c', key="k%`1", record='r "s', key_type=int)
        self.execute(f"DROP TABLE IF EXISTS {dialect.table}".replace("%%", "%"))
        self.execute(dialect.create())
        self.execute(dialect.insert, 7)
        accounts = self.accounts(dialect=dialect)
        self.assertEqual(accounts.examine(), [])
        self.assert_replies("enrol 7 one enrolled; change 7 one two replaced", accounts)
        self.assert_replies("verify 7 two yes; verify 8 two noaccount", accounts)
        ((key, record),) = self.execute(dialect.every)
        self.assertEqual((key, record[:9]), (7, "$argon2id"))

    def test_bytes_are_compared(self):
        """Statements compare bytes under each collation that treats different texts as equal."""
        copies = ("ABCdef", "abcDEF ", "abcdef", "\u00e4bcDEF", "abcDEF")
        for column, copy in itertools.product(self.folding, copies):
            self.table(column)
            self.put("abcDEF")
            cursor = self.conn.cursor()
            cursor.execute(self.dialect.update, ("x", "ann", copy))
            self.assertEqual(cursor.rowcount, copy == "abcDEF", (column, copy))
            cursor.close()

    def test_columns_that_change_a_record(self):
        """The trial finds a column that changes a record, and no such record is stored."""
        for column, mode, stands in itertools.product(self.changing, self.modes, ("short", None)):
            self.table(column)
            self.put(stands)
            accounts, before = self.accounts(connect=self.setting(mode)), self.stands()
            ticket = Ticket(Request(Kind.RESET, "ann", "", "two"), stands)
            with self.subTest(column=column, mode=mode, stands=stands):
                self.assertRaises(StoreFault, accounts.commit, accounts.work(ticket))
                self.assertEqual(self.stands(), before)
