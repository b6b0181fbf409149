"""The result of a whole operation on a copy, and its costs."""

import asyncio
import functools
import itertools
import threading
from concurrent.futures import ThreadPoolExecutor
from unittest import mock

from engines import OnSqliteTasks
from support import HIGH, LOW, OLDER, READS, Base, called, each
import rigzumal
from rigzumal import PasswordHasher, ScryptHasher
from rigzumal.accounts import Accounts, Reply, _judgement
from rigzumal.accounts.types import Kind, NO_ROW, Request, Ticket


class Upgrades(Base):
    @each(
        (PasswordHasher(4, 64, 1), PasswordHasher(1, 256, 1), True),
        (PasswordHasher(4, 64, 1), PasswordHasher(1, 128, 1), False),
        (LOW, PasswordHasher(2, 64, 1), True),
        (LOW, PasswordHasher(1, 64, 4), False),
        (LOW, PasswordHasher(9, 64, 1, type=rigzumal.Type.I), False),
        *((ScryptHasher(4, 8, 1), ScryptHasher(*it), it[0] == 4) for it in ((4, 8, 2), (3, 16, 1))),
        *((ScryptHasher(4, 8, it), ScryptHasher(5, 8, 1), it == 2) for it in (2, 4)),
    )
    def test_what_goes_up(self, one, two, up):
        """An upgrade needs more memory for as much work, or more work in as much memory; no chain
        of upgrades leads back."""
        record, accounts = one.hash("x"), self.accounts(two)
        self.put(record)
        self.assert_replies("upgrade ann y wrong", accounts)
        self.assertEqual(self.stands(), record)
        self.assert_replies(f"upgrade ann x {'upgraded' if up else 'kept'}", accounts)
        self.assertEqual(self.stands() == record, not up)
        self.assert_replies("login ann x yes", accounts)
        self.put(two.hash("x"))
        self.assert_replies("upgrade ann x kept", self.accounts(one))

    def test_from_one_scheme_to_another(self):
        """A login moves a record to the other scheme only from listed costs."""
        self.put(ScryptHasher(log2_n=4).hash("one"))
        higher = ScryptHasher(log2_n=5)
        unlisted = (LOW, (), "$scrypt$ln=4,"), (higher, (), "$scrypt$ln=5,")
        for hasher, listed, costs in (*unlisted, (LOW, [higher.costs], "$argon2id$")):
            self.assert_replies("login ann one yes", self.accounts(hasher, upgrade_from=listed))
            self.assertIn(costs, self.stands())

    def test_the_older_version(self):
        self.put(OLDER)
        other, same = PasswordHasher(2, 256, 1), PasswordHasher(2, 256, 1, type=rigzumal.Type.I)
        self.assert_replies("upgrade ann password kept", self.accounts(other))
        self.assert_replies("login ann password yes", self.accounts(same))
        self.assertIn("$argon2i$v=19$m=256,t=2,p=1$", self.stands())

    def test_what_a_judge_refuses(self):
        for size in (16, 31, 33, 64):
            self.assertRaises(ValueError, self.accounts, LOW.replace(hash_len=size))
        self.assertRaises(ValueError, self.accounts, LOW, upgrade_from=[LOW.costs])
        with self.assertRaises(rigzumal.InvalidRecordError):
            self.accounts(LOW, upgrade_from=["$argon2id$m=64"])


class Peppers(Base):
    """Operations with peppers; of_engines.Operations tests each operation under one pepper."""

    OLD, NEW = (LOW.replace(secret=it) for it in (b"old", b"new"))
    BOTH = LOW.replace(secrets=[b"new", b"old"])
    NEW_OR_NONE = LOW.replace(secrets=[b"new", b""])
    # A service that rotates again before all users have logged in.
    OLDER, FOUR = LOW.replace(secret=b"older"), LOW.replace(secrets=[b"new", b"old", b"older", b""])
    # Records that are replaced at the next login, and the hashers that read them.
    ROTATED = ((OLD, BOTH), (LOW, NEW_OR_NONE), (ScryptHasher(4), NEW_OR_NONE))
    ROTATED += ((OLD, FOUR), (OLDER, FOUR), (LOW, FOUR))

    def test_a_record_is_of_one_secret(self):
        """Each record belongs to only one secret, even a record for an INSERT, which has its own
        salt."""
        accounts = self.accounts(self.NEW)
        self.assert_replies("reset ann one replaced", accounts)
        records = {self.stands(), *(accounts.new_record("one") for _ in range(2))}
        self.assertEqual(len(records), 3)
        for stands in records:
            self.put(stands)
            for hasher, reply in ((self.NEW, "yes"), (LOW, "no"), (self.OLD, "no")):
                self.assert_replies(f"verify ann one {reply}", self.accounts(hasher))

    @each(
        *itertools.product(
            ROTATED,
            (
                *((it, None) for it in ("verify ann one yes", "login ann two no")),
                (f"login ann {'x' * 257} no", None),
                *((it, None) for it in ("change ann two x wrong", "remove ann two wrong")),
                *((it, "one") for it in ("login ann one yes", "upgrade ann one upgraded")),
                *((it, "two") for it in ("change ann one two replaced", "reset ann two replaced")),
            ),
        )
    )
    def test_rotation(self, hashers, call):
        """A right password replaces a record of an older secret; a wrong password replaces none."""
        (old, hasher), (text, password) = hashers, call
        accounts, record = self.accounts(hasher), old.hash("one")
        self.put(record)
        self.assert_replies(text, accounts)
        if password is None:
            self.assertEqual(self.stands(), record)
        else:
            self.assertTrue(self.NEW.verify(self.stands(), password))
            self.assert_replies(f"upgrade ann {password} kept", accounts)
        self.put(record)
        self.assert_replies("remove ann one removed", accounts)

    def test_no_record_of_scrypt(self):
        self.put(ScryptHasher(4).hash("one"))
        for password in ("one", "two"):
            with self.assertRaises(rigzumal.InvalidRecordError):
                self.accounts(self.BOTH).verify("ann", password)


class Foreign(Base):
    def setUp(self):
        super().setUp()
        self.put("$2b$one")

    def hook(self, text, password):
        self.assertIsInstance(password, bytes)
        if text.startswith("$2b$"):
            return text == "$2b$" + password.decode()
        return None

    @each(
        *((it, None) for it in ("verify ann one yes", "verify ann two no", "enrol ann two exists")),
        *((f"{it} wrong", None) for it in ("upgrade ann two", "remove ann two")),
        ("change ann two x wrong", None),
        ("login ann one yes", "one"),
        ("change ann one new replaced", "new"),
    )
    def test_texts_of_other_schemes(self, text, right):
        accounts = self.accounts(foreign=self.hook)
        self.put("$2b$one")
        self.assert_replies(text, accounts)
        self.assertEqual(self.stands() == "$2b$one", right is None)
        self.assertTrue(right is None or self.is_right(right))
        self.put("$2b$one")
        self.assert_replies("remove ann one removed", accounts)
        self.assertIsNone(self.stands())

    @each(
        *itertools.product(
            (LOW, Peppers.NEW),
            (("$2b$one", "one", 0), ("$2b$one", "two", 0), ("!shut", "one", 1)),
            (("verify", 0), ("login", 1), ("upgrade", 1), ("change", 1), ("remove", 0)),
        )
    )
    def test_hashes(self, hasher, row, operation):
        """A wrong password costs as many hashes as a right one, which the hook's is one of. If the
        hook compares nothing, they are those of an account without a record."""
        (stands, password, shut), (name, made) = row, operation
        self.put(stands)
        hook = mock.Mock(wraps=self.hook)
        accounts = self.accounts(hasher, foreign=hook)
        new = " new" if name == "change" else ""
        with self.hashes(shut + made if name == "change" or not shut else 1):
            called(accounts, f"{name} ann {password}{new}")
        hook.assert_called_once_with(stands, password.encode())

    def test_an_answer_is_true_false_or_none(self):
        """Any other answer would count as true: nothing is stored, and no login succeeds."""

        async def awaited(text, password):
            return True

        def pair(text, password):
            return False, None  # passlib's verify_and_update

        answers = (0, 1, "", "no", b"", (), [], object())
        hooks = [pair, awaited]
        hooks += [lambda text, password, answer=answer: answer for answer in answers]
        texts = ("verify ann x", "login ann x", "change ann x new", "remove ann x")
        for hook, text in itertools.product(hooks, texts):
            with self.subTest(hook=hook, text=text):
                with self.assertRaisesRegex(TypeError, "`foreign` (must return|returned)"):
                    called(self.accounts(foreign=hook), text)
                self.assertEqual(self.stands(), "$2b$one")
        self.assertRaisesRegex(TypeError, "function", self.accounts, foreign="bcrypt")

    def test_a_login_that_was_shut(self):
        self.put("!shut")
        accounts = self.accounts(foreign=self.hook)
        for password in ("", "!shut", "one"):
            with self.hashes(1):
                self.assertIs(accounts.login("ann", password), Reply.NO)
        self.assert_replies("reset ann new replaced", accounts)

    def test_no_hook(self):
        self.put("!shut")
        self.assertRaises(rigzumal.InvalidRecordError, self.accounts().verify, "ann", "x")
        self.assert_replies("enrol ann x exists")
        self.assertEqual(self.stands(), "!shut")


class ForeignTasks(OnSqliteTasks, Foreign):
    def test_hooks_of_asyncio(self):
        """AsyncAccounts awaits a coroutine function on the loop, and calls a function in the
        executor."""
        threads = []

        async def awaited(text, password):
            await asyncio.sleep(0)
            threads.append(threading.current_thread().name)
            return self.hook(text, password)

        def plain(text, password):
            threads.append(threading.current_thread().name)
            return self.hook(text, password)

        executor = ThreadPoolExecutor(1, "hashes")
        self.addCleanup(executor.shutdown)
        self.assertRaises(TypeError, self.accounts, foreign=plain, executor=8)
        with self.assertRaisesRegex(TypeError, "only AsyncAccounts uses an executor"):
            Accounts(self.connect, self.dialect, LOW, executor=executor)
        for hook in (awaited, lambda *given: awaited(*given), functools.partial(awaited), plain):
            accounts = self.accounts(foreign=hook, executor=executor)
            self.put("$2b$one")
            threads.clear()
            self.assert_replies("verify ann guess no; login ann guess no", accounts)
            self.assertEqual(self.stands(), "$2b$one")
            self.assert_replies("login ann one yes", accounts)
            self.assertTrue(self.is_right("one"))
            where = "hashes_0" if hook is plain else threading.main_thread().name
            self.assertEqual(threads, [where] * 3)

    def test_an_answer_is_true_false_or_none(self):
        async def lies(text, password):
            return "no"

        for hook in (lies, lambda *given: lies(*given)):
            with self.assertRaisesRegex(TypeError, "not a str"):
                self.accounts(foreign=hook).login("ann", "guess")
        self.assertEqual(self.stands(), "$2b$one")


class Costs(Base):
    @each("ann", "bob", "nobody", "a\0b", "a\ud800")
    def test_each_look_costs_the_same_hashes(self, name):
        """Each operation without a change costs one hash, and a change two: for an unknown name,
        without a record, and for a wrong password."""
        self.give("one")
        self.give(None, "bob")
        accounts = self.accounts()
        for kind in READS:
            with self.subTest(kind=kind), self.hashes(2 if kind is Kind.CHANGE else 1):
                accounts.perform(Request(kind, name, "wrong", "x"))
        with self.hashes(1):
            accounts.login(name, "wrong")

    # Who wrote a record, or None without one, and who reads it; the hashes of a look and of an
    # upgrade.
    @each(
        *((it, it, 1, 1) for it in (LOW, Peppers.NEW, ScryptHasher(4))),
        *((it, HIGH.replace(secret=it.secret), 1, 2) for it in (LOW, Peppers.NEW)),
        (ScryptHasher(4), ScryptHasher(5), 1, 2),
        *((it, Peppers.BOTH, 2, 3) for it in (Peppers.NEW, Peppers.OLD, None)),
        *((it, Peppers.NEW_OR_NONE, 2, 3) for it in (Peppers.NEW, LOW, None)),
        *((it, Peppers.FOUR, 4, 5) for it in (Peppers.NEW, Peppers.OLD, Peppers.OLDER, LOW, None)),
        (ScryptHasher(4), Peppers.NEW_OR_NONE, 1, 2),
        *((None, it, 1, 1) for it in (LOW, Peppers.NEW)),
    )
    def test_a_wrong_password_costs_the_hashes_of_a_right_one(self, maker, hasher, look, upgrade):
        record, accounts = maker and maker.hash("one"), self.accounts(hasher)
        counts = {"verify": look, "login": upgrade, "upgrade": upgrade, "remove": look}
        names = ("ann",) if maker else ("ann", "nobody")
        for name, password in itertools.product(names, ("one", "two", "x" * 257)):
            for operation, count in (*counts.items(), ("change", look + 1)):
                new = " new" if operation == "change" else ""
                self.put(record)
                with self.subTest(operation, name=name, password=password), self.hashes(count):
                    called(accounts, f"{operation} {name} {password}{new}")

    @each((None, "enrol ann one"), (None, "reset ann one"), ("one", "reset ann two"))
    def test_a_new_record_costs_one_hash(self, stands, text):
        """A new record costs one hash, without a dummy hash if the account had no record."""
        self.give(stands)
        with self.hashes(1):
            called(self.accounts(), text)

    @each(LOW, HIGH, ScryptHasher(log2_n=3))
    def test_a_name_that_is_not_there_costs_as_much_as_a_new_record(self, hasher):
        judge = _judgement.Judge(hasher)
        with mock.patch.object(_judgement, "step", wraps=_judgement.step) as step:
            judge.work(Ticket(Request(Kind.VERIFY, "nobody", "x"), NO_ROW))
        ((_, dummy, password, *_), _) = step.call_args
        self.assertEqual(rigzumal.parts(dummy), rigzumal.parts(hasher.hash("x")))
        self.assertEqual(password, b"x")
