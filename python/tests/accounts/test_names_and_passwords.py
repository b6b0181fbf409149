"""Names and passwords that no new account may have, at each door; accounts that have such a name;
and the bytes that a typed password becomes for its hash."""

import inspect
import unicodedata

from support import HIGH, RECORD, Base, Commands, each, is_right
from rigzumal import opaque_string
from rigzumal.accounts import Accounts, AsyncAccounts, Reply
from rigzumal.accounts.types import Kind, Request

BLANK, EMPTY = "the name begins or ends with a blank", "the name is empty"
MARK, NUMBER = "the name begins with a byte order mark", " isn't a whole number"
NAMES = (
    *(("", EMPTY), (" ", EMPTY), ("\u2003", EMPTY)),
    *((it, BLANK) for it in ("ada ", " ada", "ada\t", "\u00a0ada", "ada\u2028", "\x1cada")),
    ("\ufeffada", MARK),
)
GOOD = ("ada", "ada lovelace", "\u00e9", "0", "a\ufeff", "\u200bada")


class Name(str):
    """A subclass of str, such as a framework's text that is marked as safe."""


class NewNames(Commands):
    has_table = False

    def setUp(self):
        super().setUp()
        self.execute("DELETE FROM users")

    def command(self, *words, given="", status=0):
        """The output of a command over the accounts' own table, if it ends with this status."""
        return self.run_command("--table", "users", *words, given=given, status=status)

    def import_of(self, name):
        return "import", self.file(f"{name} {RECORD}")

    def names(self):
        return [name for (name,) in self.execute("SELECT name FROM users")]

    def test_each_door(self):
        """The command's add and rename, an import, and an enrolment refuse them in the same way."""
        accounts = self.accounts()
        self.command("add", "eve", given="one")
        for name, fault in NAMES:
            with self.subTest(name=name):
                for words in (("add", name), ("rename", "eve", name)):
                    said = self.command(*words, given="one", status=1)
                    self.assertEqual(said, f"rigzumal: {fault}\n")
                said = self.command(*self.import_of(name), status=6)
                # A line without a name is no line of an import.
                self.assertIn("line 1: " + ("a line is" if fault is EMPTY else fault), said)
                request = Kind.ENROL, name, "one"
                for act, *given in ((accounts.perform, *request), (accounts.begin, *request)):
                    with self.assertRaisesRegex(ValueError, f"^{fault}$"):
                        act(Request(*given))
                self.assertRaisesRegex(ValueError, f"^{fault}$", accounts.enrol, name, "one")
                check = self.dialect.check_new_key
                self.assertRaisesRegex(ValueError, f"^{fault}$", check, Name(name))
                self.assertEqual(self.names(), ["eve"])

    @each(*GOOD)
    def test_names_that_are_taken(self, name):
        for words, said in (
            (("add", name), "enrolled"),
            *((("rename", *it), "renamed") for it in ((name, "eve"), ("eve", name))),
            (("delete", name), "deleted"),
            (self.import_of(name), "1 added, 0 there already"),
        ):
            found = self.command(*words, given="one").splitlines()
            self.assertEqual(found[:1] if words[0] == "import" else found, [said])
        self.execute("UPDATE users SET record = NULL")
        self.assertIs(self.accounts().enrol(name, "one"), Reply.ENROLLED)
        self.execute("DELETE FROM users")

    @each(*(name for name, _ in NAMES))
    def test_accounts_that_have_one_by_now(self, name):
        """Existing accounts with such names can log in, get a new password or another name, and be
        deleted."""
        accounts = self.accounts()
        self.execute("INSERT INTO users (name) VALUES (%s)", name)
        self.assertIs(accounts.reset(name, "one"), Reply.ENROLLED)
        self.assertIs(accounts.login(name, "one"), Reply.YES)
        self.assertIs(accounts.change(name, "one", "two"), Reply.REPLACED)
        self.assertEqual(self.command("check", name, given="two"), "yes\n")
        self.assertEqual(self.command("rename", name, "ada"), "renamed\n")
        self.execute("UPDATE users SET name = %s", name)
        self.assertEqual(self.command("delete", name), "deleted\n")

    @each("a\0b", "a\udcff")
    def test_names_that_no_column_holds(self, name):
        """No account has such a name, so no account can get it, and none is deleted."""
        for words in (("add", name), ("rename", "ada", name)):
            said = self.command(*words, given="one", status=1)
            self.assertEqual(said, "rigzumal: the column can't hold this name\n")
        for words in (("delete", name), ("rename", name, "ada"), ("disable", name)):
            self.assertEqual(self.command(*words, status=4), "no account\n")
        self.assertIs(self.accounts().enrol(name, "one"), Reply.NO_ACCOUNT)
        self.assertFalse(self.dialect.can_stand(Name(name)))

    def test_numbers(self):
        self.table("TEXT", "INTEGER")
        for name in ("x", " 7", "7 ", "1_0", "+7", "0x7", "\u0667", "", "7.0", "1" * 20):
            said = self.command("--numbers", "add", name, given="one", status=1)
            self.assertEqual(said, f"rigzumal: {name!r}{NUMBER}\n")
            self.command("--numbers", *self.import_of(name), status=6)
        for name in ("7", "0", "-7", str(2**63 - 1)):
            said = self.command("--numbers", "add", "--", name, given="one")
            self.assertEqual(said, "enrolled\n")


COMPOSED, APART = (unicodedata.normalize(it, "caf\u00e9 au lait") for it in ("NFC", "NFD"))


class Rules(Base):
    def setters(self, accounts):
        """Each way to set an account's password: the account `ann` has the record of "one"."""

        def part(password):
            ticket = accounts.begin(Request(Kind.RESET, "ann", "", password))
            return accounts.commit(accounts.work(ticket))

        return (
            lambda password: accounts.enrol("ben", password),
            lambda password: accounts.change("ann", "one", password),
            lambda password: accounts.reset("ann", password),
            lambda password: accounts.perform(Request(Kind.RESET, "ann", "", password)),
            accounts.new_record,
            part,
        )

    def set_up(self, **rules):
        accounts = self.accounts(**rules)
        self.give(None, "ben")
        self.give("one")
        return accounts

    @each(
        *(({"least_length": 8}, it, "12345678") for it in ("", "1234567", b"1234567")),
        ({"least_length": 8}, "\u00e4\u00f6\u00fc4567", "\U0001f600" * 8),
        ({}, "", "1"),
        ({"least_length": 0}, None, ""),
    )
    def test_a_new_one_is_long_enough(self, rule, refused, taken):
        """A new password has a minimum number of characters, whatever their bytes; a present one
        may be shorter."""
        accounts, before = self.set_up(**rule), self.stands()
        said = "at least 8 characters" if rule else "at least 1 character$"
        for setter in () if refused is None else self.setters(accounts):
            self.assertRaisesRegex(ValueError, said, setter, refused)
        self.assertEqual((self.stands(), self.stands("ben")), (before, None))
        self.assert_replies("verify ann one yes; login ann one yes; upgrade ann one kept", accounts)
        self.assertIs(accounts.change("ann", "one", taken), Reply.REPLACED)

    @each(
        *(({}, it) for it in ("x" * 257, "\u00e9" * 129, "secret\ud800")),
        *(({"least_length": 2, "prepare": opaque_string}, it) for it in ("x", "x\ty", "x" * 257)),
    )
    def test_no_row_is_read_for_a_refused_one(self, rules, refused):
        """For a refused password no row is read and nothing is hashed, and the error doesn't show
        the password."""
        for setter in self.setters(self.over(self.no_connection, **rules)):
            with self.hashes(0), self.assertRaises(ValueError) as raised:
                setter(refused)
            self.assertNotIn("secret", str(raised.exception))

    def test_one_form_is_hashed_in_every_operation(self):
        accounts = self.set_up(prepare=opaque_string)
        for typed in (APART, APART.encode(), APART.replace(" ", "\u00a0")):
            for setter in self.setters(accounts):
                self.give("one")
                self.give(None, "ben")
                made = setter(typed)
                record = made if isinstance(made, str) else None
                stand = [record, self.stands(), self.stands("ben")]
                self.assertTrue(any(it and is_right(it, COMPOSED) for it in stand))
        for kind in (Kind.VERIFY, Kind.UPGRADE, Kind.CHANGE, Kind.REMOVE):
            for typed in (APART, COMPOSED):
                self.give(COMPOSED)
                new = "new" if kind is Kind.CHANGE else ""
                reply = accounts.perform(Request(kind, "ann", typed, new)).reply
                self.assertNotIn(reply, (Reply.NO, Reply.WRONG), kind)
        self.give(COMPOSED)
        dear = self.accounts(HIGH, prepare=opaque_string)
        self.assertIs(dear.login("ann", APART), Reply.YES)
        self.assertIs(dear.verify("ann", COMPOSED), Reply.YES)
        self.assertIn("m=128", self.stands())

    def test_a_present_one_that_nobody_has_is_wrong_after_one_hash(self):
        accounts = self.set_up(prepare=opaque_string)
        for refused in ("one\t", "", "x" * 257):
            with self.hashes(1):
                self.assertIs(accounts.verify("ann", refused), Reply.NO)

    def test_one_that_is_refused_is_not_the_empty_one(self):
        """A password that `prepare` refuses is wrong even for a record of the empty password."""
        self.give("")
        accounts = self.accounts(prepare=opaque_string)
        for refused in ("\x07", "\t", "x" * 257):
            for text, reply in (("login", Reply.NO), ("upgrade", Reply.WRONG)):
                self.assertIs(getattr(accounts, text)("ann", refused), reply)
        self.assertIs(self.accounts().login("ann", ""), Reply.YES)

    def test_bytes_that_are_no_text_stay(self):
        accounts = self.set_up(prepare=opaque_string)
        accounts.reset("ann", b"\xff\t")
        self.assertIs(accounts.verify("ann", b"\xff\t"), Reply.YES)

    def test_a_hook_that_answers_no_text(self):
        told = "`prepare` must return"
        for answer in (None, b"one", 1, True, ("one",)):
            accounts = self.set_up(prepare=lambda it: answer)
            self.assertRaisesRegex(TypeError, told, accounts.verify, "ann", "one")
            self.assertRaisesRegex(TypeError, told, accounts.reset, "ann", "one")
        self.assertRaises(TypeError, self.accounts, prepare="NFC")
        for wrong in ("8", True, -1, 257):
            error = ValueError if type(wrong) is int else TypeError
            self.assertRaises(error, self.accounts, least_length=wrong)

    def test_both_kinds_of_accounts_take_the_same(self):
        of = [{*inspect.signature(it).parameters} for it in (Accounts, AsyncAccounts)]
        self.assertEqual(of[0], of[1])
