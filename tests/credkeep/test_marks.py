"""Accounts that are locked, and passwords that must be changed."""

import base64
import json

from tests.credkeep.books import CHEAP, DONE, RECORD, BookTest, rows
from tests.helpers import Ended

MAKING = ("add", "change", "reset", "upgrade")


def yes(answer: str) -> Ended:
    """The end of a command that took effect."""
    return Ended(0, f"{answer}\n")


def no(answer: str) -> Ended:
    """The end of a command that took no effect."""
    return Ended(4, f"{answer}\n")


# Commands one after another with their inputs and ends. The book has ann, whose password is first.
COMMANDS = [
    # Each password of a locked account is wrong, and none makes a record.
    ("lock ann", "", yes("locked")),
    ("lock ann", "", yes("locked")),
    ("check ann", "first\n", no("no")),
    ("check ann", "other\n", no("no")),
    ("change ann", "first\nsecond\n", no("wrong")),
    ("upgrade ann", "first\n", no("wrong")),
    ("remove ann", "first\n", no("wrong")),
    ("add ann", "second\n", no("exists")),
    # A reset, another name, and no record leave the lock.
    ("reset ann", "second\n", yes("replaced")),
    ("check ann", "second\n", no("no")),
    ("rename ann bob", "", yes("renamed")),
    ("check bob", "second\n", no("no")),
    ("disable bob", "", yes("disabled")),
    ("check bob", "second\n", no("absent")),
    ("add bob", "third\n", no("exists")),
    ("reset bob", "third\n", yes("enrolled")),
    ("check bob", "third\n", no("no")),
    ("unlock bob", "", yes("unlocked")),
    ("unlock bob", "", no("none")),
    ("check bob", "third\n", yes("yes")),
    # The next account of a name has no mark of the last one.
    ("lock bob", "", yes("locked")),
    ("delete bob", "", yes("deleted")),
    ("add bob", "first\n", yes("enrolled")),
    ("check bob", "first\n", yes("yes")),
    # A right password that must be changed is told so, and only a change to another goes on.
    ("expire bob", "", yes("expired")),
    ("check bob", "first\n", no("expired")),
    ("check bob", "other\n", no("no")),
    ("upgrade bob", "first\n", no("expired")),
    ("remove bob", "first\n", no("expired")),
    ("change bob", "other\nsecond\n", no("wrong")),
    ("change bob", "first\nfirst\n", no("same")),
    ("check bob", "first\n", no("expired")),
    ("change bob", "first\nsecond\n", yes("replaced")),
    ("check bob", "second\n", yes("yes")),
    ("change bob", "second\nsecond\n", yes("replaced")),
    # A reset gives another one, and so does a first record.
    ("expire bob", "", yes("expired")),
    ("reset bob", "second\n", yes("replaced")),
    ("check bob", "second\n", yes("yes")),
    ("expire bob", "", yes("expired")),
    ("disable bob", "", yes("disabled")),
    ("expire bob", "", no("absent")),
    ("add bob", "second\n", yes("enrolled")),
    ("check bob", "second\n", yes("yes")),
    # Both marks at once: the lock is what is answered.
    ("expire bob", "", yes("expired")),
    ("lock bob", "", yes("locked")),
    ("check bob", "second\n", no("no")),
    ("unlock bob", "", yes("unlocked")),
    ("check bob", "second\n", no("expired")),
    *((f"{command} zoe", "", no("noaccount")) for command in ("lock", "unlock", "expire")),
]

FIRST, OTHER = (base64.b64encode(it).decode().rstrip("=") for it in (b"first", b"other"))

# Tagged lines one after another, and their answers.
LINES = [
    ("marks - 1000", "marks"),
    ("lock ann", "locked"),
    ("marks ann 1", "marks ann:!"),
    ("marks ann. 1", "marks"),
    (f"verify ann {FIRST}", "no"),
    (f"login ann {FIRST}", "no"),
    (f"change ann {FIRST} {OTHER}", "wrong"),
    (f"upgrade ann {FIRST}", "wrong"),
    (f"remove ann {FIRST}", "wrong"),
    (f"enrol ann {FIRST}", "exists"),
    (f"reset ann {OTHER}", "replaced"),
    (f"verify ann {OTHER}", "no"),
    ("unlock ann", "unlocked"),
    ("unlock ann", "none"),
    (f"verify ann {OTHER}", "yes"),
    ("expire ann", "expired"),
    ("marks - 1000", "marks ann:~"),
    (f"verify ann {OTHER}", "expired"),
    (f"login ann {OTHER}", "expired"),
    (f"verify ann {FIRST}", "no"),
    (f"login ann {FIRST}", "no"),
    (f"change ann {OTHER} {OTHER}", "same"),
    (f"change ann {OTHER} {FIRST}", "replaced"),
    (f"login ann {FIRST}", "yes"),
    *((f"{verb} zoe", "noaccount") for verb in ("lock", "unlock", "expire")),
    *((verb, "bad 11 line") for verb in ("lock", "lock ann bob", "unlock", "expire ann now")),
    *((verb, "bad 11 line") for verb in ("marks", "marks ann", "marks ann 1 1")),
    *(
        (f"{verb} {name}", "bad 3 name")
        for verb in ("lock", "unlock", "expire")
        for name in ("Ann", "an\0n", "a\u00e4", "a" * 33)
    ),
]

# What another program may have written in the place of a record, and no version of this one.
UNKNOWN = ("!!", "~!", "*", "! ", "!~~", "", f"~!{RECORD}", f"!!{RECORD}", f" {RECORD}")


class MarksTest(BookTest):
    def setUp(self) -> None:
        super().setUp()
        self.book.add("ann", "first\n")

    def test_commands(self) -> None:
        for text, given, wanted in COMMANDS:
            with self.subTest(text=text, given=given):
                words = text.split()
                words += ["--setting", CHEAP] if words[0] in MAKING else []
                self.assertEqual(self.book(*words, given=given), wanted)

    def test_tagged_lines(self) -> None:
        found = self.book.answers(*(f"a {line}" for line, _ in LINES))
        for (line, wanted), answer in zip(LINES, found, strict=True):
            with self.subTest(line=line):
                self.assertEqual(answer, f"a {wanted}")

    def test_names(self) -> None:
        """A name that no account has is refused as a word."""
        for command in ("lock", "unlock", "expire"):
            for name in ("Ann", "an\nn", "ann\n", "a" * 1100, ""):
                with self.subTest(command=command, name=name):
                    self.assertFails(
                        self.book(command, name), 1, "a name has 1 to 32 of", "(3 name)"
                    )

    def test_in_the_row(self) -> None:
        """The file has the marks before the record, and each program that opens it heeds them."""
        [(record,)] = rows(self.book.path, "SELECT record FROM account")
        for commands, mark in (
            (["lock"], "!"),
            (["expire"], "!~"),
            (["unlock"], "~"),
            (["reset"], ""),
        ):
            for command in commands:
                words = ["--setting", CHEAP] if command in MAKING else []
                self.book(command, "ann", *words, given="first\n" if words else "")
            with self.subTest(commands=commands):
                [(found,)] = rows(self.book.path, "SELECT record FROM account")
                self.assertEqual(found[: -len(record)] + "$", mark + "$")

    def test_rows_of_others(self) -> None:
        """A row that a version without marks wrote has none; marks that sqlite3 writes are heeded;
        and a text with another mark is named by its row, and opens nothing."""
        add = "INSERT INTO account VALUES ('eve', {})"
        for text, answer in (
            (f"'{RECORD}'", "yes"),
            (f"'!{RECORD}'", "no"),
            (f"'~{RECORD}'", "expired"),
            (f"'!~{RECORD}'", "no"),
            ("'!'", "absent"),
            ("NULL", "absent"),
        ):
            with self.subTest(text=text):
                rows(self.book.path, add.format(text))
                done = self.book("check", "eve", given="password\n")
                self.assertEqual(done, yes(answer) if answer == "yes" else no(answer))
                [(found,)] = rows(
                    self.book.path, "SELECT quote(record) FROM account WHERE name = 'eve'"
                )
                self.assertEqual(found, text)
                rows(self.book.path, "DELETE FROM account WHERE name = 'eve'")
        for text in UNKNOWN:
            with self.subTest(text=text):
                rows(self.book.path, add.format(f"'{text}'"))
                for words in ("list", "check ann", "unlock ann"):
                    done = self.book(*words.split(), given="first\n")
                    self.assertFails(done, 5, "row 2: the text there is no record: ")
                rows(self.book.path, "DELETE FROM account WHERE name = 'eve'")

    def test_shown(self) -> None:
        """The commands that show an account print its marks, and a list of names doesn't."""
        self.assertEqual(self.book("lock", "ann"), yes("locked"))
        self.assertEqual(self.book("expire", "ann"), yes("expired"))
        self.assertEqual(self.book("show", "ann"), yes(f"!~{CHEAP}"))
        self.assertEqual(self.book("list", "--costs"), yes(f"ann:!~{CHEAP}"))
        self.assertEqual(self.book("list"), yes("ann"))
        self.assertTrue(self.book.accounts()["ann"].startswith(f"!~{CHEAP}$"))
        for words in (("show", "--json", "ann"), ("list", "--json")):
            with self.subTest(words=words):
                shown = json.loads(self.book(*words).written)
                wanted = {"name": "ann", "costs": CHEAP, "locked": True, "expired": True}
                self.assertEqual(shown, wanted)

    def test_shown_by_a_service(self) -> None:
        """`show` answers an account's field of the file, as SQLite reads it: the marks, and the
        record behind them."""
        self.book.answers("a account dan")
        for change, marks in (
            ("lock ann", "!"),
            ("expire ann", "!~"),
            ("unlock ann", "~"),
            (f"reset ann {OTHER}", ""),
            ("lock dan", "!"),
            ("unlock dan", ""),
        ):
            with self.subTest(change=change):
                name = change.split()[1]
                found = self.book.answers(f"a {change}", f"t show {name}")[1]
                field = f"SELECT coalesce(record, 'none') FROM account WHERE name = '{name}'"
                [(kept,)] = rows(self.book.path, field)
                self.assertEqual(found, f"t {kept}")
                record = kept.lstrip("!~")
                self.assertEqual(kept.removesuffix(record), marks)
                if name == "ann":
                    self.assertTrue(record.startswith(f"{CHEAP}$"))
                else:
                    self.assertEqual(record, "none" if not marks else "")

    def test_lists_in_pages(self) -> None:
        """A list of marks has the marked accounts alone, in the order of the names."""
        lines = [f"a account {name}" for name in ("cy", "bob", "dan")]
        lines += ["a lock cy", "a lock ann", "a expire ann", "a lock dan"]
        self.book.answers(*lines)
        for asked, wanted in (
            ("- 1000", "marks ann:!~ cy:! dan:!"),
            ("- 2", "marks ann:!~ cy:!"),
            ("bob 1", "marks cy:!"),
            ("dan 2", "marks dan:!"),
            ("dan. 2", "marks"),
        ):
            with self.subTest(asked=asked):
                self.assertEqual(self.book.answers(f"a marks {asked}"), [f"a {wanted}"])

    def test_an_export_lets_nobody_in(self) -> None:
        """A line of a marked account is refused by an import, and named; or its account has no
        record; or it has its record, and the mark."""
        for command, answer in (("expire", "expired"), ("lock", "no")):
            self.assertEqual(self.book(command, "ann").status, 0)
            lines = self.book("export").written
            for option, found, wanted in (
                ("", {}, "noaccount"),
                ("--disable-locked", {"ann": ""}, "absent"),
                ("--keep-locked", self.book.accounts(), answer),
            ):
                with self.subTest(command=command, option=option):
                    other = self.begun(name="other.db")
                    done = other("import", *option.split(), given=lines)
                    self.assertEqual(done.status, 0 if option else 6)
                    self.assertEqual(other.accounts(), found)
                    self.assertEqual(other("check", "ann", given="first\n"), no(wanted))

    def test_an_import_ends_no_lock(self) -> None:
        """An existing account stays locked in an import, whatever its line's record."""
        self.assertEqual(self.book("lock", "ann"), yes("locked"))
        for record in (RECORD, f"~{RECORD}", f"!{RECORD}", ""):
            for option in ("--update", "--update --keep-locked", "--update --disable-locked"):
                with self.subTest(record=record, option=option):
                    self.book("import", *option.split(), given=f"ann:{record}\n")
                    self.assertTrue(self.book.accounts()["ann"].startswith("!"))
                    self.assertIn(
                        self.book("check", "ann", given="password\n").written, ("no\n", "absent\n")
                    )

    def test_backup_and_restore(self) -> None:
        self.assertEqual(self.book("lock", "ann"), yes("locked"))
        copy = self.file("copy.db")
        self.assertEqual(self.book("backup", str(copy.path)).status, 0)
        self.assertEqual(copy("check", "ann", given="first\n"), no("no"))
        self.assertEqual(self.book("unlock", "ann"), yes("unlocked"))
        self.assertEqual(self.book("restore", str(copy.path)).status, 0)
        self.assertEqual(self.book("check", "ann", given="first\n"), no("no"))

    def test_a_lock_beside_tries(self) -> None:
        """A try that began before a lock is answered before it, or as a wrong one."""
        self.book.remove()
        self.book = self.begun()
        costly = CHEAP.replace("m=8", "m=4096").replace("t=1", "t=8")
        self.book.add("ann", "first", costly)
        with self.book.tagged("--at-once", "2") as service:
            for _ in range(20):
                service.send(f"t verify ann {FIRST}\na lock ann\n")
                found = [service.answer() for _ in range(2)]
                if found[0] == "a locked":
                    self.assertEqual(found[1], "t no")
                else:
                    self.assertEqual(found, ["t yes", "a locked"])
                self.assertEqual(service.ask("a unlock ann"), "a unlocked")
            self.assertEqual(service.end(), DONE)
