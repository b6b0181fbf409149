"""Commands on an account: their input, the records that they write, and their output."""

import base64
import itertools
import json
import pathlib

from tests.credkeep.books import CHEAP, DONE, OTHER, RECORD, SCRYPT, SERVE, BookTest
from tests.credkeep.books import fails, lines_of, says
from tests.helpers import Ended

# RFC 9106's second recommended choice.
DEFAULT = "$argon2id$v=19$m=65536,t=3,p=4$"
NO_PASSWORD = fails(6, "no password on standard input")
NO_NEW_ONE = fails(6, "the new password is missing")
EMPTY = fails(6, "the password is empty: --empty-password accepts it")
LONG = fails(6, "the password has over 256 bytes")
TWO_LINES = fails(6, "more than one line on standard input")
THREE_LINES = fails(6, "more than two lines on standard input")
COUNTS = "ends in a carriage return, which counts: tr -d '\\r' removes it\n"
HINT = f"credkeep: hint: the password that was read {COUNTS}"
NEW_HINT = f"credkeep: hint: the new password {COUNTS}"
MAKING = ("add", "change", "reset")
READING = ("add", "check", "change", "reset", "upgrade", "remove")
READING_ONE_LINE = [command for command in READING if command != "change"]

# Commands one after another with their inputs and ends. The book has ann, whose password is first,
# and bob, whose password is that with a carriage return.
PASSWORDS = [
    # A password is a line without its end, which may be missing.
    *(("check ann", given, says("yes")) for given in ("first\n", "first")),
    *(("check ann", given, says("no")) for given in ("first \n", "\n")),
    # Nothing may stand behind it, or behind the second one of change.
    *(
        (f"{command} {name}", given, TWO_LINES)
        for command, name in itertools.product(READING_ONE_LINE, ("ann", "zoe"))
        for given in ("first\nmore\n", "first\nmore", "first\n\n", "\nfirst", "\n" * 9000)
    ),
    *(("change ann", given, THREE_LINES) for given in ("first\nx\ny\n", "first\nx\ny", "\n\n\n")),
    # Where the input has none, or no second one, nothing is changed.
    *((f"{command} {name}", "", NO_PASSWORD) for command in READING for name in ("ann", "zoe")),
    *(("change ann", given, NO_NEW_ONE) for given in ("first", "first\n", "\n")),
    *(("change ann --empty-password", given, NO_NEW_ONE) for given in ("first", "first\n", "\n")),
    ("check ann", "first\n", says("yes")),
    # A new password is empty only if that is asked for.
    ("add zoe", "\n", EMPTY),
    ("check zoe", "\n", says("noaccount")),
    ("add zoe --empty-password", "\n", says("enrolled")),
    ("check zoe", "\n", says("yes")),
    ("reset ann", "\n", EMPTY),
    ("check ann", "first\n", says("yes")),
    ("reset ann --empty-password", "\n", says("replaced")),
    ("change ann", "\n\n", EMPTY),
    ("change ann --empty-password", "\n\n", says("replaced")),
    ("check ann", "\n", says("yes")),
    ("change ann", "\nfirst\n", says("replaced")),
    # It has 256 bytes at most.
    ("reset zoe", "x" * 256, says("replaced")),
    ("check zoe", "x" * 256 + "\n", says("yes")),
    *(("check zoe", "x" * 257 + end, LONG) for end in ("", "\n", "\nmore\n", "x" * 100_000)),
    ("add kim", "x" * 257, LONG),
    *(("change ann", given, LONG) for given in ("x" * 257 + "\nnew\n", "first\n" + "x" * 257)),
    ("check kim", "x", says("noaccount")),
    # One that ends in a carriage return has a hint if the book says no to it, or takes it.
    ("check ann", "first\r\n", Ended(4, "no\n", HINT)),
    ("change ann", "first\r\nnew\n", Ended(4, "wrong\n", HINT)),
    *((f"{it} ann", "first\r\n", Ended(4, "wrong\n", HINT)) for it in ("upgrade", "remove")),
    ("change ann", "other\nnew\n", says("wrong")),
    *((f"{it} ann", "other\n", says("wrong")) for it in ("upgrade", "remove")),
    ("add ann", "other\r\n", says("exists")),
    *(
        (f"add {it}", "new\r" + end, Ended(0, "enrolled\n", NEW_HINT))
        for it, end in (("x", ""), ("y", "\n"))
    ),
    ("change x", "new\r\nnew\n", says("replaced")),
    ("change x", "new\nnew\r\n", Ended(0, "replaced\n", NEW_HINT)),
    ("reset y", "new\r\n", Ended(0, "replaced\n", NEW_HINT)),
    ("upgrade y", "new\r\n", says("upgraded")),
    ("remove y", "new\r\n", says("removed")),
    ("check nobody", "first\r\n", says("noaccount")),
    ("check bob", "first\r\n", says("yes")),
]


class PasswordsTest(BookTest):
    def test_passwords(self) -> None:
        self.book.add("ann", "first\n")
        added = self.book("add", "bob", "--setting", CHEAP, given="first\r\n")
        self.assertEqual(added, Ended(0, "enrolled\n", NEW_HINT))
        for text, given, wanted in PASSWORDS:
            with self.subTest(text=text, given=given[:20]):
                words = text.split()
                words += ["--setting", CHEAP] if words[0] in MAKING else []
                self.assertEqual(self.book(*words, given=given), wanted)

    def test_passwords_are_not_shown(self) -> None:
        """Neither the words of a process nor its standard error has a password."""
        secret = "aVeryRareSecret"
        with self.book.start("add", "ann") as run:
            run.send(secret)
            shown, seen = pathlib.Path(f"/proc/{run.process.pid}"), b""
            # The system shows no words of a program that it is only beginning.
            while b"users.db" not in seen and run.process.poll() is None:
                seen = (shown / "cmdline").read_bytes() + (shown / "environ").read_bytes()
            self.assertEqual(run.end("\n"), says("enrolled"))
        self.assertIn(b"users.db", seen)
        self.assertNotIn(secret.encode(), seen)
        for given in (secret * 20, secret, f"{secret}\n{secret * 20}"):
            for words in (["change", "ann"], ["add", "ann"], ["import"], [*SERVE]):
                with self.subTest(given=given, words=words):
                    self.assertNotIn(secret, self.book(*words, given=given).faults)
        self.assertNotIn(secret.encode(), self.book.path.read_bytes())


class RecordsTest(BookTest):
    def test_default_setting(self) -> None:
        """Each command that writes a record uses RFC 9106's second choice, and a salt of 16
        bytes."""
        self.begun({"ann": RECORD})
        made = []
        for command, name, given, answer in (
            ("upgrade", "ann", "password\n", "upgraded"),
            ("add", "bob", "password\n", "enrolled"),
            ("change", "ann", "password\npassword\n", "replaced"),
            ("reset", "bob", "password\n", "replaced"),
        ):
            with self.subTest(command=command, name=name):
                self.assertEqual(self.book(command, name, given=given), says(answer))
                made.append(self.book.accounts()[name])
        self.assertEqual([it[: len(DEFAULT)] for it in made], [DEFAULT] * 4)
        self.assertEqual(len(self.salts(made)), 4)
        for name in ("ann", "bob"):
            with self.subTest(name=name):
                self.assertEqual(self.book("check", name, given="password\n"), says("yes"))

    def salts(self, records: list[str]) -> set[bytes]:
        """The salts of these records, each of 16 bytes."""
        found = {base64.b64decode(it.split("$")[4] + "==") for it in records}
        self.assertEqual({len(it) for it in found}, {16})
        return found

    def test_fresh_salts(self) -> None:
        """The salts of commands, and of a service of tagged lines, all differ, and each of their
        16 bytes takes many values."""
        for at in range(100):
            self.book.add(f"a{at}")
        for at in range(0, 100, 4):
            names = [f"t{it}" for it in range(at, at + 4)]
            lines = ((f"a account {it}", f"a enrol {it} -") for it in names)
            self.book.answers(*(line for pair in lines for line in pair))
        accounts = self.book.accounts()
        for kind in "at":
            with self.subTest(kind=kind):
                records = [record for name, record in accounts.items() if name.startswith(kind)]
                salts = self.salts(records)
                self.assertEqual(len(salts), 100)
                # Of 256 values 100 draws hit 83 on average; fewer than 50 come once in 10^20 times.
                values = [len({salt[place] for salt in salts}) for place in range(16)]
                self.assertGreaterEqual(min(values), 50, values)

    def test_shows(self) -> None:
        """Costs have a record's scheme and numbers, and neither a salt nor a hash. In JSON each
        account is an object, with null for no record; null alone is no account."""
        self.assertEqual(self.book("list", "--costs"), DONE)
        old = RECORD.replace("$v=19", "")
        records = {"cat": SCRYPT, "ann": RECORD, "bob": "", "dan": OTHER, "eve": old}
        book, costs = self.begun(records), {
            "ann": "$argon2id$v=19$m=256,t=2,p=1",
            "bob": "",
            "cat": "$scrypt$ln=14,r=8,p=1",
            "dan": "$argon2i$v=19$m=256,t=2,p=1",
            "eve": "$argon2id$v=16$m=256,t=2,p=1",
        }
        self.assertEqual(book("list", "--costs"), Ended(0, lines_of(costs)))
        listed = book("list", "--json")
        objects = [{"name": name, "costs": it or None} for name, it in costs.items()]
        self.assertEqual([json.loads(line) for line in listed.written.splitlines()], objects)
        for name, cost, shown in zip(costs, costs.values(), objects):
            with self.subTest(name=name):
                record = records[name].replace("argon2id$m", "argon2id$v=16$m") or None
                for words, found in (([], cost), (["--record"], record)):
                    answer = Ended(0, f"{found}\n") if found else says("absent")
                    self.assertEqual(book("show", name, *words), answer)
                for words, value in (([], shown), (["--record"], {"name": name, "record": record})):
                    status, written, _ = book("show", "--json", name, *words)
                    self.assertEqual((status, json.loads(written)), (0 if cost else 4, value))
        self.assertEqual(book("show", "zoe"), says("noaccount"))
        self.assertEqual(book("show", "zoe", "--json"), Ended(4, "null\n"))

    def test_disabled_with_its_line(self) -> None:
        """`disable --show` writes the line that `import --update` puts back, and nothing else does
        without it. A line that can't be written leaves the record where it is."""
        before = {"ann": RECORD, "bob": OTHER, "cat": ""}
        self.begun(before)
        with open("/dev/full", "wb") as full:
            done = self.book("disable", "bob", "--show", stdout=full)
        self.assertEqual(done, fails(2, "writing failed"))
        self.assertEqual(self.book.accounts(), before)
        for name, answer in (("cat", "absent"), ("zoe", "noaccount")):
            with self.subTest(name=name):
                self.assertEqual(self.book("disable", name, "--show"), says(answer))
        line = f"bob:{OTHER}\n"
        self.assertEqual(self.book("disable", "bob", "--show"), Ended(0, line))
        self.assertEqual(self.book.accounts(), {**before, "bob": ""})
        self.assertEqual(self.book("import", "--update", given=line).status, 0)
        self.assertEqual(self.book.accounts(), before)
