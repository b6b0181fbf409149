"""The shell command: its arguments, answers and statuses, which are those of credkeep."""

import contextlib
import os
import pathlib
import re
import shlex
import sqlite3
import subprocess
import sys
from unittest import mock

import support
from support import LOW, RECORD, Commands, each
from rigzumal.accounts import cli
from rigzumal.accounts.database import Database
from tests.needs import need

LONG, SHELLS = "x" * 257, ("bash", "fish")


class Answers(Commands):
    has_table = False

    def test_answers_and_statuses(self):
        """Each command's answers and statuses; standard error has the reason of 1 to 3, 5 and 6."""
        one, two, bad = (
            pathlib.Path(self.file(line)).rename(f"{self.server.path}.{place}")
            for place, line in enumerate((f"bob {RECORD}", f"bob {LOW.hash('two')}", "cid garbage"))
        )
        costs = "argon2id v=19 m=64,t=1,p=1"
        self.assert_answers(
            ("list", "", 5),
            ("init", "", ""),
            ("init", "", 5),
            ("add ann", "one", "enrolled"),
            ("add ann", "two", "exists"),
            *(("add eve", it, 6) for it in ("", "\n", LONG)),
            ("reset ann", LONG, 6),
            ("change ann", f"one\n{LONG}", 6),
            (f"--numbers add {2**63}", "one", 1),
            (f"--numbers delete {2**63}", "", "no account"),
            *(("check ann", it, "no") for it in ("two", "one ")),
            ("check ann", "one\n", "yes"),
            ("check ann", "", 6),
            ("check eve", "one", "no account"),
            ("reset ann", "two", "replaced"),
            ("reset ann", "\n", 6),
            ("check ann", "two", "yes"),
            ("reset eve", "two", "no account"),
            ("change ann", "two\nthree\n", "replaced"),
            ("change ann", "two\nfour", "wrong"),
            *(("change ann", it, 6) for it in ("three", "three\n\n", "\nx", "a\nb\nc")),
            ("change eve", "two\nthree", "no account"),
            ("change ann", "three\ntwo", "replaced"),
            (f"import {one}", "", "1 added, 0 there already"),
            ("rename ann bob", "", "exists"),
            ("rename eve ben", "", "no account"),
            ("rename ann amy", "", "renamed"),
            ("check amy", "two", "yes"),
            ("disable amy", "", "disabled"),
            ("check amy", "two", "no record"),
            ("disable amy", "", "no record"),
            ("disable eve", "", "no account"),
            *(("delete amy", "", it) for it in ("deleted", "no account")),
            ("add ann", "two", "enrolled"),
        )
        said, error = self.streams("import", two, status=4)
        self.assertEqual(said, "0 added, 0 there already, 1 with another record, which stays\n")
        self.assertIn("bob", error)
        self.assert_answers(
            (f"import {bad}", "", 6),
            ("list", "", f"ann {costs}\nbob {costs}"),
            *((it, "", 1) for it in ("list hunter2", "lists", "--database  examine")),
            *((it, "one", 1) for it in ("--lanes 0 add eve", "add eve --log2-n 10")),
            ("add eve --scrypt", "one", 1),  # the costs in front are Argon2's
            ("--table none check ann", "two", 5),
            ("--database oracle://x examine", "", 1),
            ("--database sqlite:////nowhere/at/all.db examine", "", 5),
            ("examine", "", ""),
        )
        self.conn.execute("DROP TABLE accounts")
        self.conn.execute("CREATE TABLE accounts (name, record)")
        self.assertIn("error: ", self.run_command("examine", status=5))

    def test_a_file_that_is_mistyped(self):
        """A mistyped file isn't created; a file of `init` has the settings that SCALE.md
        requires."""
        path, typo = f"{self.server.path}.typo", ("--database", f"{self.server.url}.typo")
        said = self.run_command(*typo, "list", status=5)
        self.assertIn("typo: no such file; init creates one", said)
        self.assertFalse(os.path.exists(path))
        self.run_command(*typo, "init")
        with contextlib.closing(sqlite3.connect(path)) as conn:
            self.assertEqual(conn.execute("PRAGMA journal_mode").fetchone(), ("wal",))

    def test_an_own_table(self):
        self.conn.execute("CREATE TABLE people (id INTEGER PRIMARY KEY, pw TEXT)")
        self.conn.execute("INSERT INTO people VALUES (7, NULL)")
        names = "--table people --key id --record pw --numbers"
        self.assert_answers(
            (f"{names} examine", "one", ""),
            (f"{names} add 7", "one", "enrolled"),
            (f"{names} check 7", "one", "yes"),
            *((f"{names} rename {it}", "one", "renamed") for it in ("7 8", "8 7")),
            (f"{names.rpartition(' ')[0]} check 7", "one", "yes"),
        )
        ((record,),) = self.conn.execute("SELECT pw FROM people").fetchall()
        self.assertEqual(self.run_command(*names.split(), "export"), f"7 {record}\n")


class Words(Commands):
    def test_options_before_the_command_and_behind_it(self):
        for words in ("--numbers add 7", "add 7 --numbers", "add --numbers 7"):
            said = self.run_command(*words.split(), status=6)
            self.assertEqual(said, "rigzumal: no password: the input is empty\n")
        url = self.server.url
        with mock.patch.dict(os.environ, {"RIGZUMAL_DATABASE": ""}):
            listed = (f"list --database {url}", f"--database {url} list")
            self.assert_answers(("list", "", 1), *((it, "", "") for it in listed))
        self.assert_answers(("list --databas=hunter2 --tabel hunter3", "", 1))
        said = self.run_command("add", "--memroy", "hunter2", "ann", status=1)
        self.assertIn("is --memory meant?", said)
        self.assertNotIn("hunter", said)

    def test_the_manual_and_the_completions_name_each_command_and_option(self):
        top, shells = support.PACKAGE.parent, ("bash", "zsh", "fish")
        page = (top / "man/rigzumal.1").read_text().replace("\\-", "-")
        completed = [(top / f"completions/rigzumal/{it}").read_text() for it in shells]
        words = ["", "hash", "calibrate", "accounts"]
        for given in (*words, *(f"accounts {it}" for it in ("disable", "import", "report"))):
            command = [sys.executable, "-m", "rigzumal", *given.split(), "--help"]
            done = subprocess.run(command, capture_output=True, text=True)
            for option in set(re.findall(r"--([a-z][a-z0-9-]+)", done.stdout)) - {"help"}:
                with self.subTest(option=option):
                    self.assertTrue(option == "version" or f"--{option}" in page)
                    for text in completed:
                        self.assertRegex(text, rf"\b{option}\b")
        for command in ("hash", "verify", "calibrate", *cli._COMMANDS):
            self.assertRegex(page, rf'(?m)^\.IP "?\\fB{command}\\fP')
            for text in completed:
                self.assertRegex(text, rf"\b{command}\b")
        listed = re.search(r"commands=\((.*)\)", completed[shells.index("zsh")])
        self.assertEqual({*listed[1].split()}, {*cli._COMMANDS})

    @each(
        ("bash", "rigzumal ", "hash verify calibrate accounts --version"),
        ("fish", "rigzumal ", "hash verify calibrate accounts"),
        ("fish", "rigzumal --v", "--version"),
        ("fish", "rigzumal accounts check --pro", ""),
        *((it, "rigzumal hash --e", "--empty") for it in SHELLS),
        *((it, "rigzumal accounts re", "reset rename report") for it in SHELLS),
        *((it, "rigzumal accounts --database x re", "reset rename report") for it in SHELLS),
        *((it, "rigzumal accounts --json report --pro", "--prometheus") for it in SHELLS),
        *((it, "rigzumal accounts --table ", "") for it in SHELLS),
        ("bash", "rigzumal accounts check --secret ", ""),
    )
    def test_what_shells_complete(self, shell, line, offered):
        self.assertEqual(self.offered(shell, line), {*offered.split()})

    @each(*SHELLS)
    def test_each_command_is_completed(self, shell):
        for command in cli._COMMANDS:
            with self.subTest(command=command):
                offered = self.offered(shell, f"rigzumal accounts {command[:-1]}")
                self.assertIn(command, offered)

    def offered(self, shell, line):
        """The words that a shell offers at the end of a line."""
        need(shell)
        code = f"source {support.PACKAGE.parent}/completions/rigzumal/{shell}; "
        words = [*line.split(), *([""] if line.endswith(" ") else [])]
        if shell == "bash":
            code += f"compopt() {{ :; }}; COMP_WORDS=({' '.join(map(shlex.quote, words))}); "
            code += f"COMP_CWORD={len(words) - 1}; _rigzumal; printf '%s\n' ${{COMPREPLY[*]}}"
            command = ["bash", "--norc", "-c", code]
        else:
            command = ["fish", "-N", "-c", code + f"complete -C {shlex.quote(line)}"]
        done = subprocess.run(command, capture_output=True, text=True)
        self.assertEqual(done.stderr, "")
        return {it.partition("\t")[0] for it in done.stdout.splitlines()} - {""}


class Passwords(Commands):
    """The sources of passwords, and the form in which the command hashes them."""

    def test_one_form_of_a_password(self):
        apart, typed = "cafe\u0301", "caf\u00e9"
        self.assert_answers(
            ("add --opaque ann", apart, "enrolled"),
            ("check --opaque ann", typed, "yes"),
            ("check ann", typed, "yes"),
            ("reset --opaque ann", "one\ttwo", 6),
        )

    def test_a_pepper_in_a_file(self):
        for name, text in (("new", "new\n"), ("old", "old"), ("none", "")):
            pathlib.Path(f"{self.server.path}.{name}").write_text(text)
        secret = f"--secret {self.server.path}"
        self.assert_answers((f"add ann {secret}.old", "one", "enrolled"))
        self.assertTrue(LOW.replace(secret=b"old").verify(self.rows()["ann"], "one"))
        self.assert_answers(
            (f"check ann {secret}.new", "one", "no"),
            (f"check ann {secret}.new {secret}.old", "one", "yes"),
            ("check ann", "one", "no"),
            (f"check ann {secret}.none", "one", 1),
        )

    def test_a_passwords_end(self):
        """If the password would be right with another newline, the command prints so."""
        self.assert_answers(("add ann", "one\n", "enrolled"))
        for given, hints in (("one\n\n", 1), ("two\n", 0)):
            said, error = self.streams("check", "ann", given=given, status=4)
            self.assertEqual((said, len(error.splitlines())), ("no\n", hints))

    def test_a_terminal_is_asked(self):
        """At a terminal the command asks for a password, twice for a new one."""
        said = self.run_command("add", "ann", typed=("one", "two"), status=6)
        self.assertEqual(said, "rigzumal: the two passwords differ\n")
        self.assert_answers(
            ("add ann", ["one", "one"], "enrolled"),
            ("check ann", ["one"], "yes"),
            ("change ann", ["one", "two", "two"], "replaced"),
            ("change ann", ["two", "three", "four"], 6),
            ("check ann", ["two"], "yes"),
        )


class Faults(Commands):
    def test_the_first_line_of_a_drivers_text_alone(self):
        """The command prints only the first line of a driver's text: further lines may quote a
        row."""
        error = sqlite3.OperationalError("it failed\nDETAIL: (ann, $argon2id$x)")
        with mock.patch.object(Database, "connect", side_effect=error):
            said = self.run_command("--database", "mysql://x/y", "list", status=5)
        self.assertEqual(said, "rigzumal: OperationalError: it failed\n")

    @each("import nowhere", "--secret nowhere report")
    def test_a_file_that_is_missing(self, words):
        said = self.run_command(*words.split(), status=2)
        self.assertEqual(said, "rigzumal: nowhere: No such file or directory\n")

    @each(("list", 0), ("check eve", 4), ("add ann", 6), ("--table nowhere list", 5))
    def test_its_connection_is_closed(self, words, status):
        """The command closes its connection, however the command ends."""
        made, connect = [], Database.connect
        given = "x" * 257 if status == 6 else "x"  # too long, or a password

        def noted(database):
            made.append(connect(database))
            return made[-1]

        with mock.patch.object(Database, "connect", noted):
            self.streams(*words.split(), given=given, status=status)
        self.assertEqual(len(made), 1)
        self.assertRaises(sqlite3.ProgrammingError, made[0].execute, "SELECT 1")

    def test_a_name_that_the_table_keeps(self):
        """If something else refuses the new name, the message doesn't claim that the name
        exists."""
        self.insert({"ann": RECORD})
        self.conn.execute(
            "CREATE TRIGGER tr BEFORE UPDATE OF name ON accounts"
            " BEGIN SELECT RAISE(ABORT, 'a bill has this name'); END"
        )
        said = self.run_command("rename", "ann", "amy", status=5)
        self.assertEqual(said, "rigzumal: IntegrityError: a bill has this name\n")
        self.assert_answers(("check ann", "one", "yes"))

    def test_an_addition_is_whole(self):
        """An addition that can't write the record adds no account."""
        trigger = "CREATE TRIGGER tr BEFORE UPDATE ON accounts BEGIN SELECT RAISE(IGNORE); END"
        self.conn.execute(trigger)
        self.insert({"ben": None})
        self.assert_answers(("add ben", "one", 5))
        self.conn.execute("DROP TRIGGER tr")
        self.assert_answers(("add ben", "one", "enrolled"))
        self.conn.execute(
            "CREATE TRIGGER tr AFTER INSERT ON accounts BEGIN"
            " UPDATE accounts SET record = upper(record) WHERE name = NEW.name; END"
        )
        self.assert_answers(("add ann", "one", "enrolled"), ("check ann", "one", "yes"))

    def test_names_that_write_to_the_terminal(self):
        self.insert(dict.fromkeys(("\x1b[2Jann", "ben\nroot no record", "\u00e9ve")))
        said = self.run_command("list")
        self.assertEqual(len(said.splitlines()), 3)
        self.assertNotIn("\x1b", said)
        self.assertIn("\u00e9ve no record", said)
