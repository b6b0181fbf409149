"""Tests of `bin/credkeep-ask --server`: its commands, its prompts and output, and its status. The
server has the tests' own book."""

import pathlib
import re
import shlex
import subprocess
from collections.abc import Sequence

from served import Case, need_module
from test_ask import ASK, Typed
from tests.helpers import TOP, Peer, at_a_terminal, each, ended
from tests.hostile_fields import NAMES, PASSWORDS, text_of

# What is typed at the terminal, and what comes: an answer, with its status.
ASKED = """
add ada | secret secret | enrolled 0
add ada | | exists 4
check ada | secret | yes 0
check ada | guess | no 4
check zoe | | noaccount 4
reset ada | fresh fresh | replaced 0
reset zoe | | noaccount 4
check ada | fresh | yes 0
check ada | secret | no 4
show zoe | | noaccount 4
show ada | | $fast$c=1 0
rename ada bob | | renamed 0
rename zoe cid | | noaccount 4
add cid | word word | enrolled 0
rename bob cid | | exists 4
list | | bob cid 0
disable bob | | disabled 0
disable bob | | absent 4
show bob | | absent 4
check bob | | absent 4
reset bob | secret secret | enrolled 0
lock bob | | locked 0
lock zoe | | noaccount 4
check bob | | locked 4
add bob | secret secret | exists 4
show bob | | !$fast$c=1 0
marks | | bob:locked 0
marks bob | | bob:locked 0
marks cid | | 0
marks zoe | | noaccount 4
unlock bob | | unlocked 0
unlock bob | | none 4
expire bob | | expired 0
check bob | guess | no 4
check bob | secret | expired 4
add bob | | exists 4
show bob | | ~$fast$c=1 0
lock bob | | locked 0
marks | | bob:expired bob:locked 0
show bob | | !~$fast$c=1 0
disable bob | | disabled 0
show bob | | absent 4
check bob | | locked 4
marks | | bob:locked 0
unlock bob | | unlocked 0
forgive bob | | forgiven 0
forgive zoe | | noaccount 4
last cid | | none 4
waits | | 0
delete cid | | deleted 0
delete cid | | noaccount 4
add cid | a b | the two new passwords differ 6
list | | bob 0
"""
# Impossible words, which are refused before any question.
MISTAKES = {
    "": "no such command",
    "add": "add takes 1 name",
    "add ada bob": "add takes 1 name",
    "rename ada": "rename takes 2 names",
    "list ada": "list takes no names",
    "marks ada bob": "marks takes a name or none",
    "locks": "no such command",
    "frob ada": "no such command",
    "add 'a b'": "a name has no spaces",
    "add ''": "a name has no spaces",
    "add 'a\nb delete'": "a name has no spaces",
    "list": "/run/rigzumal/users/admin.sock: No such file or directory",
    "users list": "/run/rigzumal/users/admin.sock: No such file or directory",
    "users": "no such command",
    "/nonexistent list": "No such file or directory",
    "nosuchbook list": "/run/rigzumal/nosuchbook/admin.sock: No such file or directory",
}


class AskServer(Case):
    """Tests over the tests' own book and the real server."""

    def asked(self, words: Sequence[str], typed: Typed = ()) -> tuple[str, int]:
        shown = at_a_terminal([str(ASK), "--server", *words], typed)
        self.assertTrue(shown.echoes[-1], "it echoes again")
        self.assertFalse(any(shown.echoes[:-1]), "it echoes what is typed")
        answer = re.sub(rb"[A-Z][a-z ]*: \|\r\n", b"", shown.text).decode()
        return " ".join(answer.split()), shown.status

    def test_answers(self) -> None:
        """Each command, with its prompts for passwords, and its output."""
        service = self.serving()
        for row in ASKED.strip().splitlines():
            words, typed, answer = (it.strip() for it in row.split("|"))
            lines = [f"{it}\n".encode() for it in typed.split()]
            said, status = self.asked([str(service.path("admin")), *words.split()], lines)
            self.assertEqual(
                f"{said} {status}".strip(), answer.replace("the", "credkeep-ask: the", 1), row
            )
        said, status = self.asked([str(service.path("admin")), "stats"])
        self.assertRegex(said, r"^yes=3 no=3 .*changes=\d+ .*book=\S+$")
        said, status = self.asked([str(service.path("login")), "list"])
        self.assertEqual((status, "doesn't allow list" in said), (1, True))

    def test_marks_of_who_waits(self) -> None:
        """`marks NAME` also prints a wait, even of a user whom the book lacks."""
        need_module("passlib.hash")
        old = self.room() / "htpasswd"
        old.write_text("eve:{SHA}5en6G6MezRroT3XKqkdPOmY/BfQ=\n")
        service = self.serving("--tries", "1", "--foreign", str(old), clocked=True)
        admin = str(service.path("admin"))
        service.enrol(ada="secret", bob="secret").talk("admin lock ada -> locked")
        for name in ("ada", "eve"):
            service.talk(f"login verify {name} {{wrong}} -> no\nlogin verify {name} - -> later")
        for name, said, status in (
            ("ada", "ada:locked ada:later:1", 0),
            ("bob", "", 0),
            ("eve", "eve:later:1", 0),
            ("zoe", "noaccount", 4),
        ):
            self.assertEqual(self.asked([admin, "marks", name]), (said, status))
        self.assertEqual(self.asked([admin, "marks"]), ("ada:locked", 0))

    def test_record(self) -> None:
        """A record that is shown can be put back, also as a line of a book's export."""
        service = self.serving().enrol(ada="secret")
        admin = str(service.path("admin"))
        record, _ = self.asked([admin, "show", "--record", "ada"])
        self.assertEqual(record, service.client("admin").ask("show ada"))
        for text in (record, f"ada:{record}"):
            service.talk("admin disable ada -> disabled")
            words = [str(ASK), "--server", admin, "load", "ada"]
            self.assertEqual(ended(words, f"{text}\n"), (0, "ok\n", ""))
            service.talk("login verify ada {secret} -> yes")
        none = [b"", b"\n", b"secret\n", b"bob:$x\n", b"$x y\n", b"$x\xff\n", b"$" + b"x" * 1100]
        for given in none:
            done = subprocess.run(words, input=given, capture_output=True)
            self.assertEqual((done.returncode, done.stdout), (6, b""))
            self.assertEqual(done.stderr, b"credkeep-ask: standard input has no record\n")

    def test_failed_tries(self) -> None:
        """`check` is too early for a right password too, until the name is forgiven."""
        service = self.serving("--tries", "1", clocked=True).enrol(ada="secret")
        service.client().talk("verify ada {wrong} -> no")
        for words, typed, ought in (
            (["check", "ada"], [b"secret\n"], ("later", 4)),
            (["waits"], [], ("ada:1", 0)),
            (["forgive", "ada"], [], ("forgiven", 0)),
            (["check", "ada"], [b"secret\n"], ("yes", 0)),
        ):
            self.assertEqual(self.asked([str(service.path("admin")), *words], typed), ought)

    def test_many_names(self) -> None:
        """A list has all names once, whatever its parts are."""
        service, names = self.serving(), sorted(f"n{it}" for it in range(2300))
        admin = service.client("admin")
        admin.send("".join(f"a account {it}\n" for it in names))
        admin.lines(len(names))
        self.assertEqual(self.asked([str(service.path("admin")), "list"]), (" ".join(names), 0))

    def check(self, path: pathlib.Path, name: bytes, *typed: bytes) -> tuple[str, int]:
        """The answer of `check` to a name, and the status."""
        return self.asked([str(path), "check", text_of(name)], [it + b"\n" for it in typed])

    def test_hostile_fields(self) -> None:
        """A hostile name is refused before a password is asked for, and a hostile password is wrong
        or refused. No program's word has a NUL byte, and no line at a terminal a line end."""
        with self.tapped() as path:
            for what, name in NAMES.items():
                if b"\0" not in name:
                    with self.subTest(name=what):
                        said, status = self.check(path, name)
                        refused = "^credkeep-ask: (a name has|the server refused known: name)"
                        self.assertRegex(said, refused)
                        self.assertEqual(status, 1)
                        self.assertEqual(self.check(path, b"ada", b"secret"), ("yes", 0))
            for what, password in PASSWORDS.items():
                if not {*b"\r\n"} & {*password}:
                    with self.subTest(password=what):
                        is_possible = 0 < len(password) <= 256
                        said, status = self.check(path, b"ada", password)
                        self.assertEqual(status, 4 if is_possible else 6, said)
                        self.assertRegex(said, "^no$" if is_possible else "the password (is|has)")
                        self.assertEqual(self.check(path, b"ada", b"secret"), ("yes", 0))

    def test_hostile_names_of_an_administrator(self) -> None:
        """No command accepts a hostile name."""
        service = self.serving().enrol(ada="secret")
        admin, record = str(service.path("admin")), service.client("admin").ask("show ada")
        names = {what: text_of(it) for what, it in NAMES.items() if b"\0" not in it}
        for what, name in names.items():
            for words in (("add", name), ("delete", name), ("rename", "ada", name)):
                with self.subTest(what, command=words[0]):
                    status, said, faults = ended([str(ASK), "--server", admin, *words])
                    self.assertEqual((status, said), (1, ""))
                    refused = r"^credkeep-ask: (a name has|the server refused \w+: name)"
                    self.assertRegex(faults, refused)
        service.client("admin").talk("list - 9 -> names ada")
        self.assertEqual(service.client("admin").ask("show ada"), record)

    @each(*MISTAKES.items())
    def test_mistakes(self, words: str, said: str) -> None:
        """Impossible words, and an unreachable server, are refused before any prompt for a
        password."""
        shown, status = self.asked(shlex.split(words))
        self.assertIn(said, shown)
        self.assertEqual(status, 5 if "No such file" in said else 1)

    def test_help(self) -> None:
        """The help has a line for each command, and the manual has each command."""
        page = (TOP / "man/credkeep-ask.1").read_text()
        for words in ([], ["--help"], ["-h"], ["--server", "--help"], ["--server", "add", "-h"]):
            status, said, faults = ended([str(ASK), *words])
            self.assertEqual((status, faults), (0, ""))
        commands = re.findall(r"^  ([a-z]+) ", said, re.M)
        self.assertEqual(len(commands), 20, commands)
        for command in commands:
            self.assertRegex(page, rf"(?m)^\.IP .*\\fB{command}\\fP", "the page lacks it")

    @each(
        (b"", (), "", 6, "is empty"),
        (b"x" * 257, (), "", 6, "has over 256 bytes"),
        (b"secret", ("--least-length", "8"), "", 6, "the new password is too short"),
        (b"secret", (), "refuses=enrol", 3, "refused enrol: memory (4;"),
    )
    def test_refused_passwords(
        self, password: bytes, options: tuple[str, ...], faults: str, status: int, said: str
    ) -> None:
        """An `add` with a refused password adds no account."""
        admin = str(self.serving(*options, faults=faults).path("admin"))
        shown, ended_by = self.asked([admin, "add", "ada"], [password + b"\n"] * 2)
        self.assertEqual((ended_by, said in shown), (status, True), shown)
        self.assertEqual(self.asked([admin, "list"]), ("", 0))

    def test_a_closed_pipe(self) -> None:
        """Names that read as refusals are names, and a message reports an answer that can't be
        written."""
        service = self.serving()
        service.talk("admin account no -> ok")
        words = [str(ASK), "--server", str(service.path("admin")), "list"]
        self.assertEqual(ended(words), (0, "no\n", ""))
        with open("/dev/full", "w") as full:
            done = ended(words, stdout=full)
        said = "credkeep-ask: the answer arrived, but writing the output failed\n"
        self.assertEqual(done, (2, "", said))

    @each(b"", b"1 del", b"2 deleted\n", b"* unavailable\n", b"1 unavailable\n")
    def test_a_server_that_ends(self, said: bytes) -> None:
        """After a lost answer the error says what the administrator has to do."""
        path = self.room() / "odd"
        with Peer(path, lambda _, client: client.sendall(said)):
            shown, status = self.asked([str(path), "delete", "ada"])
        self.assertEqual((status, "may or may not be stored" in shown), (5, True))
