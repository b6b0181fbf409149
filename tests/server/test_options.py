"""Tests of bin/credkeep-server: its messages about wrong options, and the options that it passes to
the book."""

import contextlib
import os
import pathlib
import re
import shlex
import signal

from served import FAST_BOOK, TOP, Case, Service, ran, until

from daemon.options import parse
from tests.needs import lacks_module

# In place of credkeep: notes its words, and ends. It has the options of this version, or lacks one.
NOTES = """#!/bin/sh
case "$*" in *" serve --help") echo " --tries N"; exit;; esac
printf "%s\\n" "$@" > "$NOTED"
exit 3
"""
OLDER = NOTES.replace("--tries", "--at-once")
# A socket's words except its operations, and the messages for impossible words.
SOCKET = "--socket a /tmp/never-made 0660 -"
MISTAKES = {
    "": "FILE is missing",
    "--frob x.db": "unrecognized arguments: --frob",
    "--port 80 x.db": "unrecognized arguments: --port",
    "--at-once -3 x.db": "'-3' is not a number",
    "--at-once=-3 x.db": "'-3' is not a number",
    "--idle=-1 x.db": "'-1' is not a number",
    "--tries ten x.db": "'ten' is not a number",
    "--tries 87 x.db": "'87' is not a number from 0 to 86",
    "--uid-tries 4 x.db": "unrecognized arguments: --uid-tries",
    "--wait 3601 x.db": "'3601' is not a number from 0 to 3600",
    "--at-once 255 x.db": "'255' is not a number from 0 to 254",
    "--upgrade $argon2id$v=19$m=8,t=1,p=1$c29tZXNhbHQ x.db": "without a salt",
    "--upgrade $argon2id$v=19$m=8,t=1,p=1$ x.db": "without a salt",
    "--socket a /tmp/never-made rw - verify x.db": "the mode of the socket a is octal",
    "--socket a /tmp/never-made 0o4777 - verify x.db": "the mode of the socket a is octal",
    "--socket a /tmp/never-made 4777 - verify x.db": "the mode of the socket a is octal",
    f"{SOCKET} verfy x.db": "'verfy' isn't an operation",
    f"{SOCKET} 'verify, known' x.db": "' known' isn't an operation",
    f"{SOCKET} '' x.db": "'' isn't an operation",
    f"{SOCKET} verify {SOCKET} verify x.db": "two sockets have the name a",
    f"{SOCKET} verify --socket b /tmp/never-made 0660 - verify x.db": "the name /tmp/never-made",
    "--socket a /tmp/never-made 0660 nosuchgroup verify x.db": "the group nosuchgroup of",
    "--socket a /none/at/s 0660 - verify x.db": "/none/at: No such file or directory",
    f"--socket a /tmp/{'x' * 110} 0660 - verify x.db": "up to 107 bytes",
    f"{SOCKET} verify --audit /none/audit x.db": "/none/audit: No such file or directory",
    f"{SOCKET} verify --credkeep /none/credkeep x.db": "/none/credkeep: No such file",
}
for word in ("127.0.0.1:8080", "8080", ":80", "0.0.0.0:80", "localhost:80", "[::1]:80", "x.sock"):
    said = f"--http needs the path of a Unix socket, not a port: '{word}'"
    MISTAKES[f"--http {word} x.db"] = said


def has_book(service: Service) -> bool:
    """Whether the server's book has begun."""
    with contextlib.suppress(OSError, IndexError):
        return service.book_pid() > 0
    return False


class Mistakes(Case):
    def test_options(self) -> None:
        """Options that can't be meant are refused before anything starts, in a user's words, with
        status 1."""
        for words, said in MISTAKES.items():
            if "--http" in words and lacks_module("h11"):
                said = "an option needs the missing package python3-h11"
            status, text, faults = ran(*shlex.split(words))
            self.assertEqual((status, text), (1, ""), f"{words}: {faults}")
            self.assertTrue(faults.startswith("credkeep-server: "), faults)
            self.assertIn(said, faults, words)
            self.assertEqual(len(faults.splitlines()), 1, faults)
            self.assertFalse(pathlib.Path("/tmp/never-made").exists(), words)
        pathlib.Path("/tmp/never-made.lock").unlink()

    def test_help(self) -> None:
        """--help has a text for each option, within 100 columns, and --version the library's
        version."""
        status, text, faults = ran("--help")
        self.assertEqual((status, faults), (0, ""))
        page = (TOP / "man/credkeep-server.8").read_text().replace("\\-", "-")
        options = set(re.findall(r"^  (--[a-z-]+)", text, re.M))
        self.assertTrue(len(options) >= 16, text)
        for option in options:
            self.assertRegex(text, rf"(?s){option}[A-Z ]*\s{{2,}}[a-z]", "it has no text")
            self.assertIn(option, page)
        self.assertTrue(max(map(len, text.splitlines())) <= 100)
        version = (TOP / "VERSION").read_text().strip()
        self.assertEqual(ran("--version"), (0, f"credkeep-server {version}\n", ""))

    def test_packages_that_are_lacking(self) -> None:
        """An option that needs another package of Debian's names it, and nothing starts."""
        room = self.room()
        for module, option in (("passlib", "--foreign"), ("h11", "--http")):
            (room / f"{module}.py").write_text(f"raise ImportError(name={module!r})")
            given = {"environment": {"PYTHONPATH": str(room)}, "waits": False, "folder": room}
            (room / "old").touch()
            said = f"credkeep-server: an option needs the missing package python3-{module}\n"
            self.assertEqual(self.serving(option, f"{room}/old", **given).ended(), (1, said))

    def test_a_second_server(self) -> None:
        """While the first one's book is still opening, a second one neither takes its sockets nor
        waits."""
        folder = self.room()
        first = self.serving(folder=folder, faults="opens=3", waits=False)
        until(lambda: has_book(first), "the first begins")
        os.kill(first.book_pid(), signal.SIGSTOP)
        path = f"{folder}/login.sock"
        words = ["--credkeep", str(FAST_BOOK), "--socket", "login", path, "0660", "-", "all"]
        said = f"credkeep-server: another server uses {path}\n"
        self.assertEqual(ran(*words, f"{folder}/u.db"), (1, "", said))
        self.assertNotIn("start:", first.log())
        self.assertFalse(first.path().exists(), "the socket is there before the book answers")
        os.kill(first.book_pid(), signal.SIGCONT)
        until(lambda: "start:" in first.log(), "the first starts")
        first.client().talk("known ada -> noaccount")

    def test_words_of_the_book(self) -> None:
        """The book gets each option of the command line, and no other but a place more; new costs
        go before the setting.

        This one ends at once: no client is let in, and the status says so."""
        room, own = self.room(), len(os.sched_getaffinity(0)) + 1
        book, noted = room / "credkeep", room / "noted"
        limits = "--memory 1G --most-memory 2G --most-work 400000"
        book.write_text(NOTES)
        book.chmod(0o755)
        (room / "users.db").touch()
        usual = "--tries 10 --most-memory 1048576 --most-work 3145728"
        for options, wait, at_once, handed in (
            ("", 30, own, usual),
            ("--wait 7 --at-once 3", 7, 4, usual),
            ("--at-once 254", 30, 255, usual),
            (f"{limits} --tries 86", 30, own, f"--tries 86 {limits}"),
            ("--memory 64M", 30, own, usual.replace("10 ", "10 --memory 64M ")),
            ("--memory none", 30, own, usual.replace("10 ", "10 --memory none ")),
            ("--setting $one", 30, own, "--tries 10 --setting $one"),
            ("--upgrade $two$c=2", 30, own, "--tries 10 --setting $two$c=2"),
            ("--upgrade $two$c=2 --setting $one", 30, own, "--tries 10 --setting $two$c=2"),
            ("--tries 0 --setting $one", 30, own, "--setting $one"),
            ("--idle 5 --mail-names --fold-local-part", 30, own, usual),
        ):
            given = {"program": book, "folder": room, "environment": {"NOTED": str(noted)}}
            status, log = self.serving(*options.split(), waits=False, **given).ended()
            self.assertEqual(status, 3, log)
            self.assertNotRegex(log, "start:|Traceback")
            ought = f"--wait {wait} {room}/users.db serve --tagged --at-once {at_once} {handed}"
            self.assertEqual(noted.read_text().splitlines(), ought.split(), options)
            noted.unlink()

    def test_an_older_credkeep(self) -> None:
        """A credkeep without --tries is refused, with a message, before it opens the file."""
        room = self.room()
        book, noted = room / "credkeep", room / "noted"
        book.write_text(OLDER)
        book.chmod(0o755)
        for options in ((), ("--tries", "0")):
            given = {"program": book, "folder": room, "environment": {"NOTED": str(noted)}}
            said = f"credkeep-server: {book} is older than this server: it has no --tries\n"
            (room / "users.db").touch()
            self.assertEqual(self.serving(*options, waits=False, **given).ended(), (1, said))
            self.assertFalse(noted.exists())

    def test_bounds(self) -> None:
        """A line's record may need sixteen times the memory and the work of new ones, or as much as
        an option allows.

        Memory and work are those of ERRORS.md: m KiB, and m t; 128 r p 2^ln bytes, and twice that.
        """
        for options, memory, work in (
            ("", 16 * 65536, 16 * 65536 * 3),
            ("--setting $argon2id$v=19$m=65536,t=3,p=4", 16 * 65536, 16 * 65536 * 3),
            ("--setting $argon2id$v=19$m=19456,t=2,p=1", 16 * 19456, 16 * 19456 * 2),
            ("--setting $argon2i$v=19$m=8,t=1,p=1$c29tZXNhbHQ", 16 * 8, 16 * 8),
            ("--setting $argon2d$v=19$m=2097152,t=1,p=255", 16 * 2097152, 16 * 2097152),
            ("--setting $argon2id$v=19$m=2097152,t=200,p=1", 16 * 2097152, "6400G"),
            ("--setting $scrypt$ln=17,r=8,p=1", 16 * 128 * 1024, 16 * 256 * 1024),
            ("--setting $scrypt$ln=14,r=8,p=5", 16 * 80 * 1024, 16 * 160 * 1024),
            ("--setting $scrypt$ln=1,r=1,p=1$c29tZXNhbHQ", 16, 32),
            ("--setting $scrypt$ln=2,r=3,p=1", 16 * 2, 16 * 4),  # of 1.5 KiB
            ("--upgrade $argon2id$v=19$m=128,t=5,p=1", 16 * 128, 16 * 128 * 5),
            ("--upgrade $scrypt$ln=10,r=8,p=1 --setting $argon2id$v=19$m=8,t=1,p=1", 16384, 32768),
            ("--most-memory 2G", "2G", 16 * 65536 * 3),
            ("--most-work 17", 16 * 65536, 17),
            ("--setting $argon2id$v=19$m=64,t=1,p=1 --most-memory 1M --most-work 3M", "1M", "3M"),
        ):
            with self.subTest(options):
                words = [str(it) for it in parse([*options.split(), "users.db"]).book_words()]
                bounds = dict(zip(words, words[1:]))
                self.assertEqual(bounds["--most-memory"], str(memory))
                self.assertEqual(bounds["--most-work"], str(work))
