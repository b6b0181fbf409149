"""Tests of `python3 -m rigzumal`: hash, verify and calibrate, also at a terminal."""

import os
import pathlib
import shlex
import sys
import tempfile
import unittest

from records import LEAST, SMALL

import rigzumal
from rigzumal._commands import hint, memory as memory_of
from tests.helpers import at_a_terminal, each, ended


COMMAND = [sys.executable, "-m", "rigzumal"]
LEAST_WORDS = "--memory 8K --passes 1 --lanes 1"
NO_MILLISECONDS = ("9.9", "0", "-5", "60001", "nan", "inf", "x", "1e9")


def run(words, given=""):
    """The status of a command, and its output on both streams."""
    return ended([*COMMAND, *(words.split() if isinstance(words, str) else words)], given)


def hashed(words="", given="secret"):
    status, record, fault = run(f"hash {words or LEAST_WORDS}", given)
    if status:
        raise AssertionError(fault)
    return record.strip()


class Shell(unittest.TestCase):
    def test_both_commands(self):
        record = hashed(given="secret\n")
        self.assertEqual(run(["verify", record], "secret\n"), (0, "yes\n", ""))
        self.assertEqual(run(["verify", record], "Secret\n"), (4, "no\n", ""))
        self.assertEqual(run(["verify", record], "secret")[:2], (4, "no\n"))
        status, out, fault = run(["verify", record + "$"], "secret")
        self.assertEqual((status, out), (1, ""))
        self.assertIn("1 shape", fault)

    @each(
        ("$2b$12$abcdefgh", "2b"),
        ("$pbkdf2-sha256$29000$abc", "pbkdf2-sha256"),
        ("pbkdf2_sha256$260000$abc", "pbkdf2_sha256"),
        ("argon2$argon2id$v=19", "argon2"),
        ("$argon2id$v=18$m=8,t=1,p=1$c29tZXNhbHQ$abcd", None),
        *((it, None) for it in ("$my hunter2$", "$hunter2!$", "$hunter2" + "x" * 20 + "$")),
        *((it, None) for it in ("hunter2$", "hunter2")),
    )
    def test_what_is_no_record_of_ours(self, text, name):
        """The message has the scheme's name if the text has one, and nothing else of the text."""
        status, out, fault = run(["verify", text], "secret")
        self.assertEqual((status, out), (1, ""))
        self.assertNotIn("hunter2", fault)
        self.assertEqual("record's scheme" in fault, name is not None, fault)
        self.assertIn(f"(the record's scheme is {name})" if name else "rigzumal: ", fault)

    @each(
        (b"one\n", b"one", "with a newline"),
        (b"one", b"one\n", "without the newline"),
        *((b"one", it, "without the carriage return") for it in (b"one\r", b"one\r\n")),
        (b"one", b"two\n", "None"),
    )
    def test_a_newline_that_was_meant_to_end_the_password(self, right, given, advice):
        self.assertIn(advice, str(hint(given, right.__eq__)))

    def test_a_hint_shows_no_password(self):
        status, out, fault = run(["verify", LEAST.hash("hunter2")], "hunter2\n")
        self.assertEqual((status, out, fault.count("\n")), (4, "no\n", 1))
        self.assertNotIn("hunter2", fault)

    @each(
        ("--memory 64K --passes 2 --lanes 3", "$argon2id$v=19$m=64,t=2,p=3$"),
        ("--memory 100K --passes 1 --lanes 5", "$argon2id$v=19$m=100,t=1,p=5$"),
        (" ", "$argon2id$v=19$m=65536,t=3,p=4$"),
        ("--scrypt", "$scrypt$ln=17,r=8,p=1$"),
        *((f"--scrypt --log2-n {it}", f"$scrypt$ln={it},r=8,p=1$") for it in (4, 11)),
    )
    def test_costs(self, given, costs):
        made = hashed(given)
        self.assertTrue(made.startswith(costs), made)

    @each("", "\n", "\r\n", "\n\n")
    def test_an_empty_password_is_asked_for(self, given):
        refusal = "rigzumal: the password is empty; --empty allows it\n"
        self.assertEqual(run(f"hash {LEAST_WORDS}", given), (6, "", refusal))
        record = hashed(f"--empty {LEAST_WORDS}", given)
        self.assertTrue(SMALL.verify(record, given))
        self.assertEqual(run(["verify", record], given)[:2], (0, "yes\n"))

    def at_a_terminal(self, words, *lines):
        """The status of the command, and the text on its terminal."""
        shown = at_a_terminal([*COMMAND, *words], lines)
        return shown.status, shown.text.decode()

    def test_at_a_terminal_the_password_is_unseen(self):
        making = f"hash {LEAST_WORDS}".split()
        status, shown = self.at_a_terminal(making, b"hunter2\n", b"hunter2\n")
        self.assertEqual(status, 0, shown)
        self.assertNotIn("hunter2", shown)
        self.assertTrue(shown.startswith("Password: |\r\nThe same again: |"), shown)
        record = shown.splitlines()[-1]
        self.assertTrue(SMALL.verify(record, "hunter2"))
        status, shown = self.at_a_terminal(["verify", record], b"hunter2\n")
        self.assertEqual((status, shown.splitlines()), (0, ["Password: |", "yes"]))
        for lines, text in (((b"hunter2\n", b"hunter3\n"), "differ"), ((b"\n", b"\n"), "--empty")):
            with self.subTest(lines=lines):
                status, shown = self.at_a_terminal(making, *lines)
                self.assertEqual((status, text in shown.splitlines()[-1]), (6, True), shown)

    def test_no_traceback(self):
        """No traceback comes at Ctrl-C, at the end of a terminal's input, or from streams that
        fail."""
        with tempfile.TemporaryDirectory() as room:
            accounts = ["accounts", "--database", f"sqlite:///{room}/a.db"]
            self.assertEqual(run([*accounts, "init"])[0], 0)
            for words in (["hash"], [*accounts, "check", "ann"]):
                for key, wanted in ((b"\x03", 130), (b"\x04", 6)):
                    with self.subTest(words=words, key=key):
                        status, shown = self.at_a_terminal(words, key)
                        self.assertEqual((status, "Traceback" in shown), (wanted, False), shown)
        status, _, fault = ended(["sh", "-c", f"{shlex.join(COMMAND)} hash <&-"])
        self.assertEqual((status, fault), (2, "rigzumal: standard input is closed\n"))
        making = [*COMMAND[1:], "hash", *LEAST_WORDS.split()]
        with open("/dev/full", "wb") as full:
            done = ended([sys.executable, *making], "x", stdout=full)
        self.assertEqual(done, (2, "", "rigzumal: No space left on device\n"))
        for words in (making, ["-u", *making]):  # a reader has ended, such as `head` behind a pipe
            reading, writing = os.pipe()
            os.close(reading)
            with self.subTest(words=words), open(writing, "wb") as gone:
                done = ended([sys.executable, *words], "x", stdout=gone)
                self.assertEqual(done, (2, "", ""))

    @each(
        ("hash hunter2", "a password is never an argument"),
        ("hunter2", "unknown word (choose from 'hash'"),
        ("accounts hunter2", "unknown word (choose from 'init'"),
        ("accounts --database= list", "no database: give --database URL"),
        ("hash --log2-n 10", "rigzumal: --log2-n is for scrypt: add --scrypt\n"),
        ("hash --scrypt --lanes 4", "rigzumal: --lanes is for Argon2: omit --scrypt\n"),
        ("hash --lanes 0", "rigzumal: 14 lanes: parallelism must be 1 to 255, not 0\n"),
        ("calibrate --lanes 0", "lanes"),
        ("calibrate --memory 4M --lanes 1", "--memory is below 19456 KiB; --below allows it\n"),
        ("calibrate --memory 4X", "--memory"),
        *((f"calibrate --target-ms {it}", "--target-ms") for it in NO_MILLISECONDS),
        *((f"calibrate --threads {it}", "--threads") for it in ("0", "-1", "x")),
    )
    def test_refused_words(self, words, text):
        """The error names each refused word, unless it may be a password; no run ends in a
        traceback."""
        status, out, fault = run(words, "secret")
        self.assertEqual((status, out), (1, ""))
        self.assertIn(text, fault)
        self.assertNotRegex(fault, "Traceback|hunter2")

    @each(("2G", 2097152), ("16", 16), ("16K", 16), ("16k", 16), ("1M", 1024))
    def test_sizes(self, text, memory):
        self.assertEqual(memory_of(text), memory)

    def test_the_version_is_the_headers(self):
        self.assertEqual(rigzumal.__version__, rigzumal.version())
        header = pathlib.Path(__file__).parents[3] / "c/include/rigzumal.h"
        line = f'#define RIGZUMAL_LIBRARY_VERSION "{rigzumal.version()}"'
        self.assertIn(line, header.read_text())
