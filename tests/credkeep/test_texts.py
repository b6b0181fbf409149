"""Words and faults: the message on each stream, and the status."""

import os
import re

from tests.credkeep.books import CHEAP, SALT, BookTest, fails
from tests.helpers import ended, manual, options_in, program

# Words of the command line that are refused.
WORDS = [
    "",
    "frob",
    "add",
    "add Ann",
    "add ann bob",
    "disable",
    "delete Ann",
    "delete ann bob",
    "rename ann",
    "rename ann Bob",
    f"disable ann --setting {CHEAP}",
    "list ann",
    f"check ann --setting {CHEAP}",
    "list --most-memory 64",
    "list --most-work 64",
    "run",
    "serve",
    "serve --workers 2",
    "serve --tagged --workers 2",
    "add ann --setting $argon2id$v=16$m=8,t=1,p=1",
    "backup",
    "serve --tagged --setting $argon2id$v=16$m=8,t=1,p=1",
]

# A bad name, and what is wrong with it.
NAMES = [
    ("Ada", "has a capital letter"),
    ("a@b.org", "has '@'"),
    ("ann\r", "has a carriage return"),
    ("", "has 0"),
    ("a" * 33, "has 33"),
    ("a b", "has ' '"),
    ("\u00e4", "has a letter that isn't ASCII"),
    ("a\tb", "has the byte 9"),
]

# A bad setting, and how its fault ends.
SETTINGS = [
    ("sha1", "in single quotes (1 shape)"),
    ("$2b$12$x$y", "(2 scheme)"),
    (f"$argon2id$v=16$m=8,t=1,p=1${SALT}", "(3 version)"),
    (f"$argon2id$v=19$m=64M,t=1,p=1${SALT}", "(4 params)"),
    *(
        (f"$argon2id$v=19${costs}${SALT}", f"{why} (5 range)")
        for costs, why in (
            ("m=7,t=1,p=1", "m=7 is under 8 p (8 KiB)"),
            ("m=2097153,t=1,p=1", "m=2097153 is over 2097152 (KiB)"),
            ("m=8,t=0,p=1", "t=0 is not from 1 to 4294967295"),
            ("m=8,t=1,p=0", "p=0 is not from 1 to 255"),
        )
    ),
    *(
        (f"$scrypt${costs}${SALT}", f"{why} (5 range)")
        for costs, why in (
            ("ln=0,r=8,p=1", "ln=0 is under 1"),
            ("ln=16,r=1,p=1", "ln=16 is not under 16 r (16)"),
            ("ln=22,r=8,p=1", "ln=22: r times 2^ln is over 16777216"),
            ("ln=4,r=256,p=1", "r=256 is not from 1 to 255"),
            ("ln=4,r=8,p=0", "p=0 is not from 1 to 255"),
        )
    ),
    ("$argon2id$v=19$m=8,t=1,p=1$c29t-ZXNhbHQ", "(6 salt)"),
]

# What hashes may take together, costs that take more, and how many KiB those are.
CROWDED = [
    ("65535", "", 65536),
    ("0", "", 65536),
    ("7", f" --setting {CHEAP}", 8),
    ("1M", " --setting $scrypt$ln=10,r=9,p=4", 1152),
]
MEMORY = "--memory: a hash under --setting needs more:"

# A slip in the words behind the file, or before it, and what is named of it.
UNNAMED = "a word or an option too many, which isn't shown: it may be a password"
NEAR = "an unknown option, which isn't shown;"
SLIPS = [
    ("list --wait 5", "list: write --wait before FILE"),
    ("list --wait=5", "list: write --wait before FILE"),
    ("list --waitt 5", f"list: {NEAR} --wait is similar"),
    ("list --cost", f"list: {NEAR} --costs is similar"),
    ("serve --most-memroy=5", f"serve: {NEAR} --most-memory is similar"),
    ("serve --most-wrok 5", f"serve: {NEAR} --most-work is similar"),
    ("add ann --memory 256", "add: it has no option --memory"),
    ("list --quiet --setting x", "list: it has no option --setting"),
    ("check ann secret", f"check: {UNNAMED}\nA password is read from standard input."),
    ("check ann --secret", f"check: {UNNAMED}\nA password is read from standard input."),
    *(
        (
            f"{it} passwd.txt",
            f"{it}: {UNNAMED}\nThe input is read from standard input: write < INPUT",
        )
        for it in ("import", "serve")
    ),
]
EARLY = [
    (["--waitt", "5"], f"list: {NEAR} --wait is similar"),
    (["--costs"], "list: write --costs behind list"),
    (["--update"], "list: it has no option --update"),
]

# An option of numbers, with the least and the most.
NUMBERS = [("serve --tagged --at-once", 1, 255), ("serve --tagged --tries", 1, 86)]
# Options of sizes, and what isn't one.
SIZES = [f"{it} --most-" for it in ("serve --tagged", "import")]
SIZES = ["serve --tagged --memory", *(f"{it}{end}" for it in SIZES for end in ("memory", "work"))]
NO_SIZES = ("", "x", "64k", "-1", "1T", "1.5M")
SIZE = "a size is a number of KiB, or one with K, M or G behind it"

RULE = "a name has 1 to 32 of a-z, 0-9, '.', '_', '-'; this"
# Words that are refused, and the form of what is told: what was wrong, why, and the number and the
# word to look it up by.
REFUSED = [
    *((words.split(), "(?s:.+)") for words in WORDS),
    *((["add", name], re.escape(f"credkeep: {RULE} {why} (3 name)")) for name, why in NAMES),
    *((["add", "a", "--setting", it], f"credkeep: .*{re.escape(why)}") for it, why in SETTINGS),
    *(
        (
            [*words.split(), str(it)],
            f"credkeep: {words.split()[-1]}: give a number from {low} to {high}",
        )
        for words, low, high in NUMBERS
        for it in (-1, *range(low), high + 1, "forever")
    ),
    *(
        ([*f"{it}={size}".split(" ")], f"credkeep: {it.split()[-1]}: {SIZE}")
        for it in SIZES
        for size in NO_SIZES
    ),
    (
        ["import", "--update", "--skip-existing"],
        "credkeep: --skip-existing and --update exclude each other: .*",
    ),
    (
        ["import", "--keep-locked", "--disable-locked"],
        "credkeep: --disable-locked and --keep-locked exclude each other: .*",
    ),
    *(
        (
            f"serve --tagged --memory {memory}{setting}".split(),
            re.escape(f"credkeep: {MEMORY} {needed} KiB (4 memory)"),
        )
        for memory, setting, needed in CROWDED
    ),
]


class WordsTest(BookTest):
    def test_help_and_version(self) -> None:
        book = self.file("none.db")
        for words, text in (
            ("--help", "Keeps "),
            ("add --help", "Gives "),
            ("--version", r"credkeep \d+\.\d+\.\d+\n"),
        ):
            with self.subTest(words=words):
                done = book(*words.split())
                self.assertEqual((done.status, done.faults), (0, ""))
                self.assertRegex(done.written, rf"\A{text}")
        for word in ("help", "version"):
            with self.subTest(word=word):
                both = [ended([program("credkeep"), it]) for it in (word, f"--{word}")]
                self.assertEqual(both[0], both[1])
        self.assertFalse(book.path.exists())

    def test_width_of_help(self) -> None:
        """No line of any command's help has over 80 columns."""
        for words in ([], *([it] for it in self.commands())):
            for option in ("-h", "--help"):
                with self.subTest(words=words, option=option):
                    lines = self.book(*words, option).written.splitlines()
                    self.assertGreater(len(lines), 5)
                    self.assertEqual([it for it in lines if len(it) > 80], [])

    def commands(self) -> list[str]:
        """The commands that the help names."""
        helped = self.book("--help").written.split("Commands:\n")[1].split("\n\n")[0]
        return re.findall(r"^  (\w+)", helped, re.MULTILINE)

    def test_words_are_not_repeated(self) -> None:
        """A password that was typed as a word is in no text."""
        secret = "--Rare@Secret1"
        for word in (secret, secret.strip("-"), f"--password={secret}"):
            for words in ([], ["check"], ["check", "ann"], ["add", "ann"], ["list"], ["frob"]):
                with self.subTest(word=word, words=words):
                    done = self.book(*words, word)
                    self.assertFails(done, 1)
                    self.assertNotIn("Secret", done.faults)

    def test_slips(self) -> None:
        """The message for a refused word names the option that was meant, and never the word."""
        command = program("credkeep")
        told = [(self.book.command(*words.split()), text) for words, text in SLIPS]
        early = [([command, *words, "u.db", "list"], text) for words, text in EARLY]
        for words, text in [*told, *early]:
            with self.subTest(words=words[1:]):
                done = ended(words)
                self.assertFails(done, 1)
                head = done.faults.split("\n\nUsage: credkeep ")[0]
                self.assertEqual(head, f"credkeep: {text}")

    def test_manual(self) -> None:
        """credkeep(1) has each command and each option of the help, and no other."""
        page = manual("credkeep.1")
        commands = self.commands()
        each_words = [[], *([it] for it in commands)]
        helped = "".join(self.book(*it, "--help").written for it in each_words)
        self.assertEqual(options_in(helped) - {"--help", "--version"}, options_in(page))
        headed = re.findall(r'^\.IP "?([a-z]+)', page, re.M)
        self.assertLessEqual(set(commands), set(headed))

    def test_refused_words(self) -> None:
        """The program refuses these words before it opens the file."""
        book = self.file("none.db")
        for words, form in REFUSED:
            with self.subTest(words=words):
                done = book(*words, given="secret\n")
                self.assertEqual(done[:2], (1, ""))
                self.assertRegex(done.faults, rf"\A{form}\n\Z")
        for seconds in (-1, 3601, "forever"):
            why = "--wait: give a number from 0 to 3600"
            self.assertEqual(book("list", wait=seconds), fails(1, why))
        self.assertFalse(book.path.exists())

    def test_commands_are_listed(self) -> None:
        """If no word is a command, the message lists the commands of the help."""
        commands = self.commands()
        self.assertLessEqual({"init", "serve", "verify"}, set(commands))
        for words, are_told in (
            (["enroll", "ann"], True),
            (["frob"], True),
            (["add", "--frob", "ann"], False),
            (["list", "ann"], False),
        ):
            with self.subTest(words=words):
                done = self.book(*words)
                self.assertFails(done, 1)
                told = re.findall(r"^The commands: (.*)$", done.faults, re.MULTILINE)
                self.assertEqual(told, [" ".join(commands)] if are_told else [])


class StreamsTest(BookTest):
    def test_input_that_fails(self) -> None:
        self.book.add("ann")
        folder = os.open(self.room, os.O_RDONLY)
        self.addCleanup(os.close, folder)
        for words in ("check ann", "import", "add bob"):
            with self.subTest(words=words):
                done = self.book(*words.split(), stdin=folder)
                self.assertEqual(done, fails(2, "reading failed"))

    def test_output_that_fails(self) -> None:
        self.book.add("ann", "first")
        with open("/dev/full", "wb") as full:
            for words in ("check ann", "list", "export", "--help"):
                with self.subTest(words=words):
                    done = self.book(*words.split(), given="first", stdout=full)
                    self.assertEqual(done, fails(2, "writing failed"))
