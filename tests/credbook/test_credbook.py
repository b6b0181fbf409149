"""The end of each run of credbook, and its output on each stream: no contract says what a process
returns to its shell."""

import functools
import os
import pathlib
import re
import socket
import tempfile
import unittest
from typing import Any

from tests import helpers
from tests.credkeep.books import RECORD, SETTING, altered, lined
from tests.helpers import TOP, Ended, counts, each, ended, instructions, manual, options_in
from tests.helpers import program
from tests.samples import attempts, is_whole, sample

# The second vector of RFC 7914, section 12, to 32 bytes.
SCRYPT = "$scrypt$ln=10,r=8,p=16$TmFDbA"
SCRYPT_RECORD = f"{SCRYPT}$/bq+HJ00cgB4VucZDQHp/nxq18vII3gw53N2Y0s3MWI"

PASSWORD = "cGFzc3dvcmQ"
OTHER = "YmFk"

SCRIPT = f"account a\nbegin 1 enrol a {PASSWORD} {SETTING}\ncommit 1\nshow a\n"
ANSWERS = f"ok\nbegun\nenrolled\n{RECORD}\n"
LONGEST_SCRIPT = 1048576
HUGE, ARENAS = "glibc.malloc.hugetlb=1", "glibc.malloc.arena_max=2"

NOT_UTF8 = b"\xff".decode(errors="surrogateescape")

WORKERS = ["--workers 1", "--workers 64", "--workers 04", "--workers +4", "--workers=4"]

# Lines with a record, a key or a password of each kind that is refused, and the last ones that
# aren't.
FIELDS = [
    ("account a", "ok"),
    (f"load a {RECORD}$", "bad 1 shape"),
    (f"load a {RECORD.replace('2id', '2x')}", "bad 2 scheme"),
    (f"load a {RECORD.replace('19', '17')}", "bad 3 version"),
    (f"load a {RECORD.replace('m=256', 'm=0256')}", "bad 4 params"),
    (f"load a {RECORD.replace('t=2', f't={2**32}')}", "bad 5 range"),
    (f"load a {SCRYPT_RECORD.replace('TmFDbA', '')}", "bad 6 salt"),
    (f"load a {RECORD[:-1]}5", "bad 7 tag"),
    (f"load a {'x' * 513}", "bad 9 toolong"),
    (f"load a {RECORD.replace('t=2', f't={2**32 - 1}')}", "ok"),
    *(
        (f"commit {it}", "bad 12 key")
        for it in ("", "0", "65", "00", "01", "064", "+1", "-1", "1x", "x", "257")
    ),
    *((f"commit {it}", "bad 15 idle") for it in (1, 64)),
    *(
        (f"begin 1 verify a {it}", "bad 13 password")
        for it in ("", "!", "--", "cGFzc3dvcmQ=", "cGFzc3dvcmR", "A", "A" * 343)
    ),
    *((f"begin {it} verify a {'A' * 342}", "begun") for it in (1, 64)),
]
RUNS = [
    (["run"], SCRIPT, Ended(0, ANSWERS)),
    (["run"], lined(it for it, _ in FIELDS), Ended(0, lined(it for _, it in FIELDS))),
    *((["run", *it.split()], SCRIPT, Ended(0, ANSWERS)) for it in WORKERS),
    (["run"], "", Ended(0)),
    (["run"], "account a\nshow a", Ended(0, "ok\nnone\n")),
    (["hash", SETTING, PASSWORD], "", Ended(0, f"{RECORD}\n")),
    (["hash", SETTING, PASSWORD, "--workers", "4"], "", Ended(0, f"{RECORD}\n")),
    (["hash", SCRYPT, PASSWORD], "", Ended(0, f"{SCRYPT_RECORD}\n")),
    (["hash", SETTING.replace("256", "7"), "!"], "", Ended(1, "", "credbook: 5 range\n")),
    (["hash", SETTING.replace("v=19$", ""), PASSWORD], "", Ended(1, "", "credbook: 3 version\n")),
    (["check", "--workers=4", SCRYPT_RECORD, PASSWORD], "", Ended(0, "yes\n")),
    (["check", RECORD, PASSWORD], "", Ended(0, "yes\n")),
    (["check", RECORD, OTHER], "", Ended(4, "no\n")),
    (["check", RECORD], "", Ended(4, "no\n")),
    (["hash", RECORD, PASSWORD], "", Ended(1, "", "credbook: 1 shape\n")),
    (["check", SETTING, PASSWORD], "", Ended(1, "", "credbook: 1 shape\n")),
    (["check", RECORD, "="], "", Ended(1, "", "credbook: 13 password\n")),
    (["check", RECORD, "-"], "", Ended(1, "", "credbook: 13 password\n")),
    (["check", NOT_UTF8, PASSWORD], "", Ended(1, "", "credbook: a word is not UTF-8\n")),
    (["run"], "#" * (LONGEST_SCRIPT + 1), Ended(2, "", "credbook: toolong\n")),
]
# Words that don't parse, and help, with what stands on standard error alone.
USAGE = "Usage: credbook <COMMAND>\n"
CHECK_USAGE = "Usage: credbook check [OPTIONS] <RECORD> [PASSWORD]"
MORE = "\nFor more information, try '--help'.\n"
NO_WORKERS = ["run --workers" + it for it in (" 0", " 65", " x", "", " 4 --workers 4", "=")]
REFUSED = [
    (
        "",
        "error: 'credbook' requires a subcommand but one was not provided\n"
        f"  [subcommands: run, hash, check, help]\n\n{USAGE}{MORE}",
    ),
    ("walk", f"error: unrecognized subcommand 'walk'\n\n{USAGE}{MORE}"),
    (
        "run --quiet",
        "error: unexpected argument '--quiet' found\n\n" f"Usage: credbook run [OPTIONS]\n{MORE}",
    ),
    *((words, "error: ") for words in (*NO_WORKERS, "--workers 4 run", f"check {RECORD} x x")),
    ("hash", "\n  <SETTING>\n"),
    ("--version", "credbook 0.2.0\n"),
    ("--help", f"\n{USAGE}"),
    ("--help", "\nExit statuses:\n"),
    ("--help", "\ndocs/ERRORS.md has them all, by word.\n"),
    (
        "run --help",
        "Answers a script from standard input, on an empty book\n\n"
        "Usage: credbook run [OPTIONS]\n\nOptions:\n      "
        "--workers <N>  The maximum number of threads, from 1 to 64 [default: 1]\n  "
        "-h, --help         Print help\n",
    ),
    ("hash --help", "\nUsage: credbook hash [OPTIONS] <SETTING> [PASSWORD]\n"),
    *((it, f"\n{CHECK_USAGE}\n") for it in ("check --help", "help check")),
]
# What is written before a write is refused.
FRONTS = [
    (["run"], "ok\nno"),
    (["hash", SETTING, PASSWORD], SETTING),
    (["check", RECORD, PASSWORD], "ye"),
    (["check", RECORD], ""),
]


def credbook(*words: str, given: str = "", **options: Any) -> Ended:
    return ended([program("credbook"), *words], given, **options)


class RunsTest(unittest.TestCase):
    def test_runs(self) -> None:
        for words, given, wanted in RUNS:
            with self.subTest(words=words, given=given[:20]):
                self.assertEqual(credbook(*words, given=given), wanted)

    def test_refused_words(self) -> None:
        for words, told in REFUSED:
            with self.subTest(words=words):
                done = credbook(*words.split(), given=SCRIPT)
                self.assertEqual(done[:2], (1, ""))
                self.assertIn(told, done.faults)

    def test_manual(self) -> None:
        """credbook(1) has each command and each option of the help, and no other."""
        commands = ("run", "hash", "check")
        helped = credbook("--help").faults
        helped += "".join(credbook(command, "--help").faults for command in commands)
        page = manual("credbook.1")
        self.assertEqual(options_in(helped) - {"--help", "--version"}, options_in(page))
        listed = helped.split("Commands:\n")[1].split("\n\n")[0]
        shown = re.findall(r"^  ([a-z]+)", listed, re.M)
        self.assertEqual({*shown} - {"help"}, {*re.findall(r"^\.IP ([a-z]+)$", page, re.M)})

    def test_streams(self) -> None:
        """Streams that can't be read or written."""
        folder = os.open("/", os.O_RDONLY)
        self.addCleanup(os.close, folder)
        self.assertEqual(credbook("run", stdin=folder), Ended(2, "", "credbook: read\n"))
        with open("/dev/full", "wb") as full:
            for words in (["run"], ["check", RECORD, PASSWORD]):
                with self.subTest(words=words):
                    done = credbook(*words, given=SCRIPT, stdout=full)
                    self.assertEqual(done, Ended(2, "", "credbook: write\n"))

    def test_stopped_streams(self) -> None:
        """Streams that fail in mid-stream: the lines before are answered, and a front of the
        answers is written."""
        ours, theirs = socket.socketpair()
        with ours, theirs:
            ours.sendall(b"account a\naccou")
            # as this is left unread, the other end is reset once all is read there
            theirs.send(b"x")
            ours.close()
            done = credbook("run", stdin=theirs)
        self.assertEqual(done, Ended(2, "ok\n", "credbook: read\n"))
        for words, front in FRONTS:
            with self.subTest(words=words), tempfile.TemporaryFile() as written:
                options = {"stdout": written, **helpers.small_files(len(front))}
                done = credbook(*words, given="account a\nshow a\n", **options)
                self.assertEqual(done, Ended(2, "", "credbook: write\n"))
                written.seek(0)
                self.assertEqual(written.read(), front.encode())

    def test_refused_memory(self) -> None:
        """Each request for memory refused in turn, or a sample of them: status 3 with a front of
        the answers, or the whole run if it can do without."""
        for words, given, status, written in (
            (["run", "--workers", "2"], SCRIPT, 0, ANSWERS),
            (["hash", SETTING, PASSWORD], "", 0, f"{RECORD}\n"),
            (["check", RECORD, PASSWORD], "", 0, "yes\n"),
            (["check", RECORD], "", 4, "no\n"),
            (["walk"], "", 1, ""),
        ):
            command = [program("credbook"), *words]
            requests = sample(helpers.requests_of(command, given))
            refuse = functools.partial(helpers.without_request, command=command, given=given)
            ends = dict(attempts(refuse, requests))
            self.assertTrue(3 in {it.status for it in ends.values()} or not is_whole())
            for nth, done in ends.items():
                with self.subTest(words=words, request=nth):
                    if done[:2] != (status, written):
                        refused = (3, "credbook: memory\n")
                        self.assertEqual((done.status, done.faults), refused)
                        self.assertTrue(written.startswith(done.written), done.written)

    @each((1, (0,)), (2, (1, 2)), (4, (3, 4)), (64, (3, 4)))
    def test_threads(self, workers: int, wanted: Any) -> None:
        """As many threads hash as --workers sets: the caller's thread waits for them, or is one of
        them."""
        script = SCRIPT.replace("m=256,t=2,p=1", "m=1024,t=4,p=4").rpartition("show")[0]
        script += f"begin 2 verify a {PASSWORD}\ncommit 2\n"
        done, found = counts([program("credbook"), "run", "--workers", str(workers)], script)
        self.assertEqual(done, Ended(0, "ok\nbegun\nenrolled\nbegun\nyes\n"))
        self.assertIn(found["THREADS"], wanted)

    def test_instructions(self) -> None:
        """A check takes as many instructions whichever byte of the tag differs, and if none does:
        so its time doesn't tell which."""
        helpers.need("valgrind")
        done, right = instructions([program("credbook"), "check", RECORD, PASSWORD])
        self.assertEqual(done[:2], (0, "yes\n"))
        for byte in (0, 1, 15, 30, 31):
            with self.subTest(byte=byte):
                words = ["check", altered(RECORD, byte), PASSWORD]
                done, wrong = instructions([program("credbook"), *words])
                self.assertEqual((*done[:2], wrong), (4, "no\n", right))


class LauncherTest(unittest.TestCase):
    """The installed command runs the program with huge pages, unless GLIBC_TUNABLES sets them: with
    the same words, input and end."""

    def launched(self, inner: str, *words: str, **options: Any) -> Ended:
        with tempfile.TemporaryDirectory(prefix="credbook-") as folder:
            launcher = pathlib.Path(folder) / "launcher"
            text = (TOP / "bin" / "launcher.in").read_text()
            launcher.write_text(text.replace("@PROGRAM@", inner))
            launcher.chmod(0o755)
            return ended([str(launcher), *words], SCRIPT, **options)

    @each(["check", RECORD, OTHER], ["run"], ["hash", "a b", ""])
    def test_same_run(self, words: Any) -> None:
        wanted = credbook(*words, given=SCRIPT)
        self.assertEqual(self.launched(program("credbook"), *words), wanted)

    @each(
        (None, HUGE),
        ("", HUGE),
        (ARENAS, f"{ARENAS}:{HUGE}"),
        ("glibc.malloc.hugetlb=0", "glibc.malloc.hugetlb=0"),
        (f"{ARENAS}:glibc.malloc.hugetlb=2", f"{ARENAS}:glibc.malloc.hugetlb=2"),
    )
    def test_tunables(self, given: Any, wanted: str) -> None:
        env = {"PATH": os.environ["PATH"]}
        env |= {} if given is None else {"GLIBC_TUNABLES": given}
        done = self.launched("printenv", "GLIBC_TUNABLES", env=env)
        self.assertEqual(done, Ended(0, f"{wanted}\n"))
