"""Tests of bin/credkeep-ask over credkeep: its questions at the terminal, its output there, and the
words and input of credkeep.

A script replaces credkeep: it notes its words and its input.
"""

import signal
from collections.abc import Sequence

from served import Case
from tests.helpers import TOP, Ended, Shown, at_a_terminal, each, ended

ASK = TOP / "bin/credkeep-ask"
SIGNALS = (signal.SIGHUP, signal.SIGINT, signal.SIGQUIT, signal.SIGTERM)

# Each word is noted with a bar behind it. `show` says what is in the environment; everything else
# reads its input and ends with 7.
STAND_IN = """#!/bin/sh
printf '%s|' "$@" >> "$ROOM/words"
echo >> "$ROOM/words"
export -p >> "$ROOM/environment"
case " $* " in
*' show '*)
    IFS= read -r line && printf '%s\\n' "$line" >> "$ROOM/given"
    [ -z "$SHOWN" ] || printf '%s\\n' "$SHOWN"
    exit "$STATUS"
    ;;
esac
while IFS= read -r line; do printf '%s\\n' "$line" >> "$ROOM/given"; done
printf '%s' "$line" >> "$ROOM/given"
echo "it was asked"
exit 7
"""

# What `show` says of the account, and its status.
Account = tuple[str, int]
RECORD, NO_RECORD, NO_ACCOUNT = ("$argon2id$..", 0), ("absent", 4), ("none", 4)
SHOW = "--wait|0|users.db|show|ada|"
ONE, TWO = [b"old\n"], [b"new\n", b"new\n"]
Typed = Sequence["bytes | int"]  # a line at each prompt, or a signal

MARKS = ("a.db|lock|ada", "a.db|unlock|ada", "a.db|expire|ada")

# Input that gives credkeep no password: the typed text, the status, and the message.
END = b"\x04"
FIRST = [*ONE, b"new\n"]
DIFFERING = [
    ([*FIRST, it], 6, "credkeep-ask: the two new passwords differ")
    for it in (b"new2\n", b"ne\n", b"New\n", b"\n", b"new \n")
]
HALVES = [
    (typed, 6, "credkeep-ask: no password")
    for typed in ([END], [b"ab" + END * 2], [*ONE, END], [*FIRST, END])
]
STOPPED = [([*typed, it], 128 + it, "") for it in SIGNALS for typed in ([], ONE)]


class CredkeepAsk(Case):
    def setUp(self) -> None:
        """A folder with the stand-in, and with no other program: a password would be in its
        words."""
        super().setUp()
        self.folder = self.room()
        (self.folder / "credkeep").write_text(STAND_IN)
        (self.folder / "credkeep").chmod(0o755)

    def environment(self, account: Account) -> dict[str, str]:
        named = {"ROOM": self.folder, "CREDKEEP": f"{self.folder}/credkeep"}
        named |= {"PATH": str(self.folder), "SHOWN": account[0], "STATUS": account[1]}
        return {name: str(it) for name, it in named.items()}

    def command(self, words: str) -> list[str]:
        """The command of credkeep-ask; removes the stand-in's earlier notes."""
        for name in ("words", "given", "environment"):
            (self.folder / name).unlink(missing_ok=True)
        return [str(ASK), *words.split("|")]

    def asked(self, words: str, typed: Typed, account: Account = RECORD) -> Shown:
        return at_a_terminal(self.command(words), typed, self.environment(account))

    def without_a_terminal(self, words: str, given: str) -> Ended:
        environment = self.environment(RECORD)
        return ended(self.command(words), given, env=environment, start_new_session=True)

    def noted(self, name: str) -> str:
        """The stand-in's notes of its words, its input or its environment."""
        path = self.folder / name
        return path.read_text() if path.exists() else ""

    def nothing_was_given(self, shown: Shown, status: int, said: str = "") -> None:
        """credkeep-ask ended before credkeep got more than a look at the account."""
        self.assertEqual((shown.status, shown.echoes[-1]), (status, True), f"{shown.text!r}")
        self.assertIn(said.encode(), shown.text)
        self.assertEqual((self.noted("words"), self.noted("given")), (f"{SHOW}\n", ""))

    @each(
        ("check", RECORD, ONE, "old\n"),
        ("upgrade", RECORD, ONE, "old\n"),
        ("remove", RECORD, ONE, "old\n"),
        ("change", RECORD, ONE + TWO, "old\nnew\n"),
        ("reset", RECORD, TWO, "new\n"),
        ("reset", NO_RECORD, TWO, "new\n"),
        ("add", NO_RECORD, TWO, "new\n"),
        ("add", NO_ACCOUNT, TWO, "new\n"),
    )
    def test_asked(self, operation: str, account: Account, typed: list[bytes], given: str) -> None:
        """Each operation asks for the passwords that it reads, the account's present one first, and
        passes them on by a pipe."""
        shown = self.asked(f"users.db|{operation}|ada", typed, account)
        self.assertEqual((shown.status, shown.echoes), (7, [*[False] * len(typed), True]))
        prompts = b""
        if typed[0] in ONE:
            prompts += b"Password: |\r\n"
        if typed[-1] in TWO:
            prompts += b"New password: |\r\nThe same again: |\r\n"
        self.assertEqual(shown.text, prompts + b"it was asked\r\n")
        self.assertEqual(self.noted("words"), f"{SHOW}\nusers.db|{operation}|ada|\n")
        self.assertEqual(self.noted("given"), given)
        self.assertNotRegex(self.noted("environment"), "old|new")

    def test_a_credkeep_that_is_killed(self) -> None:
        """The status is the signal's, as a shell has it."""
        text = (self.folder / "credkeep").read_text().replace("exit 7", "kill -KILL $$")
        (self.folder / "credkeep").write_text(text)
        self.assertEqual(self.asked("users.db|check|ada", ONE).status, 128 + signal.SIGKILL)

    @each(
        ("add", RECORD, 4, "exists"),
        ("check", NO_ACCOUNT, 4, "none"),
        ("change", NO_RECORD, 4, "absent"),
        ("remove", NO_ACCOUNT, 4, "none"),
        ("upgrade", NO_RECORD, 4, "absent"),
        ("reset", NO_ACCOUNT, 4, "none"),
        ("check", ("", 3), 3, ""),
        ("add", ("", 5), 5, ""),
        ("reset", ("", 1), 1, ""),
    )
    def test_not_asked(self, operation: str, account: Account, status: int, said: str) -> None:
        """If no password would help, credkeep-ask prints credkeep's answer at once."""
        shown = self.asked(f"users.db|{operation}|ada", [], account)
        self.assertEqual(shown.text.strip(), said.encode())
        self.nothing_was_given(shown, status)

    @each(
        ("--wait|5|a b.db|check|ada", "5|a b.db|show|ada"),
        ("--wait=6|a.db|check|ada", "6|a.db|show|ada"),
        ("a.db|check|--wait|7|ada", "7|a.db|show|ada"),
        ("a.db|check|--setting|$scrypt$..|ada", "0|a.db|show|ada"),
        ("a.db|check|--setting=$scrypt$..|ada", "0|a.db|show|ada"),
    )
    def test_words(self, given: str, shown: str) -> None:
        """credkeep-ask passes its words to credkeep as they are, after a look at the account with
        the same wait."""
        self.assertEqual(self.asked(given, ONE).status, 7)
        self.assertEqual(self.noted("words"), f"--wait|{shown}|\n{given}|\n")

    @each(
        "a.db|list",
        "a.db|check|--help",
        "a.db|-h|add|ada",
        "a.db|check",
        "a.db|add",
        "a.db",
        "",
        *MARKS,
    )
    def test_other_words(self, words: str) -> None:
        """A command that reads no password is credkeep's alone, and so is a call for help or
        without a name."""
        status, _, faults = self.without_a_terminal(words, "as it is")
        self.assertEqual((status, faults), (7, ""))
        self.assertEqual(self.noted("words"), f"{words}|\n")
        self.assertEqual(self.noted("given"), "as it is")

    def test_show(self) -> None:
        """`show` is credkeep's alone too, and reads nothing."""
        done = self.without_a_terminal("a.db|show|ada", "as it is")
        self.assertEqual((done.status, done.faults), (0, ""))
        self.assertEqual((self.noted("words"), self.noted("given")), ("a.db|show|ada|\n", ""))

    def test_a_backup(self) -> None:
        """A backup reports what it leaves out: locks that an earlier server kept beside the
        book."""
        said = "an earlier credkeep-server kept in users.db-locks"
        for has_locks in (False, True):
            if has_locks:
                (self.folder / "users.db-locks").touch()
            words = "users.db|backup|copy.db"
            done = ended(self.command(words), env=self.environment(RECORD), cwd=self.folder)
            self.assertEqual((done.status, said in done.faults), (7, has_locks), done)
            self.assertEqual(self.noted("words"), f"{words}|\n")

    @each(" a b ", "a\\n\\", "-n", "-e", "%s%n", "*", "$HOME `id` $(id)", "", "'\"", "passé")
    def test_any_bytes(self, line: str) -> None:
        """A password is the typed text, whatever a shell makes of such letters elsewhere."""
        shown = self.asked("a.db|change|ada", [f"{line}\n".encode()] * 3)
        self.assertEqual(shown.status, 7)
        self.assertEqual(self.noted("given"), f"{line}\n" * 2)

    @each(*DIFFERING, *HALVES, *STOPPED)
    def test_nothing_is_given(self, typed: Typed, status: int, said: str) -> None:
        """Two new passwords that differ go nowhere; an input that ends, and half a line, is none; a
        signal ends it with the signal's status. The terminal echoes again."""
        shown = self.asked("users.db|change|ada", typed)
        self.assertFalse(shown.echoes[-2])
        self.nothing_was_given(shown, status, said)

    def test_no_terminal(self) -> None:
        """Without a terminal there is nobody to ask: its input is no password."""
        said = self.without_a_terminal("users.db|check|ada", "old\n")
        fault = "credkeep-ask: no terminal is available for the passwords\n"
        self.assertEqual(said, (2, "", fault))
        self.assertEqual((self.noted("words"), self.noted("given")), (f"{SHOW}\n", ""))
