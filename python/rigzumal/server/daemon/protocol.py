"""The operations and the answers of lines: one table for each.

The server, credkeep-ask and the HTTP door read these tables. From these tables tools/protocol.py
writes the replies of the Python clients, the header of the PAM module, and the answers in
docs/ERRORS.md and credkeep-server(8). tests/server/test_protocol.py tests whether all of them
agree.
"""

from __future__ import annotations

from dataclasses import dataclass
from functools import cached_property
from typing import Optional

# The counters for the answers to tries.
RIGHT, WRONG, ABSENT, NO_ACCOUNT = "yes", "no", "absent", "noaccount"


@dataclass(frozen=True)
class Answer:
    """An answer without further words, such as names, after it."""

    meaning: str  # on pages
    tried: str = ""  # the counter for a try with this answer
    changed: bool = False  # whether the book has changed; after a try, `expired` changes nothing
    reply: str = ""  # the member of the clients' Reply; none if they raise an exception
    http: int = 503  # the status of a request whose password gets it
    pam: str = "AUTHINFO_UNAVAIL"  # the result of pam_rigzumal for such a password, without PAM_
    ask: int = 0  # the status of credkeep-ask
    text: str = ""  # the text for the person who typed the new password


def done(reply: str, meaning: str) -> Answer:
    """Builds the answer to a change that took effect."""
    return Answer(meaning, changed=True, reply=reply)


def refused(meaning: str, ask: int = 1, http: int = 503) -> Answer:
    """Builds the answer to a refused line."""
    return Answer(meaning, ask=ask, http=http)


ANSWERS = {
    "yes": Answer(
        "the password is right; after `known`: the account has a record",
        tried=RIGHT,
        reply="YES",
        http=200,
        pam="SUCCESS",
    ),
    "expired": Answer(
        "the password is right, but the user must replace it (`change` or `reset`); after `expire`:"
        " a login now needs a new password",
        tried=RIGHT,
        changed=True,
        reply="EXPIRED",
        http=403,
        pam="SUCCESS",
    ),
    "no": Answer(
        "the password is wrong, or the account is locked",
        tried=WRONG,
        reply="NO",
        http=401,
        pam="AUTH_ERR",
        ask=4,
    ),
    "wrong": Answer(
        "the present password is wrong, or the account is locked",
        tried=WRONG,
        reply="WRONG",
        pam="AUTH_ERR",
        ask=4,
    ),
    "absent": Answer(
        "the account has no record; after `known`: the account has none, or is locked",
        tried=ABSENT,
        reply="ABSENT",
        http=401,
        pam="AUTH_ERR",
        ask=4,
    ),
    "noaccount": Answer(
        "the book lacks the name",
        tried=NO_ACCOUNT,
        reply="NO_ACCOUNT",
        http=401,
        pam="USER_UNKNOWN",
        ask=4,
    ),
    "replaced": Answer(
        "the account has the new password", tried=RIGHT, changed=True, reply="REPLACED"
    ),
    "upgraded": Answer("the record has the new costs", tried=RIGHT, changed=True, reply="UPGRADED"),
    "removed": Answer(
        "the record is removed, and the name stays", tried=RIGHT, changed=True, reply="REMOVED"
    ),
    "kept": Answer("the record already has these costs", tried=RIGHT, reply="KEPT"),
    "ok": done("OK", "the operation took effect"),
    "enrolled": done("ENROLLED", "the account has its first record"),
    "disabled": done("DISABLED", "the record is removed, and the name stays"),
    "deleted": done("DELETED", "the book no longer has the name and the record"),
    "renamed": done("RENAMED", "the account has the new name"),
    "locked": done("LOCKED", "every password is wrong until `unlock`"),
    "unlocked": done("UNLOCKED", "the lock is removed, and the record counts again"),
    "forgiven": Answer("the name's failed tries no longer count"),
    "exists": Answer(
        "the account already has a record; of `rename`: an account already has the new name",
        reply="EXISTS",
        ask=4,
    ),
    "none": Answer(
        "the account has no record or no lock, or has had no right password so far",
        reply="NONE",
        ask=4,
    ),
    "short": Answer(
        "the new password has fewer characters than the server's `--least-length`",
        reply="SHORT",
        pam="AUTHTOK_ERR",
        ask=6,
        text="The new password is too short.",
    ),
    "same": Answer(
        "after `expire` the new password must differ from the old one",
        tried=RIGHT,
        reply="SAME",
        pam="AUTHTOK_ERR",
        ask=6,
        text="The new password is the old one.",
    ),
    "later": Answer(
        "too many tries at this name failed, so this one had no effect: wait (1 s to 15 minutes),"
        " or run `credkeep-ask --server forgive NAME`",
        http=429,
        pam="MAXTRIES",
        ask=4,
    ),
    "denied": Answer(
        "no such operation exists, or the socket doesn't allow it or a setting with it: ask at the"
        " admin socket",
        http=403,
        ask=1,
    ),
    "unavailable": Answer(
        "the book's process has ended or is ending, or the server can't write a file of its own,"
        " such as the audit log: check whether the book has stored the change",
        ask=5,
    ),
    "bad 1 exists": refused("the book, or the file of `--foreign`, already has the name", ask=4),
    "bad 2 full": refused("the book has no room for another account", ask=6),
    "bad 3 name": Answer("no book can have such a name", http=401, pam="USER_UNKNOWN", ask=1),
    "bad 4 memory": refused("a hash got too little memory: see `--memory`", ask=3),
    "bad 5 noaccount": refused("the book lacks the name", ask=4),
    "bad 11 line": refused("no such line exists"),
    "bad 13 password": refused("the password isn't base64 of at most 256 bytes", ask=6, http=401),
    "bad 14 busy": refused(
        "other clients changed the account, or another import is running: try again", ask=5
    ),
    "bad 16 long": refused(
        "the line has over 960 bytes, or the import over 128 MiB; the connection stays open",
        http=401,
    ),
    "bad 18 costly": refused(
        "the record or the setting needs more than `--most-memory` or `--most-work` allows"
    ),
    "bad 19 disk": Answer(
        "the disk of the book or of the audit log is too full for a change; logins continue",
        pam="AUTHTOK_ERR",
        ask=5,
        text="The server's disk is full: the password stays as it was.",
    ),
}
NO_ANSWER = Answer("")  # any other text


@dataclass(frozen=True)
class Command:
    """A command of credkeep-ask for a server: its arguments, and its help text."""

    words: str
    text: str

    @cached_property
    def counts(self) -> range:
        """The number of arguments after the command, without options."""
        words = [word for word in self.words.split() if not word.startswith(("[-", "[OPTION]"))]
        least = sum(not word.startswith("[") for word in words)
        return range(least, len(words) + 1)


@dataclass(frozen=True)
class Operation:
    """An operation that a line requests, and its cost for the book.

    Its fields are NAME, OTHER (a new name), PW (the present password), NEW (a new password),
    RECORD, SETTING (costs and a salt), FROM and COUNT (of a page), and SIZE. A line with PW may be
    a guess. A line may lack a field in brackets.
    """

    fields: tuple[str, ...] = ()
    # The book's answers, without those to any line or any try, and without other texts.
    answers: tuple[str, ...] = ()
    hashes: bool = False
    changes: bool = False
    is_own: bool = False  # the server answers, and not the book
    is_transfer: bool = False  # a transfer of the whole book, by credkeep itself
    command: Optional[Command] = None  # credkeep-ask's command with the same word

    @cached_property
    def tries(self) -> bool:
        """Whether a line contains a present password, and may therefore be a guess."""
        return self.place("PW") > 0

    @cached_property
    def names(self) -> int:
        """The number of names among the operation's fields; the names come first."""
        return sum(field in ("NAME", "[NAME]", "OTHER") for field in self.fields)

    @cached_property
    def new(self) -> int:
        """The position of a new password among the operation's fields, or 0."""
        return self.place("NEW")

    @cached_property
    def setting(self) -> int:
        """The position of a setting among the operation's fields, or 0."""
        return self.place("[SETTING]")

    @cached_property
    def wrong(self) -> bytes:
        """The answer to a wrong password."""
        return b"wrong" if "wrong" in self.answers else b"no"

    def place(self, field: str) -> int:
        return 1 + self.fields.index(field) if field in self.fields else 0


# The server's own answers to a new password, before it asks the book.
TO_NEW_PASSWORDS = ("short",)
LOOK = ("yes", "expired", "absent", "noaccount")
TRY = ("no", *LOOK)
OPERATIONS = {
    b"verify": Operation(("NAME", "PW"), TRY, hashes=True),
    b"login": Operation(("NAME", "PW"), TRY, hashes=True),
    b"change": Operation(
        ("NAME", "PW", "NEW", "[SETTING]"),
        ("replaced", "wrong", "same", "absent", "noaccount"),
        hashes=True,
        changes=True,
    ),
    b"upgrade": Operation(
        ("NAME", "PW", "[SETTING]"),
        ("upgraded", "kept", "wrong", "expired", "absent", "noaccount"),
        hashes=True,
        changes=True,
    ),
    b"remove": Operation(
        ("NAME", "PW"),
        ("removed", "wrong", "expired", "absent", "noaccount"),
        hashes=True,
        changes=True,
    ),
    b"enrol": Operation(
        ("NAME", "NEW", "[SETTING]"), ("enrolled", "exists", "noaccount"), hashes=True, changes=True
    ),
    b"reset": Operation(
        ("NAME", "NEW", "[SETTING]"),
        ("replaced", "enrolled", "noaccount"),
        hashes=True,
        changes=True,
        command=Command("NAME", "ask for a new password, twice"),
    ),
    b"account": Operation(("NAME",), ("ok",), changes=True),
    b"load": Operation(
        ("NAME", "RECORD"),
        ("ok",),
        changes=True,
        command=Command("NAME", "store the record on standard input"),
    ),
    b"disable": Operation(
        ("NAME",),
        ("disabled", "absent", "noaccount"),
        changes=True,
        command=Command("NAME", "remove the record; the name stays"),
    ),
    b"delete": Operation(
        ("NAME",),
        ("deleted", "noaccount"),
        changes=True,
        command=Command("NAME", "remove the account"),
    ),
    b"rename": Operation(
        ("NAME", "OTHER"),
        ("renamed", "exists", "noaccount"),
        changes=True,
        command=Command("NAME NEW", "give an account another name"),
    ),
    b"lock": Operation(
        ("NAME",),
        ("locked", "noaccount"),
        changes=True,
        command=Command("NAME", "refuse every password; the record stays"),
    ),
    b"unlock": Operation(
        ("NAME",),
        ("unlocked", "none", "noaccount"),
        changes=True,
        command=Command("NAME", "end a lock"),
    ),
    b"expire": Operation(
        ("NAME",),
        ("expired", "absent", "noaccount"),
        changes=True,
        command=Command("NAME", "require another password"),
    ),
    b"known": Operation(("NAME",), LOOK),
    b"show": Operation(
        ("NAME",),
        ("none",),
        command=Command("[--record] NAME", "print the costs of a record, or the whole record"),
    ),
    b"list": Operation(("FROM", "COUNT"), command=Command("", "print all names")),
    b"marks": Operation(
        ("FROM", "COUNT"),
        command=Command("[NAME]", "print who is locked, and who must change the password"),
    ),
    b"forgive": Operation(
        ("NAME",),
        ("forgiven", "noaccount"),
        command=Command("NAME", "end the wait after failed tries"),
    ),
    b"import": Operation(
        ("SIZE", "[OPTION].."),
        changes=True,
        is_transfer=True,
        command=Command("[OPTION]..", "add the accounts of the lines on standard input"),
    ),
    b"export": Operation(
        (), is_transfer=True, command=Command("", "print a line NAME:RECORD for each account")
    ),
    b"backup": Operation(
        (), is_transfer=True, command=Command("FILE", "write a copy of the whole book")
    ),
    b"last": Operation(
        ("NAME",),
        ("none",),
        is_own=True,
        command=Command("NAME", "print the time of the last right password"),
    ),
    b"waits": Operation(
        ("[NAME]",),
        is_own=True,
        command=Command("", "print the names that must wait, with the seconds"),
    ),
    b"stats": Operation((), is_own=True, command=Command("", "print the counts of answers")),
}
# The options of an import, as credkeep has them.
ONLY_TRIED = "--dry-run"
IMPORT_OPTIONS = (
    "--skip-existing",
    "--update",
    "--skip-bad",
    "--disable-locked",
    "--keep-locked",
    ONLY_TRIED,
)
LONGEST_TEXT = 128 << 20  # bytes of an import: some million accounts
