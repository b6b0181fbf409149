"""Common mistakes at a shell, and the words that each message must contain: the message alone tells
its reader what to type."""

import os
import pathlib

from tests.credkeep.books import SETTING, BookTest, lined
from tests.helpers import Ended, ended, program

ONE = "printf 'x\\n' |"
SHADOW = lined(
    ["root:$y$j9T$F5Jx5fExrKuPp53xLKQ..1$X3DX6M94c7o:19000:0:99999:7:::", "sys:*:1:0:::"]
)
TOO_MANY = "a word or an option too many, which isn't shown: it may be a password"
ADD = f"{ONE} credkeep u.db add bob --setting"
ARGON2 = "$argon2id$v=19$m=65536,t=3,p=4"
FORMS = f"write it as '{ARGON2}' or '$scrypt$ln=17,r=8,p=1', in single quotes (1 shape)"
COMMANDS = "no word is a command\nThe commands: init serve add check change reset upgrade"
TAGGED_ALONE = "serve: it answers tagged lines alone: write serve --tagged\n"
MISSING = "the following required arguments were not provided:\n  "
EMPTY = "it is empty; init creates a book in it"
NO_FOLDER = "its folder doesn't exist; mkdir -p makes one"

# The line typed in a folder with the book u.db, in which ada has "secret"; the status; the message.
TYPED = [
    ("credkeep u.db passwd ada", 1, COMMANDS),
    ("credkeep u.db login ada", 1, COMMANDS),
    ("credkeep ada check u.db", 5, "ada: there is no such file; init makes one"),
    (f"{ONE} credkeep add ada u.db", 1, "Usage: credkeep <FILE> add [OPTIONS] <NAME>"),
    ("credkeep u.db user add ada", 1, "Usage: credkeep <FILE> add [OPTIONS] <NAME>"),
    (f"{ONE} credkeep u.db add ada@example.org", 1, "'.', '_', '-'; this has '@' (3 name)"),
    (f"{ONE} credkeep u.db add Bob", 1, "a name has 1 to 32 of a-z, 0-9"),
    (f"{ADD} '$2b$12'", 1, "argon2id and scrypt (2 scheme)"),
    (f"{ADD} argon2id", 1, FORMS),
    (f"{ADD} m=65536,t=3,p=4", 1, FORMS),
    (f'{ADD} "{ARGON2}"', 1, FORMS),
    (f"{ADD} '{ARGON2}$c29tZXNhbHQ$x'", 1, FORMS),
    (
        f"{ADD} '$argon2id$m=65536,t=3,p=4'",
        1,
        f"write v=19 behind the scheme, as in '{ARGON2}' (3 version)",
    ),
    (
        f"{ADD} '$argon2id$v=19$m=64M,t=3,p=4'",
        1,
        "the costs are written as m=65536,t=3,p=4, or ln=17,r=8,p=1 for scrypt (4 params)",
    ),
    ("printf 'cid:$2y$05$x\\n' | credkeep u.db import", 6, "line 1: its record is not of Argon2"),
    ("credkeep u.db import < shadow", 6, "line 1: its record is not of Argon2 or scrypt"),
    ("credkeep u.db import < shadow", 6, "line 2: its record is locked, by !, ~, * or a field"),
    ("printf 'cid\\n' | credkeep u.db import", 6, "it is neither NAME:RECORD nor NAME: (11 line)"),
    ("credkeep u.db import users.htpasswd", 1, "read from standard input: write < INPUT"),
    ("credkeep u.db verify ada", 1, "write check NAME to check a password."),
    ("credkeep u.db restore", 1, f"{MISSING}<FROM>"),
    ("credkeep u.db backup", 1, f"{MISSING}<TO>"),
    ("credkeep u.db backup u.db", 5, "the copy would replace the book itself; name another file"),
    ("credkeep u.db backup none/copy.db", 5, f"credkeep: none/copy.db: {NO_FOLDER}"),
    ("credkeep none/u.db restore u.db", 5, f"credkeep: none/u.db: {NO_FOLDER}"),
    ("credkeep none/u.db init", 5, f"credkeep: none/u.db: {NO_FOLDER}"),
    ("mkdir d && credkeep d init", 5, "d: it is a folder, a link or a device"),
    ("cp u.db v.db && credkeep v.db export > v.db", 5, f"v.db: {EMPTY}"),
    (f": > w.db && {ONE} credkeep w.db add bob", 5, f"w.db: {EMPTY}"),
    ("credkeep u.db show", 1, f"{MISSING}<NAME>"),
    ("credkeep u.db remove ada", 6, "no password on standard input"),
    (f"{ONE} credkeep u.db delete ada bob", 1, f"{TOO_MANY}\nA password is read from standard"),
    ("credkeep u.db reset ada --password=neu", 1, f"{TOO_MANY}\nA password is read from standard"),
    ("credkeep", 1, "subcommands: init, serve, add, check, change, reset, upgrade, remove"),
    ("credkeep u.db run < script", 1, COMMANDS),
    ("credkeep u.db serve < script", 1, TAGGED_ALONE),
    ("credkeep-ask add ada", 1, f"{MISSING}<FILE>"),
    ("credkeep-ask u.db passwd ada", 1, COMMANDS),
    ("credkeep-ask --server list", 5, "/run/rigzumal/users/admin.sock: No such file or directory"),
    ("credkeep-ask --server list", 5, "no server runs there"),
    ("credkeep-ask --server ./u.db list", 5, "u.db: Connection refused; no server runs there"),
]


class MistakesTest(BookTest):
    def setUp(self) -> None:
        super().setUp()
        credkeep = pathlib.Path(program("credkeep"))
        asks = pathlib.Path(__file__).resolve().parents[2] / "bin"
        self.path = f"{credkeep.parent}:{asks}:{os.environ['PATH']}"
        (self.room / "shadow").write_text(SHADOW)
        (self.room / "script").write_text("show ada\n")
        self.typed("credkeep u.db init")
        done = self.typed(f"printf 'secret\\n' | credkeep u.db add ada --setting '{SETTING}'")
        self.assertEqual(done, Ended(0, "enrolled\n"))

    def typed(self, line: str) -> Ended:
        """The end of a line at a shell, with no more input than its own."""
        env = {**os.environ, "PATH": self.path}
        return ended(["bash", "-c", line], cwd=self.room, env=env)

    def test_each(self) -> None:
        for line, status, said in TYPED:
            with self.subTest(line=line):
                done = self.typed(line)
                self.assertEqual((done.status, done.written), (status, ""))
                self.assertIn(said, done.faults)
        self.assertEqual(self.typed("credkeep u.db list"), Ended(0, "ada\n"))
        done = self.typed("printf 'secret\\n' | credkeep u.db check ada")
        self.assertEqual(done, Ended(0, "yes\n"))
