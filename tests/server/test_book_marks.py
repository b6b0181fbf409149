"""Tests of bin/credkeep-server over credkeep itself: the marks of accounts. The other tests' book
must give the same answers, and each way to the book's file must respect and keep the marks.

The tests need the built credkeep, or the one that CREDKEEP names.
"""

from typing import Any

from served import CHEAP, FAST_BOOK, Case, Service, real_book
from test_books import RECORD
from tests.helpers import run

# Lines at a socket, and their answers.
LINES = """
admin account bob -> ok
admin reset bob {wrong} -> enrolled
admin marks - 10 -> marks
admin marks - 1 1 -> bad 11 line
admin marks - -> bad 11 line
admin marks -  -> bad 5 range
admin marks - 0 -> bad 5 range
admin marks - 01 -> bad 5 range
admin marks - 1001 -> bad 5 range
admin marks Bob 1 -> bad 3 name
admin lock bob -> locked
admin lock bob -> locked
login known bob -> absent
login verify bob {wrong} -> no
login verify bob {secret} -> no
login change bob {wrong} {fresh} -> wrong
admin login bob {wrong} -> no
admin upgrade bob {wrong} -> wrong
admin remove bob {wrong} -> wrong
admin enrol bob {wrong} -> exists
admin expire bob -> expired
admin rename bob cid -> renamed
admin marks - 10 -> marks cid:!~
admin marks cid 1 -> marks cid:!~
admin marks cid. 1 -> marks
admin unlock cid -> unlocked
admin unlock cid -> none
login known cid -> expired
login verify cid {wrong} -> expired
login verify cid {secret} -> no
admin login cid {wrong} -> expired
admin upgrade cid {wrong} -> expired
admin remove cid {wrong} -> expired
login change cid {wrong} {wrong} -> same
login change cid {secret} {secret} -> wrong
login change cid {wrong} {fresh} -> replaced
login known cid -> yes
admin lock cid -> locked
admin reset cid {wrong} -> replaced
login verify cid {wrong} -> no
admin load cid RECORD -> ok
admin show cid -> !RECORD
admin disable cid -> disabled
admin show cid -> !
login verify cid {wrong} -> absent
admin expire cid -> absent
admin reset cid {wrong} -> enrolled
admin unlock cid -> unlocked
admin expire cid -> expired
admin load cid RECORD -> ok
admin show cid -> RECORD
admin expire cid -> expired
admin show cid -> ~RECORD
admin disable cid show -> cid:~RECORD
admin rename cid bob -> renamed
admin lock zoe -> noaccount
admin unlock zoe -> noaccount
admin expire zoe -> noaccount
admin lock Zoe -> bad 3 name
admin lock bob bob -> bad 11 line
admin lock bob -> locked
admin delete bob -> deleted
admin account bob -> ok
admin reset bob {wrong} -> enrolled
login verify bob {wrong} -> yes
"""


class BookMarks(Case):
    def over(self, **fields: Any) -> Service:
        return self.serving("--tries", "0", "--setting", CHEAP, program=real_book(), **fields)

    def test_lines(self) -> None:
        """Each line that makes, ends, tells or heeds a mark."""
        for program, costs in ((FAST_BOOK, "$fast$c=1"), (real_book(), CHEAP)):
            with self.subTest(program.name):
                service = self.serving("--tries", "0", "--setting", costs, program=program)
                service.talk(LINES.replace("RECORD", RECORD))
                service.stop()

    def test_a_backup(self) -> None:
        """A copy that was written while the book was served has its marks, and so has the book
        after a restore."""
        folder = self.room()
        book, copy = (real_book(), folder / "users.db"), folder / "copy.db"
        service = self.over(folder=folder).enrol(ada="secret", bob="secret")
        service.talk("admin lock ada -> locked\nadmin expire bob -> expired")
        run(*book, "backup", copy)
        service.talk("admin unlock ada -> unlocked\nadmin rename ada eve -> renamed")
        service.talk("login change bob {secret} {fresh} -> replaced")
        service.stop()
        run(*book, "restore", copy)
        self.over(folder=folder).talk(
            """
            admin marks - 10 -> marks ada:! bob:~
            login verify ada {secret} -> no
            login verify eve {secret} -> noaccount
            login verify bob {secret} -> expired
            """
        )

    def test_commands_on_the_file(self) -> None:
        """An account that is locked or unlocked without the server is so behind its sockets, and
        the other way."""
        folder = self.room()
        book = (real_book(), folder / "users.db")
        self.over(folder=folder).enrol(ada="secret", bob="secret").stop()
        for command, name, answer in (("lock", "ada", "locked"), ("expire", "bob", "expired")):
            self.assertEqual(run(*book, command, name), f"{answer}\n")
        service = self.over(folder=folder)
        service.talk("login verify ada {secret} -> no\nlogin verify bob {secret} -> expired")
        service.talk("admin unlock ada -> unlocked\nadmin lock bob -> locked")
        service.stop()
        self.assertEqual(run(*book, "check", "ada", given="secret\n"), "yes\n")
        self.assertEqual(run(*book, "check", "bob", given="secret\n", status=4), "no\n")
