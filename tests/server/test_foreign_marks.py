"""Tests of bin/credkeep-server: users of an htpasswd file who are locked, or must change the
password, before they move. test_orders.py has each kill between their lines."""

from foreign_case import MAKERS, ForeignCase, made_by
from served import TOP, need
from tests.helpers import ended

ASK = str(TOP / "bin/credkeep-ask")
LOCKED = """
admin lock ada -> locked
admin show ada -> !
admin marks - 10 -> marks ada:!
login known ada -> absent
login verify ada {secret} -> no
login verify ada {wrong} -> no
login change ada {secret} {fresh} -> wrong
admin login ada {secret} -> no
admin upgrade ada {secret} -> wrong
admin remove ada {secret} -> wrong
admin enrol ada {fresh} -> exists
admin account ada -> bad 1 exists
admin rename ada eve -> noaccount
admin rename bob ada -> exists
admin expire ada -> expired
login known ada -> absent
"""
EXPIRED = """
admin expire ada -> expired
admin expire ada -> expired
login known ada -> expired
login verify ada {wrong} -> no
login verify ada {secret} -> expired
login change ada {wrong} {wrong} -> wrong
login change ada {secret} {secret} -> same
login known ada -> expired
admin remove ada {secret} -> expired
login change ada {secret} {fresh} -> replaced
login known ada -> yes
login verify ada {fresh} -> yes
"""


class ForeignMarks(ForeignCase):
    def setUp(self) -> None:
        super().setUp()
        self.add("ada", "-s")

    def test_locked(self) -> None:
        """Each password is wrong until the file has the user again, also after a kill."""
        folder = self.room()
        service = self.over("--tries", "0", folder=folder).enrol(bob="other")
        service.talk(LOCKED)
        asking = [ASK, "--server", str(service.path("admin")), "check", "ada"]
        self.assertEqual(ended(asking), (4, "locked\n", ""))
        service.process.kill()
        service.process.wait()
        service = self.over("--tries", "0", folder=folder)
        service.talk("login verify ada {secret} -> no\nadmin unlock ada -> unlocked")
        service.talk("admin unlock ada -> none\nlogin known ada -> expired")
        self.assertNotIn("ada 20", self.moved.read_text(), "it has moved")
        service.talk("login change ada {secret} {fresh} -> replaced")
        service.talk("login verify ada {fresh} -> yes\nadmin lock ada -> locked")
        service.talk("login verify ada {fresh} -> no\nlogin verify ada {secret} -> no")

    def test_as_a_wrong_password(self) -> None:
        """A right password at a locked name is hashed, and counts as a failed try until
        `unlock`."""
        service = self.over("--tries", "2")
        service.talk("admin lock ada -> locked\nadmin unlock zoe -> noaccount")
        service.talk("login verify ada {secret} -> no\n" * 2 + "login verify ada {secret} -> later")
        service.talk("admin unlock ada -> unlocked\nlogin verify ada {secret} -> yes")

    def test_expired(self) -> None:
        """The mark is HTPASSWD.moved's until the user moves, and then the book's."""
        folder = self.room()
        service = self.over("--tries", "0", folder=folder)
        service.talk("admin expire ada -> expired")
        self.assertRegex(self.moved.read_text(), r"^ada expire 20\d\d-\d\d-\d\dT\d\d:\d\d:\d\dZ\n$")
        service.process.kill()
        service.process.wait()
        service = self.over("--tries", "0", folder=folder)
        service.talk("login known ada -> expired\nlogin verify ada {secret} -> expired")
        service.talk("admin marks - 10 -> marks ada:~")
        service.stop()
        self.over("--tries", "0", folder=folder).talk(EXPIRED)

    def test_what_ends_it(self) -> None:
        """An administrator's new password ends a mark; the next account of the name has none."""
        self.add("bob", "-s")
        service = self.over()
        service.talk(
            """
            admin expire ada -> expired
            admin reset ada {fresh} -> enrolled
            login verify ada {fresh} -> yes
            admin expire bob -> expired
            admin delete bob -> deleted
            admin account bob -> ok
            admin enrol bob {fresh} -> enrolled
            login verify bob {fresh} -> yes
            """
        )
        self.assertEqual({*self.gone()}, {"ada", "bob"})

    def test_a_reset_of_a_locked_name(self) -> None:
        """A reset of a locked name moves the user, and leaves the lock."""
        self.over("--tries", "0").talk(
            """
            admin lock ada -> locked
            admin reset ada {fresh} -> enrolled
            login verify ada {fresh} -> no
            login verify ada {secret} -> no
            admin unlock ada -> unlocked
            login verify ada {secret} -> no
            login verify ada {fresh} -> yes
            """
        )

    def test_a_file_that_is_away(self) -> None:
        """A lock holds meanwhile, and a name that is renamed then isn't the file's any more."""
        self.add("bob", "-s")
        service = self.over("--tries", "0")
        service.talk("admin lock ada -> locked\nadmin lock bob -> locked")
        self.file.rename(self.folder / "away")
        service.talk("login known ada -> absent\nlogin verify ada {secret} -> absent")
        service.talk("admin rename ada eve -> renamed\nlogin verify eve {secret} -> absent")
        (self.folder / "away").rename(self.file)
        service.talk("login verify ada {secret} -> noaccount\nlogin verify bob {secret} -> no")
        service.talk("admin marks - 10 -> marks bob:! eve:!")

    def test_pages_of_marks(self) -> None:
        """The pages of marks list each user whom the file bars once, and no page is too long."""
        record = made_by(MAKERS["sha1"], "secret")
        barred = ("bo", "cy", "fay", "gus", "not a name")
        self.file.write_text("".join(f"{it}:{record}:::::::nologin\n" for it in barred))
        folder = self.room()
        self.serving(folder=folder).enrol(ada="secret", cy="secret", eve="secret").stop()
        service = self.over(folder=folder)
        admin = service.client("admin")
        admin.talk("lock ada -> locked\nexpire cy -> expired\nlock eve -> locked")
        every = ["ada:!", "bo:!", "cy:!~", "eve:!", "fay:!", "gus:!"]
        for count in range(1, 9):
            for first, last in (("-", 0), ("ada", 0), ("b", 1), ("cy", 2), ("e", 3), ("gus", 5)):
                with self.subTest(first=first, count=count):
                    page = " ".join(["marks", *every[last:][:count]])
                    self.assertEqual(admin.ask(f"marks {first} {count}"), page)
        admin.talk("marks h 3 -> marks\nmarks - 0 -> bad 5 range\nmarks - -> bad 11 line")
        asked = ended([ASK, "--server", str(service.path("admin")), "marks"])
        lines = "ada:locked bo:locked cy:expired cy:locked eve:locked fay:locked gus:locked"
        self.assertEqual(asked, (0, lines.replace(" ", "\n") + "\n", ""))

    def test_no_room(self) -> None:
        """While HTPASSWD.moved can't be written, no answer is `expired`, and users who must change
        the password can't move. A lock is in the book."""
        need("prlimit")
        record = made_by(MAKERS["sha1"], "secret")
        self.file.write_text(f"ada:{record}\nbob:{record}:0:0:99999:7:::\n")
        self.moved.write_text("zoe 2026-11-28T05:00:00Z\n" * 80)
        service = self.over("--tries", "0", before=("prlimit", "--fsize=2010"))
        service.talk(
            """
            admin expire ada -> unavailable
            login verify ada {secret} -> yes
            login known bob -> expired
            login verify bob {secret} -> unavailable
            login change bob {secret} {fresh} -> unavailable
            admin show bob -> bad 5 noaccount
            admin lock bob -> locked
            login verify bob {secret} -> no
            """
        )
