"""Tests of bin/credkeep-server: users of an htpasswd file whose records came into the book by other
ways than a right password. Once such a record goes, the old password stays wrong."""

import re

from foreign_case import MAKERS, ForeignCase, made_by
from machine import PAGE
from served import Service, is_listening, need
from tests.helpers import each

UNWRITTEN = b"credkeep-server: HTPASSWD.moved can't be written: the server did nothing"


def imported(service: Service, text: str, *options: str) -> tuple[str, bytes]:
    """The status of an import, and the last line of its answer."""
    with service.client("admin") as admin:
        asked = admin.ask(" ".join(["import", str(len(text)), *options]))
        assert asked == f"send {len(text)}", asked
        admin.send(text)
        status = admin.line().decode().split(" ")[2]
        return status, admin.line()


class ForeignRecords(ForeignCase):
    def setUp(self) -> None:
        super().setUp()
        self.folder_of_book = self.room()
        first = self.without_file().enrol(zoe="fresh")
        self.record = first.client("admin").ask("show zoe")
        first.stop()
        self.add("ada", "-s")

    def without_file(self) -> Service:
        return self.serving(folder=self.folder_of_book)

    def with_file(self, *options: str, **fields: object) -> Service:
        return self.over("--tries", "0", *options, folder=self.folder_of_book, **fields)

    def come(self, way: str) -> Service:
        """A server whose book has ada's record."""
        if way == "earlier":
            self.without_file().enrol(ada="fresh").stop()
            return self.with_file()
        service = self.with_file()
        if way == "import":
            self.assertEqual(imported(service, f"ada:{self.record}\n")[0], "0")
        else:
            service.talk(f"admin lock ada -> locked\nadmin load ada {self.record} -> ok")
            service.talk("admin unlock ada -> unlocked")
        return service

    def go(self, way: str, service: Service) -> Service:
        """A server after ada's record has gone."""
        if way == "import":
            self.assertEqual(imported(service, "ada:\n", "--update")[0], "0")
            return service
        service.stop()
        without = self.without_file()
        without.talk(f"admin {way} ada -> {way}d")
        without.stop()
        return self.with_file()

    @each("import", "load", "earlier")
    def test_a_record_that_goes(self, came: str) -> None:
        """However the record came, and however it goes, the file doesn't let its user in again."""
        for way, answer in (("import", "absent"), ("disable", "absent"), ("delete", "noaccount")):
            with self.subTest(way):
                self.moved.unlink(missing_ok=True)
                service = self.go(way, self.come(came))
                service.talk(f"login verify ada {{secret}} -> {answer}")
                self.assertEqual(self.gone(), ["ada"])
                service.talk(
                    "admin delete ada -> " + ("noaccount" if way == "delete" else "deleted")
                )
                service.stop()

    def test_a_name_that_comes_to_the_file(self) -> None:
        """An import that removes a record notes users whom the file has got meanwhile."""
        service = self.with_file()
        self.add("zoe", "-s")
        self.assertEqual(imported(service, "zoe:\n", "--update")[0], "0")
        service.talk("login verify zoe {secret} -> absent\nlogin verify ada {secret} -> yes")

    def test_a_password_that_must_be_changed(self) -> None:
        """The mark stays with the imported record."""
        service = self.with_file()
        service.talk("admin expire ada -> expired")
        self.assertEqual(imported(service, f"ada:{self.record}\n")[0], "0")
        service.talk("admin marks - 9 -> marks ada:~\nlogin verify ada {fresh} -> expired")
        self.assertEqual(imported(service, "ada:\n", "--update")[0], "0")
        service.talk("login verify ada {secret} -> absent")

    def test_a_restore(self) -> None:
        """After a restore an administrator's commands come again at the page's server with only an
        admin socket, also for users whom only the file has."""
        for name in ("bob", "cid", "dan"):
            self.add(name, "-s")
        self.with_file().stop()  # its book and its list of users are copied here
        (options,) = re.findall(r"^ +(--socket admin) \S+ (0600 - all) ", PAGE.read_text(), re.M)
        folder = self.folder_of_book
        words = f"{options[0]} {folder}/admin.sock {options[1]}".split()
        alone = self.over(*words, folder=folder, sockets=False)
        self.assertFalse(is_listening(alone.path("login")))
        with alone.client("admin") as admin:
            admin.talk("lock ada -> locked\ndisable bob -> disabled\ndelete cid -> deleted")
            admin.talk("expire dan -> expired")
        alone.stop()
        self.with_file().talk(
            """
            login verify ada {secret} -> no
            login verify bob {secret} -> absent
            login verify cid {secret} -> noaccount
            login verify dan {secret} -> expired
            """
        )

    def test_many(self) -> None:
        """The start notes many users."""
        record, names = made_by(MAKERS["sha1"], "secret"), [f"u{it:04}" for it in range(2500)]
        self.file.write_text("".join(f"{it}:{record}\n" for it in [*names, "eve"]))
        service = self.without_file()
        text = "".join(f"{it}:{self.record}\n" for it in names)
        self.assertEqual(imported(service, text)[0], "0")
        service.stop()
        self.with_file().talk("login verify eve {secret} -> yes")
        self.assertEqual(self.gone(), ["eve", *names])

    def test_no_room(self) -> None:
        """While HTPASSWD.moved can't be written, users log in, and no import removes a record."""
        need("prlimit")
        self.without_file().enrol(ada="fresh").stop()
        self.moved.write_text("bob 2026-11-28T05:00:00Z\n" * 80)
        service = self.with_file(before=("prlimit", "--fsize=2010"))
        service.talk("login verify ada {fresh} -> yes\nlogin verify ada {secret} -> no")
        self.assertEqual(imported(service, "ada:\n", "--update"), ("5", UNWRITTEN))
        service.talk("login verify ada {fresh} -> yes")
        self.assertIn(f"{self.moved}: File too large", service.log())
