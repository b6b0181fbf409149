"""Tests of bin/credkeep-server: failed tries at users of an old file, whom the server counts."""

from foreign_case import MAKERS, ForeignCase, made_by
from served import FRESH, SECRET, WRONG, Service, field_of
from tests.helpers import run
from daemon.book import password_of

SETTING = "$fast$c=2$c2FsdHNhbHQ"
# Tries of each operation, with their passwords left out.
TRIES = ["verify {} {}", "login {} {}", "remove {} {}"]
TRIES += [f"change {{}} {{}} {FRESH}", f"change {{}} {{}} {FRESH} {SETTING}"]
TRIES += ["upgrade {} {}", f"upgrade {{}} {{}} {SETTING}"]


class ForeignTries(ForeignCase):
    def test_tries(self) -> None:
        """Wrong passwords at a user of the file count as those at the book's do, at whatever
        operation; and a new record has none."""
        self.add("ada", "-s")
        self.add("bob", "-s")
        service = self.over("--tries", "3", clocked=True)
        service.talk(
            """
            login verify ada {wrong} -> no
            login change ada {wrong} {fresh} -> wrong
            admin login ada {wrong} -> no
            login verify ada {secret} -> later
            login change ada {secret} {fresh} -> later
            login verify bob {wrong} -> no
            """
        )
        service.talk("admin waits -> waits ada:1")
        service.set_clock(1)
        service.talk("login verify ada {wrong} -> no\nlogin verify ada {secret} -> later")
        service.talk("admin waits -> waits ada:2")
        service.set_clock(2.9)
        service.talk("login verify ada {secret} -> later\nadmin known ada -> yes")
        service.talk("admin waits -> waits ada:1")
        service.set_clock(3)
        service.talk("login verify ada {secret} -> yes")
        service.talk("login verify ada {wrong} -> no\n" * 3 + "login verify ada {secret} -> later")
        self.assertEqual(self.gone(), ["ada"])

    def test_what_ends_a_wait(self) -> None:
        """An administrator ends a wait, by `forgive`, which also works without failed tries, or by
        a new password. A name that leaves the file is unknown, and waits no more."""
        for name in ("ada", "bob", "cid", "dan"):
            self.add(name, "-s")
        folder = self.room()
        first = self.serving(folder=folder)
        first.talk("admin account dan -> ok")  # who is judged by the file all the same
        first.stop()
        service = self.over("--tries", "1", folder=folder, clocked=True)
        for name in ("ada", "bob", "cid", "dan"):
            service.talk(f"login verify {name} {{wrong}} -> no")
            service.talk(f"login verify {name} {{secret}} -> later")
        service.talk(
            """
            admin forgive zoe -> noaccount
            admin forgive ada x -> bad 11 line
            login verify ada {secret} -> later
            admin forgive ada -> forgiven
            admin forgive ada -> forgiven
            admin forgive dan -> forgiven
            login verify ada {secret} -> yes
            login verify dan {secret} -> yes
            admin forgive ada -> forgiven
            admin reset bob {fresh} -> enrolled
            login verify bob {fresh} -> yes
            """
        )
        run("htpasswd", "-D", self.file, "cid")
        service.talk("login verify cid {secret} -> noaccount\nadmin forgive cid -> noaccount")
        told = [it.partition(": ")[2] for it in service.log().splitlines()]
        lines = [it for it in told if " must wait " in it or " has to wait: " in it]
        self.assertEqual(lines[0], "ada must wait after 1 failed tries")
        self.assertEqual(len(lines), 7, lines)

    def test_a_record_in_the_book(self) -> None:
        """A record that an administrator stores in the book ends the wait at the file, and is
        judged from then on. So does the end of the user's record; an import ends no wait of
        others."""
        for name in ("ada", "bob", "cid"):
            self.add(name, "-s")
        service = self.over("--tries", "1", clocked=True)
        for name in ("ada", "bob", "cid"):
            service.talk(f"login verify {name} {{wrong}} -> no\nlogin verify {name} !! -> later")
        service.talk("admin account zoe -> ok\nadmin enrol zoe {fresh} -> enrolled")
        record = service.client("admin").ask("show zoe")
        service.talk(
            f"""
            admin lock ada -> locked
            admin load ada {record} -> ok
            admin waits -> waits bob:1 cid:1
            admin unlock ada -> unlocked
            login verify ada {{wrong}} -> no
            login verify ada {{fresh}} -> later
            admin load ada {record} -> ok
            admin waits -> waits bob:1 cid:1 ada:1
            """
        )
        for name, end in (("dan", "disable dan -> disabled"), ("eve", "delete eve -> deleted")):
            self.add(name, "-s")
            service.talk(f"login verify {name} {{wrong}} -> no\nlogin verify {name} !! -> later")
            service.talk(f"admin {end}\nadmin waits -> waits bob:1 cid:1 ada:1")
        admin, text = service.client("admin"), f"bob:{record}\n".encode()
        admin.send(b"i import %d\n" % len(text))
        self.assertEqual(admin.line(), b"i send %d" % len(text))
        admin.send(text)
        self.assertTrue(admin.line().startswith(b"i ended 0 "))
        service.talk(
            """
            admin waits -> waits cid:1
            login verify cid {secret} -> later
            login verify bob {fresh} -> yes
            login verify ada {fresh} -> yes
            """
        )

    def test_guesses_at_once(self) -> None:
        """Of guesses that arrive together only as many are judged as may fail."""
        self.file.write_text(f"ada:{made_by('htpasswd -niBC 6 u', 'secret')}\n")
        service = self.over("--tries", "4", clocked=True)
        clients = [service.client() for _ in range(5)]
        for client in clients:
            client.send(f"a verify ada {WRONG}\n" * 10)
        said = [line for client in clients for line in client.lines(10)]
        self.assertEqual((said.count(b"a no"), said.count(b"a later")), (4, 46))

    def test_who_is_barred(self) -> None:
        """A barred user's right password counts as a wrong one, before the move and after it.
        Otherwise the next answer would show that the guess was right."""
        record = made_by(MAKERS["sha512crypt"], "secret")
        self.file.write_text(f"ada:{record}\nbob:{record}:::::::nologin\n")
        service = self.over("--tries", "2", clocked=True)
        service.talk("login verify ada {secret} -> yes")
        self.file.write_text("".join(f"{it}:{record}:::::::nologin\n" for it in ("ada", "bob")))
        for name in ("ada", "bob"):
            service.talk(
                f"""
                login verify {name} {{secret}} -> no
                login change {name} {{secret}} {{fresh}} -> wrong
                login verify {name} {{secret}} -> later
                login verify {name} {{wrong}} -> later
                admin forgive {name} -> forgiven
                login verify {name} !! -> bad 13 password
                login verify {name} {{wrong}} -> no
                """
            )

    def lines_at_book(self, service: Service, line: str, name: str, password: str) -> list[str]:
        """The lines that come to the book for a try, without its name and its password."""
        before = len(service.asked())
        said = service.client("admin").ask(line.format(name, password))
        self.assertEqual(said, "no" if line.startswith(("verify", "login")) else "wrong")
        lines = [it.split(" ") for it in service.asked()[before:]]
        self.assertEqual({it[1] for it in lines}, {name})
        return [" ".join([it[0], *it[3:]]) for it in lines]

    def test_work_at_who_is_barred(self) -> None:
        """A right password of a barred user takes the book's work of a wrong one of another user:
        the same lines, in which only the password differs."""
        record = made_by(MAKERS["sha1"], "secret")
        self.file.write_text(f"ada:{record}:::::::nologin\nbob:{record}\n")
        service = self.over("--tries", "0")
        for place in ("the file", "the book"):
            for line in TRIES:
                with self.subTest(line, place=place):
                    barred = self.lines_at_book(service, line, "ada", SECRET)
                    self.assertEqual(barred, self.lines_at_book(service, line, "bob", WRONG))
                    self.assertIn(" ".join(line.format("", "").split()), barred)
            if place == "the file":
                service.talk("admin reset ada {secret} -> enrolled")
                service.talk("admin reset bob {secret} -> enrolled")

    def test_password_in_place_of_a_barred_one(self) -> None:
        """The book gets another password in place of a barred user's. The new one isn't shorter,
        and has a NUL only if the other has one: some schemes hash nothing at a NUL."""
        record = made_by(MAKERS["sha1"], "secret")
        self.file.write_text(f"ada:{record}:::::::nologin\n")
        service = self.over("--tries", "0")
        client = service.client()
        for password in [b"", b"secret", b"x" * 73, b"x" * 256, b"a\0b"] * 60:
            self.assertEqual(client.ask(f"verify ada {field_of(password)}"), "no")
        client.talk(f"verify ada {field_of(b'x' * 257)} -> bad 13 password")
        client.talk(f"change ada - {'A' * 940} -> bad 13 password")
        passwords = [password_of(it.split(" ")[2].encode()) or b"" for it in verifies_of(service)]
        self.assertEqual([len(it) for it in passwords], [24, 24, 73, 256, 24] * 60 + [257])
        self.assertEqual([b"\0" in it for it in passwords], [*[False] * 4, True] * 60 + [False])
        self.assertEqual(len({*passwords}), len(passwords), "a password was drawn twice")

    def test_fields_that_are_no_password(self) -> None:
        """A barred user's line with such a field gets the answer of another user's."""
        record = made_by(MAKERS["sha1"], "secret")
        self.file.write_text(f"ada:{record}:::::::nologin\nbob:{record}\n")
        client = self.over("--tries", "0").client()
        for field in ("QQ==", "QQ=", "QR", "Q", "*"):
            for name in ("ada", "bob"):
                with self.subTest(field, name=name):
                    self.assertEqual(client.ask(f"verify {name} {field}"), "bad 13 password")


def verifies_of(service: Service) -> list[str]:
    """The tries that came to the book by `verify`."""
    return [it for it in service.asked() if it.startswith("verify ")]
