"""Tests of bin/credkeep-server: users of an htpasswd file, who move into the book."""

import base64
import errno
import hashlib
import importlib
import json
import os
import random
import threading
from typing import Any

from foreign_case import MAKERS, ForeignCase, made_by
from served import CHEAP, SECRET, WRONG, chosen_book, need, until
from tests.helpers import run

SALT = bytes(range(8))


def salted_sha1(password: bytes, salt: bytes = SALT) -> str:
    """A salted SHA-1 record, in slappasswd's form."""
    return "{SSHA}" + base64.b64encode(hashlib.sha1(password + salt).digest() + salt).decode()


class Foreign(ForeignCase):
    def test_schemes(self) -> None:
        """Right and wrong passwords under each scheme's records, as other programs make them."""
        need("openssl", "mkpasswd")
        is_right = importlib.import_module("daemon.schemes").is_right
        for password in ("", "secret", "y" * 16, "pä", "k" * 72, "m" * 127):
            records = {it: made_by(command, password) for it, command in MAKERS.items()}
            records["salted sha1"] = salted_sha1(password.encode())
            records["salted sha1, long"] = salted_sha1(password.encode(), SALT * 3)
            for name, record in records.items():
                with self.subTest(name, password=password):
                    if name == "openssl" and not password:
                        continue  # it asks for one
                    typed, is_cut = password.encode(), len(password) > 72 and "bcrypt" in name
                    said = [
                        is_right(record.encode(), it)
                        for it in (typed, typed + b"x", typed[:-1] or b"y", typed + b"\0")
                    ]
                    self.assertEqual(said, [not is_cut, False, False, False], record)

    def test_moved_by_a_right_password(self) -> None:
        """Wrong, then right; from then on the book decides, also of a new server; the file stays as
        it was."""
        for name, option in {"bcrypt": "-B", "apr1": "-m", "sha1": "-s"}.items():
            self.add(name, option)
        need("mkpasswd")
        yescrypt, salted = made_by(MAKERS["yescrypt"], "secret"), salted_sha1(b"secret")
        self.file.write_text(f"{self.file.read_text()}yescrypt:{yescrypt}\nssha:{salted}\n")
        names, before = ("bcrypt", "apr1", "sha1", "yescrypt", "ssha"), self.file.read_bytes()
        given: Any = {"program": chosen_book(), "folder": self.room()}
        service = self.over("--setting", CHEAP, **given)
        for name in names:
            service.talk(
                f"""
                login known {name} -> yes
                login verify {name} {{wrong}} -> no
                login change {name} {{wrong}} {{fresh}} -> wrong
                login verify {name} {{secret}} -> yes
                login verify {name} {{wrong}} -> no
                login change {name} {{secret}} {{fresh}} -> replaced
                login verify {name} {{secret}} -> no
                """
            )
        self.assertEqual(self.gone(), sorted(names))
        self.assertEqual(self.moved.stat().st_mode & 0o777, 0o600)
        service.talk("admin delete ssha -> deleted\nlogin verify ssha {secret} -> noaccount")
        service.stop()
        service = self.over("--setting", CHEAP, **given)
        service.talk("login verify ssha {secret} -> noaccount\nlogin verify sha1 {secret} -> no")
        service.talk("admin list - 9 -> names apr1 bcrypt sha1 yescrypt")
        self.assertEqual(self.file.read_bytes(), before)
        self.assertEqual({it.name for it in self.folder.iterdir()}, {"htpasswd", "htpasswd.moved"})

    def test_moved_by_a_change(self) -> None:
        """A change with the right old password moves the user too, whatever its length."""
        self.add("ada", "-s")
        self.add("bob", "-s", "word")
        service = self.over()
        service.talk("login change bob d29yZA {fresh} -> replaced")
        service.talk(
            "login change ada {secret} {fresh} -> replaced\nlogin verify ada {fresh} -> yes"
        )
        self.assertEqual(self.gone(), ["ada", "bob"])

    def test_moved_halfway(self) -> None:
        """A name that the book has without a record, as after a kill amid the move, is judged by
        the file."""
        self.add("ada", "-s")
        folder = self.room()
        first = self.serving(folder=folder)
        first.client("admin").talk("account ada -> ok\nknown ada -> absent")
        first.stop()
        service = self.over(folder=folder)
        service.talk("login known ada -> yes\nlogin verify ada {wrong} -> no")
        service.talk("login verify ada {secret} -> yes")
        shown = service.client("admin").ask("disable ada show")
        self.assertTrue(shown.startswith("ada:$fast$"), shown)
        service.talk("login verify ada {secret} -> absent\nlogin known ada -> absent")

    def test_ended_before_they_move(self) -> None:
        """disable, delete and reset of a user who is only in the file; delete and reset of a name
        that the book has too."""
        for name in ("ada", "bob", "cid", "dan", "eve"):
            self.add(name, "-s")
        folder = self.room()
        self.serving(folder=folder).enrol(dan="mine", eve="mine").stop()
        self.over(folder=folder).talk(
            """
            admin disable ada -> disabled
            login known ada -> absent
            login verify ada {secret} -> absent
            admin delete bob -> deleted
            login verify bob {secret} -> noaccount
            admin account bob -> ok
            admin reset cid {fresh} -> enrolled
            login verify cid {secret} -> no
            login verify cid {fresh} -> yes
            admin rename dan don -> renamed
            login verify dan {secret} -> noaccount
            admin remove eve bWluZQ -> removed
            login verify eve {secret} -> absent
            """
        )
        self.assertEqual(self.gone(), ["ada", "bob", "cid", "dan", "eve"])

    def test_a_file_that_comes_back(self) -> None:
        """A user who was disabled, removed, renamed or deleted while the file was away doesn't get
        in by it later."""
        names = ("ada", "bob", "cid", "dan")
        for name in names:
            self.add(name, "-s")
        folder = self.room()
        self.serving(folder=folder).enrol(**dict.fromkeys(names, "mine")).stop()
        service = self.over(folder=folder)
        self.file.rename(self.folder / "away")
        service.talk("admin disable ada -> disabled\nadmin remove bob bWluZQ -> removed")
        service.talk("admin rename cid eve -> renamed\nadmin delete dan -> deleted")
        service.talk("admin delete zoe -> noaccount\nadmin disable zoe -> noaccount")
        (self.folder / "away").rename(self.file)
        for name, said in zip(names, ("absent", "absent", "noaccount", "noaccount")):
            service.talk(f"login verify {name} {{secret}} -> {said}")

    def test_removed_by_htpasswd(self) -> None:
        """A name that leaves the file is unknown at once; those who move meanwhile aren't lost."""
        names = [f"u{it}" for it in range(400)]
        record = made_by(MAKERS["sha1"], "secret")
        self.file.write_text("".join(f"{it}:{record}\n" for it in names))
        service, left = self.over("--tries", "0"), set(names)
        moved, is_over = set[str](), threading.Event()

        def move() -> None:
            client = service.client()
            for name in names[:300]:
                if client.ask(f"verify {name} {SECRET}") == "yes":
                    moved.add(name)
                if is_over.is_set():
                    break

        mover = threading.Thread(target=move)
        mover.start()
        for name in names[-5:]:
            run("htpasswd", "-D", self.file, name)
            left.discard(name)
            service.client().talk(f"verify {name} {{secret}} -> noaccount")
        is_over.set()
        mover.join()
        self.assertTrue(moved)
        self.assertEqual({it.split(":")[0] for it in self.file.read_text().splitlines()}, left)
        kept = service.client()
        for name in random.sample(sorted(left), 40):
            kept.talk(f"verify {name} {{secret}} -> yes")

    def test_disabled_amid_a_login(self) -> None:
        """A right login that is being judged by the file as its user is disabled doesn't bring the
        user back."""
        self.file.write_text(f"ada:{made_by('htpasswd -niBC 10 u', 'secret')}\n")
        service = self.over("--tries", "0")
        login, admin = service.both()
        login.send(f"a verify ada {SECRET}\n")
        until(lambda: any(it.startswith("verify ada") for it in service.asked()), "the login")
        admin.talk("disable ada -> disabled")
        self.assertEqual(login.line(), b"a yes")
        login.talk("verify ada {secret} -> absent\nknown ada -> absent")

    def test_removed_amid_a_login(self) -> None:
        """A user who leaves the file while a right login is being judged is refused, and doesn't
        move."""
        self.file.write_text(f"ada:{made_by('htpasswd -niBC 15 u', 'secret')}\n")
        service = self.over()
        login, admin = service.both()
        login.send(f"a verify ada {SECRET}\n")
        until(lambda: any(it.startswith("verify ada") for it in service.asked()), "the login")
        run("htpasswd", "-D", self.file, "ada")
        self.assertEqual(login.line(), b"a no")
        admin.talk("known ada -> noaccount")
        self.assertEqual(self.gone(), [])

    def test_a_book_that_refuses(self) -> None:
        """A user whom the book can't store stays in the file: a password of over 256 bytes, or want
        of memory."""
        self.add("ada", "-s")
        service = self.over(faults="refuses=enrol")
        service.talk("login verify ada {secret} -> bad 4 memory\nlogin known ada -> yes")
        self.assertEqual(self.gone(), [])

    def test_who_cant_move(self) -> None:
        """At the start the log names the users who can't move, with the reasons, and never a
        record."""
        lines = "fay:rl0uE2bX6fF1g cid:hunter2 dan:!$6$x Ada:{SHA}x gus:{PLAIN}hunter2 eve:{SHA}x"
        self.file.write_text(lines.replace(" ", "\n"))
        log, why = self.over().log(), "plain text or an unknown scheme"
        said = f"fay (DES), cid ({why}), dan (locked), Ada (not a name of a book), gus ({why})\n"
        self.assertIn(f"credkeep-server: {self.file}: 5 of 6 users can't move: {said}", log)
        self.assertNotIn("hunter2", log)

    def test_a_torn_line(self) -> None:
        """A name that a power cut tore in .moved, or whose line follows it, isn't taken for
        another's."""
        for name in ("ad", "ada", "bob"):
            self.add(name, "-s")
        self.moved.write_text("bob 2026-11-28T05:00:00Z\nada 2026-11-28T05:0")
        service = self.over()
        service.talk("login verify bob {secret} -> noaccount\nlogin verify ada {secret} -> yes")
        lines = self.moved.read_text().splitlines()
        self.assertEqual(lines[1], "ada 2026-11-28T05:0")
        self.assertRegex(lines[2], r"ada 20\d\d-\d\d-\d\dT\d\d:\d\d:\d\dZ")
        service.talk("login known ad -> yes")

    def test_what_stays(self) -> None:
        """Lines with which nobody may have logged in don't move: no record, plain text, DES,
        another user's line, nobody's."""
        self.file.write_text(f"ada:\nbob:{SECRET}\ncid:secret\ndan:!\neli\n:x\nfay:rl0uE2bX6fF1g\n")
        before = self.file.read_text()
        client = self.over("--tries", "0").client()
        for name in ("ada", "bob", "cid", "dan", "eli", "fay"):
            said = {client.ask(f"verify {name} {it}") for it in (SECRET, WRONG, "-", "IQ")}
            self.assertEqual(said, {"noaccount" if name in ("ada", "eli") else "no"}, name)
        client.talk("verify zoe {secret} -> noaccount\nknown zoe -> noaccount")
        self.assertEqual(self.file.read_text(), before)

    def test_names_are_taken(self) -> None:
        """Nobody signs up as, or is renamed to, a user of the file; the book decides about its own
        users."""
        self.add("ada", "-s")
        self.add("bob", "-s", "old")
        service = self.over()
        service.talk(
            """
            admin account ada -> bad 1 exists
            admin enrol ada {fresh} -> noaccount
            admin show ada -> bad 5 noaccount
            admin account cid -> ok
            admin rename cid ada -> exists
            admin rename cid dan -> renamed
            login verify ada {secret} -> yes
            """
        )
        self.add("ada", "-s", "old")
        service.talk("login verify ada b2xk -> no\nadmin delete ada -> deleted")
        service.talk("login verify ada b2xk -> noaccount\nlogin verify bob b2xk -> yes")

    def test_two_lines_of_a_name(self) -> None:
        """Of two lines with one name the first decides, as for nginx and Apache."""
        self.add("ada", "-s")
        first = self.file.read_text()
        self.add("ada", "-s", "old")
        self.file.write_text(first + self.file.read_text().splitlines()[-1] + "\n")
        client = self.over().client()
        client.talk("verify ada b2xk -> no\nverify ada {secret} -> yes")

    def test_mail_names(self) -> None:
        """With --mail-names the file has addresses, in the form that their users type."""
        self.add("Ada@Example.org", "-s")
        service = self.over("--mail-names")
        service.talk("login verify Ada@example.ORG {secret} -> yes")
        service.talk("login verify ada@example.org {secret} -> noaccount")
        self.assertRegex(self.gone()[0], "^e[.][a-z2-7]{30}$")

    def test_audited(self) -> None:
        """In the audit log the move is two changes of the client, without a record or a
        password."""
        self.add("ada", "-s")
        path = self.folder / "audit"
        service = self.over("--audit", str(path))
        service.talk("login verify ada {secret} -> yes\nadmin account bob -> ok")
        lines = [json.loads(line) for line in path.read_text().splitlines()]
        said = [(it["door"], it["operation"], it["name"], it["answer"]) for it in lines]
        ought = [("login", "account", "ada", "ok"), ("login", "enrol", "ada", "enrolled")]
        self.assertEqual(said[:3], [*ought, ("login", "verify", "ada", "yes")])
        self.assertNotRegex(path.read_text(), f"{SECRET}|secret|SHA")

    def test_no_room(self) -> None:
        """While .moved can't be written, users log in, no answer is `disabled`, and the log has one
        line about it."""
        need("prlimit")
        self.add("ada", "-s")
        self.moved.write_text("bob 2026-11-28T05:00:00Z\n" * 80)
        service = self.over(before=("prlimit", "--fsize=2010"))
        service.talk("login verify ada {secret} -> yes\n" * 2)
        service.talk(
            "login change ada {secret} {fresh} -> replaced\nlogin verify ada {secret} -> no"
        )
        service.talk("admin disable ada -> unavailable\nlogin verify ada {fresh} -> yes")
        service.talk("admin remove ada {fresh} -> unavailable\nlogin verify ada {fresh} -> yes")
        self.assertEqual(service.log().count(f"{self.moved}: File too large"), 1)

    def test_links_and_pipes(self) -> None:
        """.moved is a regular file; behind a link nothing is written."""
        self.add("ada", "-s")
        self.moved.symlink_to(self.folder / "elsewhere")
        for said in (os.strerror(errno.ELOOP), *["it isn't a regular file"] * 2):
            log = f"credkeep-server: {self.moved}: {said}\n"
            self.assertEqual(self.over(waits=False).ended(), (1, log))
            if self.moved.is_symlink():
                self.moved.unlink()
                os.mkfifo(self.moved)
            elif not self.moved.is_dir():
                self.moved.unlink()
                self.moved.mkdir()
        self.assertFalse((self.folder / "elsewhere").exists())
        self.moved.rmdir()
        self.file.unlink()
        os.mkfifo(self.file)
        log = f"credkeep-server: {self.file}: it isn't a regular file\n"
        self.assertEqual(self.over(waits=False).ended(), (1, log))

    def test_a_file_that_goes(self) -> None:
        """Without the file the book decides alone; at the start the file has to exist."""
        self.add("bob", "-s")
        service = self.over()
        self.file.rename(self.folder / "away")
        service.talk("login verify ada {secret} -> noaccount\nadmin account ada -> ok")
        self.assertIn(f"{self.file}: No such file", service.log())
        (self.folder / "away").rename(self.file)
        service.talk("login known bob -> yes")
        self.file.unlink()
        log = f"credkeep-server: {self.file}: No such file or directory\n"
        self.assertEqual(self.over(waits=False).ended(), (1, log))
