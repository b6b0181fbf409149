"""Tests of bin/credkeep-server over credkeep itself. The other tests' book must give the same
answers.

The tests need the built credkeep, or the one that CREDKEEP names.
"""

import contextlib
import pathlib
import random
import socket
import time
from typing import Any

from machine import commands_on_page, shell
from served import CHEAP, FAST_BOOK, SECRET, Case, Client, Service, field_of, need, ran, real_book
from served import cpu, until
from daemon.costs import USUAL
from tests.helpers import run

DEARER = "$argon2id$v=19$m=128,t=2,p=1"
RECORD = "$argon2id$v=19$m=8,t=1,p=1$c29tZXNhbHQ$AAAAAAAAAAAAAAAAAAAAAA"
# By costs of a line, with new records of CHEAP: whether they are within the bounds.
LINES_COSTS = {
    "$argon2id$v=19$m=1024,t=1,p=1": True,
    "$argon2id$v=19$m=1025,t=1,p=1": False,
    "$argon2id$v=19$m=2097152,t=1,p=1": False,
    "$argon2id$v=19$m=512,t=2,p=1": True,
    "$argon2id$v=19$m=512,t=3,p=1": False,
    "$argon2id$v=19$m=8,t=4294967295,p=1": False,
    "$scrypt$ln=9,r=8,p=1": True,
    "$scrypt$ln=9,r=9,p=1": False,
}
SLOW = "$argon2id$v=19$m=16384,t=3,p=1"
# Lines at a socket, and their answers.
OPERATIONS = """
login known ada -> noaccount
login verify ada {secret} -> noaccount
login change ada {secret} {fresh} -> noaccount
admin account ada -> ok
admin account ada -> bad 1 exists
admin account Ada -> bad 3 name
login known ada -> absent
login verify ada {secret} -> absent
login change ada {secret} {fresh} -> absent
admin enrol ada {secret} -> enrolled
admin enrol ada {secret} -> exists
login known ada -> yes
login verify ada {secret} -> yes
login verify ada {wrong} -> no
admin login ada {secret} -> yes
admin upgrade ada {secret} -> kept
admin upgrade ada {secret} DEARER$c29tZXNhbHQ -> upgraded
admin login ada {secret} -> yes
admin upgrade ada {secret} -> kept
login change ada {wrong} {fresh} -> wrong
login change ada {secret} {fresh} -> replaced
login verify ada {secret} -> no
login verify ada {fresh} -> yes
admin reset ada {secret} -> replaced
login verify ada {secret} -> yes
admin remove ada {wrong} -> wrong
admin remove ada {secret} -> removed
admin show ada -> none
admin load ada RECORD -> ok
admin show ada -> RECORD
login known ada -> yes
login verify ada {secret} -> no
login verify ada -> bad 11 line
login verify ada  -> bad 13 password
login verify ada ! -> bad 13 password
login verify ada AAAAA -> bad 13 password
login verify ada LONGEST -> no
login verify ada LONGESTAA -> bad 13 password
login verify  ada -> bad 3 name
login verify Ada - -> bad 3 name
login verify ä - -> bad 3 name
login change ada {secret} -> bad 11 line
admin account -> bad 3 name
admin enrol ada -> bad 11 line
admin enrol ada {secret} costs -> bad 1 shape
admin disable ada {secret} -> bad 11 line
admin account bob -> ok
admin reset bob {wrong} -> enrolled
admin rename ada eve -> renamed
admin rename ada fay -> noaccount
admin rename eve bob -> exists
admin list - 10 -> names bob eve
admin list c 1 -> names eve
admin disable bob -> disabled
login known bob -> absent
admin disable bob -> absent
admin delete bob -> deleted
admin delete bob -> noaccount
login known bob -> noaccount
admin begin 1 verify ada - -> denied
admin frob ada -> denied
"""
OPERATIONS = OPERATIONS.replace("RECORD", RECORD).replace("LONGEST", "A" * 342)


def hashed(address: str) -> str:
    """The name of an address in the book, by the page's coreutils."""
    (command,) = commands_on_page("printf %s ada@example.org")
    return f"e.{shell(command.replace('ada@example.org', address)).strip()}"


class OverCredkeep(Case):
    def over(self, *options: str, costs: str = CHEAP, **fields: Any) -> Service:
        setting = () if "--upgrade" in options else ("--setting", costs)
        return self.serving(*options, *setting, program=real_book(), **fields)

    def listed(self, folder: pathlib.Path) -> list[str]:
        """The names in the file, once the server has ended in order."""

        book = (real_book(), folder / "users.db")
        names = run(*book, "list").split()
        plural = "" if len(names) == 1 else "s"
        counts = f"{len(names)} account{plural}, 0 changes in the log\n"
        self.assertEqual(run(*book, "verify"), counts, "it wasn't closed in order")
        return names

    def test_operations(self) -> None:
        """Each operation of the sockets, with the answers of docs/SERVING.md, which the other
        tests' book gives too."""
        books = {FAST_BOOK: ("$fast$c=1", "$fast$c=2"), real_book(): (CHEAP, DEARER)}
        for program, (costs, dearer) in books.items():
            service = self.serving("--setting", costs, program=program)
            service.talk(OPERATIONS.replace("DEARER", dearer))
            service.stop()
        self.assertEqual(self.listed(service.folder), ["eve"])

    def test_mail_names(self) -> None:
        """--mail-names: each operation by name, under the name that coreutils make of the
        address."""
        need("b2sum", "base32", "xxd")
        service = self.over("--mail-names")
        login, admin = service.both()
        admin.talk(
            f"""
            account ada@example.org -> ok
            account ada@EXAMPLE.org -> bad 1 exists
            account Ada@example.org -> ok
            enrol ada@Example.Org {{secret}} -> enrolled
            verify ada@example.org {{secret}} -> yes
            login ada@example.org {{secret}} -> yes
            verify Ada@example.org {{secret}} -> absent
            verify eve@example.org {{secret}} -> noaccount
            change ada@example.org {{secret}} {{wrong}} -> replaced
            upgrade ada@example.org {{wrong}} -> kept
            reset ada@example.org {{secret}} -> replaced
            rename Ada@example.org bob@example.org -> renamed
            account plain.name -> ok
            load plain.name {RECORD} -> ok
            account x@Y@Example.org -> ok
            account x@Y@example.org -> bad 1 exists
            account x@y@example.org -> ok
            delete x@y@example.org -> deleted
            rename x@Y@example.org dan@example.org -> renamed
            delete dan@example.org -> deleted
            known bob@example.org -> absent
            account {"x" * 242}@example.org -> ok
            delete {"x" * 242}@example.org -> deleted
            account {"x" * 243}@example.org -> bad 3 name
            rename plain.name cid@example.org -> renamed
            disable cid@example.org -> disabled
            """
        )
        names = sorted(map(hashed, ("ada@example.org", "bob@example.org", "cid@example.org")))
        self.assertEqual(admin.ask("list - 10").split()[1:], names)
        self.assertEqual(admin.ask(f"list {names[1]} 10").split()[1:], names[1:])
        admin.talk("delete bob@example.org -> deleted\ndelete cid@example.org -> deleted")
        ada, odd = hashed("ada@example.org"), ["@", "a@", "@b", "a\t@b", "a@b\x7f", "a\0@b"]
        for name in [*odd, "x" * 254 + "@y", ada]:
            self.assertEqual(login.ask(f"verify {name} {SECRET}"), "bad 3 name", name)
        self.assertEqual(admin.ask(f"rename ada@example.org {names[1]}"), "bad 3 name")
        self.assertEqual(login.ask(f"verify ada@example.org {SECRET}"), "yes")
        # names that are hashed make a line longer
        admin.talk(f"rename a@b c@d {'x' * 886} -> bad 11 line")
        admin.talk(f"rename a@b c@d {'x' * 887} -> bad 16 long\naccount e.short -> ok")
        service.stop()
        self.assertEqual(self.listed(service.folder), sorted(["e.short", ada]))
        self.assertNotIn(b"example", (service.folder / "users.db").read_bytes())

    def test_folded_and_plain_names(self) -> None:
        """--fold-local-part folds it all; without --mail-names an address is no name."""
        need("b2sum", "base32", "xxd")
        admin = self.over("--mail-names", "--fold-local-part").client("admin")
        admin.talk("account Ada@Example.org -> ok\naccount ada@example.ORG -> bad 1 exists")
        admin.talk(f"list - 10 -> names {hashed('ada@example.org')}")
        plain = self.over().client("admin")
        plain.talk(f"account ada@example.org -> bad 3 name\naccount {hashed('a@b')} -> ok")

    def test_upgrades(self) -> None:
        """--upgrade: a right verify of other costs is upgraded after its answer, and nothing
        else."""
        folder = self.room()
        self.over(folder=folder).enrol(ada="secret", bob="secret", cid="secret").stop()
        audit = folder / "audit"
        service = self.over("--upgrade", DEARER, "--audit", str(audit), folder=folder)
        login, admin = service.both()

        def has(name: str, costs: str) -> bool:
            return admin.ask(f"show {name}").startswith(f"{costs}$")

        login.talk("verify bob {wrong} -> no\nknown cid -> yes\nverify ada {secret} -> yes")
        until(lambda: has("ada", DEARER), "an upgrade")
        until(lambda: "upgraded" in audit.read_text(), "its line")
        record = admin.ask("show ada")
        login.talk("verify ada {secret} -> yes")
        time.sleep(0.3)
        self.assertEqual(admin.ask("show ada"), record, "a record that has these costs")
        self.assertTrue(has("bob", CHEAP) and has("cid", CHEAP))
        login.talk("verify cid {secret} -> yes")
        until(lambda: has("cid", DEARER), "a second upgrade")
        admin.talk("reset bob {secret} -> replaced")
        self.assertTrue(has("bob", DEARER), "the costs of new records")
        service.stop()
        self.assertIn(" upgraded=2 ", service.log())
        service = self.over("--upgrade", DEARER, folder=folder)
        for name in ("ada", "bob", "cid"):
            self.assertEqual(service.client().ask(f"verify {name} {SECRET}"), "yes")
        time.sleep(0.2)
        self.assertIn(" upgraded=0 ", service.client("admin").ask("stats"))

    def test_costs_of_lines(self) -> None:
        """A line's setting or record may need 16 times what new ones do, and needs a socket that
        may load."""
        service = self.over("--tries", "0").enrol(ada="secret")
        admin, login = service.client("admin"), service.client()
        for costs, is_taken in LINES_COSTS.items():
            setting = f"{costs}$c29tZXNhbHQ"
            change = f"change ada {SECRET} {SECRET} {setting}"
            self.assertEqual(login.ask(change), "denied")
            for line, said in (
                (change, "replaced"),
                (f"reset ada {SECRET} {setting}", "replaced"),
                (f"load ada {RECORD}", "ok"),
                (f"load ada {setting}${'A' * 22}", "ok"),
                (f"reset ada {SECRET}", "replaced"),
                (f"upgrade ada {SECRET} {setting}", "upgraded"),
                ("disable ada", "disabled"),
                (f"enrol ada {SECRET} {setting}", "enrolled"),
            ):
                with self.subTest(line):
                    is_costly = setting in line and not is_taken
                    self.assertEqual(admin.ask(line), "bad 18 costly" if is_costly else said)
            admin.ask(f"reset ada {SECRET}")
        login.talk("verify ada {secret} -> yes")

    def test_dearer_records(self) -> None:
        """A record of earlier, higher costs is judged and replaced, though no line may bring it
        now."""
        room = self.room()
        self.over(folder=room).enrol(ada="secret", bob="secret").stop()
        dear = "$argon2id$v=19$m=4096,t=2,p=1"
        book = (real_book(), room / "users.db")
        run(*book, "reset", "ada", "--setting", dear, given="secret\n")
        service = self.over(folder=room)
        admin, login = service.client("admin"), service.client()
        record = admin.ask("show ada")
        self.assertTrue(record.startswith(f"{dear}$"), record)
        login.talk("verify ada {wrong} -> no\nverify ada {secret} -> yes\nknown ada -> yes")
        admin.talk(f"load bob {record} -> bad 18 costly\nrename ada ann -> renamed")
        login.talk("change ann {secret} {fresh} -> replaced")
        self.assertTrue(admin.ask("show ann").startswith(f"{CHEAP}$"))
        service.stop()
        for options, said in (
            ("--most-memory 4M", "bad 18 costly"),
            ("--most-work 8M", "bad 18 costly"),
            ("--most-memory 4M --most-work 8M", "ok"),
        ):
            service = self.over(*options.split(), folder=room)
            service.talk(f"admin load bob {record} -> {said}")
            service.stop()

    def test_costs_if_none_are_given(self) -> None:
        """The bounds follow from the costs that credkeep itself gives new records."""
        service = self.serving(program=real_book())
        service.talk("admin account ada -> ok\nadmin enrol ada {secret} -> enrolled")
        self.assertTrue(service.client("admin").ask("show ada").startswith(f"{USUAL}$"))
        tag = "A" * 22
        for costs, said in (
            ("m=1048576,t=1,p=1", "ok"),
            ("m=1048577,t=1,p=1", "bad 18 costly"),
            ("m=1024,t=3072,p=1", "ok"),
            ("m=1024,t=3073,p=1", "bad 18 costly"),
        ):
            line = f"load ada $argon2id$v=19${costs}$c29tZXNhbHQ${tag}"
            self.assertEqual(service.client("admin").ask(line), said)

    def test_long_lines(self) -> None:
        """A line of 960 bytes is answered; a longer one, of any size, is refused under its tag, and
        its client goes on."""
        service = self.over()
        client, admin = service.both()
        for size in (959, 960, 961, 4096, 4097, 1 << 20):
            for tag, word, said in (("a", b"a", b"bad 13 password"), ("A", b"*", b"bad 11 line")):
                client.send(f"{tag} verify ada ".ljust(size, "A") + "\nb known ada\n")
                ought = b"%b %b" % (word, said if size <= 960 else b"bad 16 long")
                self.assertEqual(client.lines(2), [ought, b"b noaccount"], f"{size}")
        client.send("a" * 961 + "\n\n\nc known ada\n")
        ought_all = [b"* bad 16 long", b"* bad 11 line", b"* bad 11 line", b"c noaccount"]
        self.assertEqual(client.lines(4), ought_all)
        client.send(f"{'f' * 20} change {'n' * 32} {'A' * 342} {'A' * 342}\n")
        self.assertEqual(client.line(), b"f" * 20 + b" noaccount")
        long, name = field_of(b"\xff" * 256), "x" * 32
        admin.talk(f"change {name} {long} {long} {'y' * 150} -> bad 1 shape")
        setting = f"{CHEAP}$c29tZXNhbHQ {'y' * 120}"
        admin.talk(f"change {name} {long} {long} {setting} -> bad 11 line")

    def test_noise(self) -> None:
        """Binary noise, in lines and without, hurts only who sends it."""
        chance, service = random.Random(1), self.over("--tries", "0")
        service.enrol(ada="secret")
        good, pid = service.client(), service.book_pid()
        for turn in range(40):
            data = chance.randbytes(chance.choice([10, 1000, 100000]))
            if turn % 4 > 1:  # lines with a tag, an operation and then anything
                data = b"".join(b"t verify " + it[:900] + b"\n" for it in data.split(b"\n"))
            with Client(service.path("admin" if turn % 2 else "login")) as client:
                with contextlib.suppress(OSError):
                    client.send(data)
                    client.socket.shutdown(socket.SHUT_WR)
                    while client.line():
                        pass
            self.assertEqual(good.ask(f"verify ada {SECRET}"), "yes")
        self.assertEqual(service.book_pid(), pid)
        service.stop()
        self.assertNotIn("answered a line that nobody sent", service.log())
        self.assertTrue(service.log().isascii(), "noise in the log")

    def test_unknown_names(self) -> None:
        """An unknown name, and one without a record, cost as much processor time as a wrong
        password."""
        service = self.over("--tries", "0", costs=SLOW).enrol(ada="secret")
        service.client("admin").talk("account bob -> ok")

        def cost(row: str) -> float:
            before = cpu(service.book_pid())
            service.client().talk(f"{row}\n" * 12)
            return cpu(service.book_pid()) - before

        verify = cost("verify ada {wrong} -> no")
        change = cost("change ada {wrong} {fresh} -> wrong")
        for row, ours in (
            ("verify zoe {wrong} -> noaccount", verify),
            ("verify bob {wrong} -> absent", verify),
            ("change zoe {wrong} {fresh} -> noaccount", change),
            ("change bob {wrong} {fresh} -> absent", change),
        ):
            self.assertTrue(0.6 * ours < cost(row) < 1.7 * ours, f"{row}: a wrong one is {ours} s")
        self.assertLess(cost("known zoe -> noaccount"), 0.3 * verify, "known costs a hash")

    def test_options_that_cant_be_met(self) -> None:
        """Costs that credkeep doesn't take, and memory for no hash of theirs, end the start, with
        its text and a status."""
        start, more = "--upgrade $argon2id$", "--memory: a hash under --setting needs more:"
        for words, said in (
            *((f"{start}{it}", "--setting: ") for it in ("v=19$m=64", "m=64,t=1,p=1")),
            (f"{start}v=19$t=1,m=64,p=1", "--setting: "),
            *((f"--memory {it}", f"{more} 65536 KiB") for it in ("32M", "0", "65535")),
            ("--memory 1G --setting $argon2id$v=19$m=2097152,t=1,p=1", f"{more} 2097152 KiB"),
            ("--memory 64K --upgrade $argon2i$v=19$m=65,t=3,p=1", f"{more} 65 KiB"),
            ("--memory 16383K --setting $scrypt$ln=14,r=8,p=2", f"{more} 16384 KiB"),
        ):
            given: dict[str, Any] = {"program": real_book(), "waits": False}
            status, log = self.serving(*words.split(), **given).ended()
            self.assertNotEqual(status, 0, log)
            for text in (f"credkeep: {said}", "end: status "):
                self.assertIn(text, log)
            self.assertNotRegex(log, "start:|Traceback")

    def test_busy_file(self) -> None:
        """While another process has the file, the server waits for the file; then it logs why it
        can't start."""
        room = self.room()
        self.over(folder=room)
        words = f"--credkeep {real_book()} --wait 1 --socket a {room}/second 0600 - all"
        status, _, faults = ran(*words.split(), f"{room}/users.db")
        self.assertNotIn(status, (0, 1), faults)
        self.assertNotIn("start:", faults)
        self.assertIn("end: status", faults)
