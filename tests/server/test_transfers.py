"""Tests of bin/credkeep-server: imports, exports and backups of a served book."""

import json
import os
import pathlib
import re
import subprocess
import threading

from served import CHEAP, FAST_BOOK, SECRET, Client, Service, chosen_book, need_module, need_root
from served import real_book, until
from daemon import transfers
from tests.helpers import Ended, Peer, ended, shim
from transfer_case import ASK, LINE, RECORD, TransferCase, text_of

# Lines at the socket that begin no import, and their answers.
REFUSED = {
    "import": "bad 11 line",
    "import ": "bad 11 line",
    "import x": "bad 11 line",
    "import -1": "bad 11 line",
    "import 1 --frob": "bad 11 line",
    "import 1  --update": "bad 11 line",
    "import 1 --workers 2": "bad 11 line",
    "import 1 --json": "bad 11 line",
    "import --update 1": "bad 11 line",
    "import 9999999999999": "bad 11 line",
    f"import {transfers.LONGEST_TEXT + 1}": "bad 16 long",
    "import 999999999999": "bad 16 long",
    "export ada": "bad 11 line",
    "backup /tmp/copy.db": "bad 11 line",
}
# Options and texts of imports, one after another: the status, and how the texts on both streams
# begin and which word they have.
OF_OPTIONS = (
    ("", LINE + "x y\n", 6, "", "credkeep: line 2: "),
    ("--skip-bad", LINE + "x y\n", 0, "1 added, 0 updated, 0 there already, 1 bad", "line 2: "),
    ("", LINE, 6, "", "exists"),
    ("--skip-existing", LINE, 0, "0 added, 0 updated, 1 there already, 0 bad", ""),
    ("--update", LINE, 0, "0 added, 1 updated, 0 there already, 0 bad", ""),
    ("--dry-run", f"cid:{RECORD}\n", 0, "1 added, 0 updated, 0 there already, 0 bad", ""),
    ("--dry-run", LINE, 6, "", "exists"),
    ("", f"cid:!{RECORD}\n", 6, "", "(17 locked)"),
    ("--keep-locked", f"cid:!{RECORD}\n", 0, "1 added, 0 updated, 0 there already, 0 bad", ""),
)
# Texts that aren't what an import reads, over a book with ada: the status, and how many it adds.
ODD_TEXTS: dict[str, tuple[bytes, int, int]] = {
    "empty": (b"", 0, 0),
    "only line ends": (b"\n\n\n", 0, 0),
    "no last line end": (LINE.encode().rstrip(), 0, 1),
    "carriage returns": (LINE.replace("\n", "\r\n").encode(), 0, 1),
    "comments": (b"# bob:x\n" + LINE.encode(), 0, 1),
    "no UTF-8": (b"b\xff\xfeb:" + RECORD.encode() + b"\n" + LINE.encode(), 6, 0),
    "Latin-1 in a comment": (b"# M\xfcller\n" + LINE.encode(), 0, 1),
    "a NUL in a name": (b"b\0b:" + RECORD.encode() + b"\n" + LINE.encode(), 6, 0),
    "NULs": (bytes(100_000), 6, 0),
    "a long line": (b"x" * 1_000_000 + b"\n" + LINE.encode(), 6, 0),
    "a name twice": (LINE.encode() * 2, 6, 0),
    "one that is there": (f"ada:{RECORD}\n".encode() + LINE.encode(), 6, 0),
    "lines of the protocol": (b"1 delete ada\n2 export\n", 6, 0),
}


class Imports(TransferCase):
    def test_failed_tries(self) -> None:
        """The earlier counts end with the book's process: as many may fail again."""
        service = self.over("--tries", "2")
        service.guess("ada", 4)
        service.talk("login verify ada {secret} -> later")
        self.assertEqual(self.ask(service, "import", given=LINE.encode()).status, 0)
        service.talk("login verify ada {wrong} -> no\n" * 2)

    def test_waits(self) -> None:
        """No name is listed that had to wait at the process before, whether the import is done or
        refused; a try on a copy ends no wait."""
        service = self.over("--tries", "1", clocked=True, program=FAST_BOOK)
        for options, text, status, left in (
            ("--dry-run", LINE, 0, " ada:1"),
            ("", LINE, 0, ""),
            ("", "x y\n", 6, ""),
        ):
            service.talk("admin forgive ada -> forgiven\nlogin verify ada {wrong} -> no")
            service.talk("login verify ada {secret} -> later\nadmin waits -> waits ada:1")
            done = self.ask(service, "import", *options.split(), given=text.encode())
            self.assertEqual(done.status, status, done)
            service.talk(f"admin waits -> waits{left}")
            self.assertEqual(service.stats()["waits"], bool(left))
        service.talk("login verify ada {secret} -> yes")
        self.assertEqual(service.log().count("1 names no longer have to wait"), 2)

    def test_ten_thousand(self) -> None:
        """One import adds ten thousand accounts while users log in; the next start has them too."""
        folder = self.room()
        service = self.over("--tries", "0", folder=folder)
        stopping, said = threading.Event(), list[str]()

        def log_in() -> None:
            with Client(service.path()) as client:
                while not stopping.is_set():
                    said.append(client.ask(f"verify ada {SECRET}"))

        threads = [threading.Thread(target=log_in) for _ in range(3)]
        for thread in threads:
            thread.start()
        try:
            done = self.ask(service, "import", given=text_of(10_000))
        finally:
            stopping.set()
            for thread in threads:
                thread.join()
        counts = "10000 added, 0 updated, 0 there already, 0 bad\n"
        self.assertEqual(done, Ended(0, counts))
        self.assertEqual({*said}, {"yes"})
        self.assertEqual(len(self.names(service)), 10_001)
        service.stop()
        service = self.over_again(folder)
        self.assertEqual(len(self.names(service)), 10_001)
        service.talk("login verify ada {secret} -> yes")

    def over_again(self, folder: pathlib.Path) -> Service:
        program = chosen_book()
        costs = () if program == FAST_BOOK else ("--setting", CHEAP)
        return self.serving(*costs, program=program, folder=folder)

    def test_syncs(self) -> None:
        """An import syncs as often for 5,000 accounts as for ten."""
        program = self.room() / "counted"
        counted = f"env LD_PRELOAD={shim()} REFUSE_NTH=0 {real_book()}"
        program.write_text(f'#!/bin/sh\nexec {counted} "$@"\n')
        program.chmod(0o755)
        service, lines = self.over(program=program), text_of(5_010).splitlines(keepends=True)
        syncs = list[str]()
        for text in (lines[:10], lines[10:]):
            done = self.ask(service, "import", given=b"".join(text))
            self.assertIn(f"{len(text)} added", done.written)
            syncs += re.findall(r"SYNCS (\d+)", done.faults)
        self.assertEqual(len(syncs), 2)
        self.assertEqual(syncs[0], syncs[1])

    def test_options(self) -> None:
        """Each option of credkeep's import is passed on, and each line that is left out is
        named."""
        service = self.over()
        for options, text, status, written, faults in OF_OPTIONS:
            with self.subTest(options=options, text=text):
                done = self.ask(service, "import", *options.split(), given=text.encode())
                self.assertEqual(done.status, status, done)
                self.assertTrue(done.written.startswith(written), done)
                self.assertIn(faults, done.faults)
        self.assertEqual(self.names(service), ["ada", "bob", "cid"])
        self.assertEqual(self.ask(service, "marks").written, "cid:locked\n")
        self.serves(service)

    def test_refused_lines(self) -> None:
        """A line that begins nothing leaves the connection as it is."""
        admin = self.over().client("admin")
        for line, said in REFUSED.items():
            with self.subTest(line):
                self.assertEqual(admin.ask(line), said)
                self.assertEqual(admin.ask("known ada"), "yes")

    def test_who_may(self) -> None:
        """The users who may ask the administrator's socket; nobody at another one."""
        service = self.over()
        for words in (["import"], ["export"], ["backup", f"{self.room()}/copy.db"]):
            with self.subTest(words=words):
                done = self.ask(service, *words, door="login")
                self.assertEqual(done.status, 1)
                self.assertIn(f"doesn't allow {words[0]}", done.faults)
        need_root()
        for uid in (65534, 1000):
            command = ["setpriv", f"--reuid={uid}", "--clear-groups", "--regid=65534", ASK]
            done = ended([*command, "--server", str(service.path("admin")), "export"])
            self.assertEqual((done.status, done.written), (5, ""))

    def test_odd_texts(self) -> None:
        """credkeep names a text that isn't lines of accounts, which changes nothing."""
        service = self.over()
        admin = service.client("admin")
        for what, (text, status, added) in ODD_TEXTS.items():
            with self.subTest(what):
                done = self.ask(service, "import", given=text)
                self.assertEqual(done.status, status, done.faults[-300:])
                self.assertEqual(admin.ask("list - 9"), "names ada" + " bob" * added)
                admin.ask("delete bob")
        self.serves(service)

    def test_pieces(self) -> None:
        """A text that comes in pieces, and behind it lines, which are answered too; one of two
        imports at once is refused before its text."""
        service = self.over()
        admin, other = service.client("admin"), service.client("admin")
        self.assertEqual(admin.ask(f"import {len(LINE)}"), f"send {len(LINE)}")
        self.assertEqual(other.ask(f"import {len(LINE)}"), "bad 14 busy")
        self.assertEqual(other.ask("known ada"), "yes")
        for letter in LINE[:-1]:
            admin.send(letter)
        other.talk("known bob -> noaccount")
        admin.send("\nz known ada\n")
        counts = b"1 added, 0 updated, 0 there already, 0 bad"
        ought = [b"t1 ended 0 %d 0" % (len(counts) + 1), counts]
        lines = admin.lines(3)
        self.assertEqual([line for line in lines if line != b"z yes"], ought)
        self.assertEqual(admin.ask("known bob"), "yes")
        self.assertEqual(other.ask("import 0"), "send 0")

    def test_clients_that_go(self) -> None:
        """Amid the text nothing is done; behind it all is, whether anybody reads the answer."""
        service = self.over()
        for sent in ("", LINE[:10], LINE * 5):
            with Client(service.path("admin")) as admin:
                until(lambda: admin.ask("import 1000000") == "send 1000000", "one may come")
                admin.send(sent)
                admin.wait_until_read()
        self.assertEqual(self.names(service), ["ada"])
        with Client(service.path("admin")) as admin:
            begun = f"send {len(LINE)}"
            until(lambda: admin.ask(f"import {len(LINE)}") == begun, "another one may come")
            admin.send(LINE)
        until(lambda: self.names(service) == ["ada", "bob"], "it is done")
        self.serves(service)

    def test_a_text_that_never_ends(self) -> None:
        """credkeep-ask reads so much of it, and the server isn't asked; a client that sends no more
        holds up nobody but other imports."""
        service = self.over("--idle", "15")  # longer than a machine may stall
        with subprocess.Popen(["yes", LINE.strip()], stdout=subprocess.PIPE) as endless:
            command = [ASK, "--server", str(service.path("admin")), "import"]
            done = subprocess.run(command, stdin=endless.stdout, capture_output=True)
            endless.kill()
        self.assertEqual((done.returncode, done.stdout), (6, b""))
        self.assertIn(b"standard input has over 128 MiB", done.stderr)
        admin = service.client("admin")
        admin.ask("import 1000")
        admin.send("x")
        self.serves(service)
        self.assertEqual(self.ask(service, "import", given=LINE.encode()).status, 5)
        self.assertTrue(admin.is_ended(), "it is closed as any idle one is")
        until(lambda: self.ask(service, "import", given=LINE.encode()).status == 0, "an import")

    def test_a_hundred_megabytes(self) -> None:
        """A text of that size which is no import costs nobody else an answer."""
        service = self.over()
        done = self.ask(service, "import", given=b"x" * (100 << 20))
        self.assertEqual((done.status, done.written), (6, ""))
        self.serves(service)

    def test_the_audit_log(self) -> None:
        """The audit log has each import or export that took effect, with its user, and no refused
        or dry ones."""
        audit = self.room() / "audit"
        service = self.over("--audit", str(audit))
        before = len(audit.read_text().splitlines())
        for words in (["import"], ["import"], ["import", "--update", "--dry-run"], ["export"]):
            self.ask(service, *words, given=LINE.encode())
        entries = [json.loads(line) for line in audit.read_text().splitlines()[before:]]
        self.assertEqual([it["operation"] for it in entries], ["import", "export"])
        self.assertEqual([it["door"] for it in entries], ["admin", "admin"])
        counts = "1 added, 0 updated, 0 there already, 0 bad"
        self.assertEqual([it["answer"] for it in entries], [counts, "ok"])
        self.assertNotIn("argon2id", audit.read_text())

    def test_addresses(self) -> None:
        """With --mail-names an import hashes addresses as every operation does; the names of an
        export can be imported again."""
        service = self.over("--mail-names")
        text = f"Ann@Example.org:{RECORD}\n@:{RECORD}\n# x@y\nplain:{RECORD}\n"
        done = self.ask(service, "import", "--skip-bad", given=text.encode())
        self.assertIn("2 added, 0 updated, 0 there already, 1 bad", done.written)
        service.talk("login known Ann@example.ORG -> yes\nlogin known plain -> yes")
        exported = self.ask(service, "export").written.encode()
        done = self.ask(service, "import", "--update", given=exported)
        self.assertIn("0 added, 3 updated", done.written)


class Copies(TransferCase):
    def test_export(self) -> None:
        """An export has each account with its marks, and an import of the export builds the same
        book."""
        service = self.over()
        service.talk("admin account bob -> ok\nadmin account cid -> ok\nadmin lock cid -> locked")
        service.talk("admin expire ada -> expired\nadmin lock ada -> locked")
        record = service.client("admin").ask("show ada")
        exported = self.ask(service, "export")
        self.assertEqual(exported, Ended(0, f"ada:{record}\nbob:\ncid:!\n"))
        other = self.serving("--setting", CHEAP, program=chosen_book())
        done = self.ask(other, "import", "--keep-locked", given=exported.written.encode())
        self.assertEqual(done.status, 0, done)
        self.assertEqual(self.ask(other, "export"), exported)
        self.assertEqual([it.name for it in service.folder.glob("*-transfer*")], [])

    def test_export_of_a_book_that_is_asked(self) -> None:
        """A client that doesn't read its export holds up nobody: no login, import or export."""
        service = self.over()
        self.assertEqual(self.ask(service, "import", given=text_of(20_000)).status, 0)
        admin = service.client("admin")
        admin.send("1 export\n")
        self.assertRegex(admin.line(), rb"1 ended 0 \d+ 0")
        self.serves(service)
        self.assertEqual(self.ask(service, "import", given=LINE.encode()).status, 0)
        self.assertEqual(len(self.ask(service, "export").written.splitlines()), 20_002)
        lines = admin.lines(20_001)
        self.assertEqual(lines[1:], text_of(20_000).splitlines())
        service.stop()

    def test_a_closed_pipe(self) -> None:
        """credkeep-ask reports an export that it can't write, and doesn't take a truncated one for
        whole."""
        service = self.over()
        with open("/dev/full", "w") as full:
            done = ended([ASK, "--server", str(service.path("admin")), "export"], stdout=full)
        said = "credkeep-ask: the answer arrived, but writing the output failed\n"
        self.assertEqual(done, Ended(2, "", said))
        path = self.room() / "peer"
        whole = b"1 ended 0 5 0\nada:\n"
        for said in (whole[:-1], whole.replace(b"5", b"x"), b"1 ended 0 5\nada:\n", b"1 ok\n"):
            with Peer(path, lambda _, client: client.sendall(said)):
                done = ended([ASK, "--server", str(path), "export"])
            path.unlink()
            self.assertEqual(done.status, 5, done)

    def test_backup(self) -> None:
        """A backup is the whole book, readable by its owner alone; no other file stays beside
        either."""
        service, room = self.over(), self.room()
        copy = room / "a copy.db"
        done = self.ask(service, "backup", str(copy))
        self.assertEqual((done.status, done.faults), (0, ""))
        self.assertRegex(done.written, "^1 account")
        self.assertEqual(copy.stat().st_mode & 0o777, 0o600)
        self.assertEqual(os.listdir(room), ["a copy.db"])
        self.assertEqual([it.name for it in service.folder.glob("*-transfer*")], [])
        other = self.serving("--setting", CHEAP, program=chosen_book(), file=copy)
        other.talk("login verify ada {secret} -> yes")
        self.assertEqual(self.ask(service, "backup", str(room / "none/copy.db")).status, 5)

    def test_a_file_that_is_no_copy(self) -> None:
        """A backup replaces only a database, and no other file."""
        real_book()
        service, file = self.over(), self.room() / "passwd"
        file.write_text("root:x:0:0:root:/root:/bin/bash\n")
        self.assertEqual(self.ask(service, "backup", str(file)).status, 5)
        self.assertEqual(file.read_text(), "root:x:0:0:root:/root:/bin/bash\n")

    def test_a_copy_that_a_kill_left(self) -> None:
        """The next start removes a copy that a kill left."""
        folder = self.room()
        service = self.over(folder=folder)
        service.stop()
        for name in ("users.db-transfer", "users.db-transfer-wal", "users.db-transfer-new"):
            (folder / name).write_text("x")
        self.serving(folder=folder, program=chosen_book())
        self.assertEqual([it.name for it in folder.glob("*-transfer*")], [])

    def test_users_whom_an_old_file_bars(self) -> None:
        """Users whom an old file bars are locked in an export, as in each answer of the server."""
        need_module("passlib")
        folder = self.room()
        (folder / "htpasswd").write_text("ada:{SHA}x:::nologin\nbob:{SHA}x:::\n")
        service = self.over(folder=folder, program=FAST_BOOK)
        service.stop()
        service = self.serving("--foreign", f"{folder}/htpasswd", folder=folder)
        exported = self.ask(service, "export").written
        self.assertRegex(exported, r"^ada:!\$fast\$")
