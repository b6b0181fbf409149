"""Tests of bin/credkeep-server: its counts, logs and audit log, and its messages about its own
faults."""

import datetime
import json
import os
import pathlib
import re
import signal
import subprocess
import urllib.request
from unittest import mock

from machine import is_open, shell
from served import SECRET, TOP, WRONG, Case, Client, Service, field_of, need, ran, until
from daemon import tally
from daemon.options import Options
from daemon.protocol import OPERATIONS
from tests.helpers import Peer, run
from tests.needs import need_file
from tests.ports import free_port


def noted(path: pathlib.Path) -> list[dict[str, object]]:
    """The lines of an audit log."""
    return [json.loads(line) for line in path.read_text().splitlines()]


class Seen(Case):
    def test_stats(self) -> None:
        """Each kind of answer is counted, at the admin socket alone."""
        service = self.serving("--tries", "2", clocked=True).enrol(ada="secret")
        login, admin = service.both()
        before = service.stats()
        login.talk(
            """
            verify ada {secret} -> yes
            verify ada {secret} -> yes
            change ada {secret} {secret} -> replaced
            verify ada {wrong} -> no
            change ada {wrong} {secret} -> wrong
            verify ada {secret} -> later
            verify zoe {secret} -> noaccount
            list - 1 -> denied
            known ada -> yes
            stats -> denied
            """
        )
        after = service.stats()
        grown = {name: after[name] - before[name] for name in after if name != "waited"}
        ought = {"yes": 3, "no": 2, "later": 1, "noaccount": 1, "changes": 1, "denied": 2}
        ought |= {"absent": 0, "refused": 0, "clients": 0, "waits": 1, "upgraded": 0}
        ought |= {"memory": 0, "disk": 0}
        self.assertEqual(grown, ought)
        self.assertEqual((before["changes"], before["clients"]), (2, 3))

    def test_waited(self) -> None:
        """The seconds that lines waited for their turn are counted."""
        service = self.serving("--at-once", "1", "--tries", "0", faults="slow=0.2")
        client = service.client()
        client.send("a verify ada -\n" * 6)
        client.lines(6)
        # One has a place at once; the others follow after 0.2, 0.4 .. 1 s.
        waited = service.stats()["waited"]
        self.assertTrue(2.9 < waited < 20, f"{waited} s")

    def test_metrics(self) -> None:
        """--metrics prints the counts as Prometheus reads them, with the book's name at each."""
        room = self.room()
        file = room / 'my "%s.db'
        service = self.serving(file=file).enrol(ada="secret")
        self.assertTrue(file.exists())
        service.client().talk("verify ada {wrong} -> no")
        status, text, faults = ran("--metrics", str(service.path("admin")))
        self.assertEqual((status, faults), (0, ""))
        samples = [line for line in text.splitlines() if not line.startswith("#")]
        book = f'book="tmp-{room.name}-my___s"'
        self.assertIn(f'credkeep_tries_total{{{book},answer="no"}} 1', samples)
        self.assertIn(f"credkeep_changes_total{{{book}}} 2", samples)
        form = rf"credkeep_[a-z_]+\{{{book}(,answer=\"[a-z]+\")?\}} \d+(\.\d+)?"
        self.assertEqual([it for it in samples if not re.fullmatch(form, it)], [])
        typed = re.findall(r"^# TYPE (\S+) (counter|gauge)$", text, re.M)
        ought = list[tuple[str, str]]()
        for sample in samples:
            name = re.split("[ {]", sample)[0]
            row = (name, "counter" if name.endswith("_total") else "gauge")
            if row not in ought:
                ought.append(row)
        self.assertEqual(typed, ought)
        self.assertEqual(len(samples), len(service.stats()), "each count is a sample")

    def test_metrics_of_no_server(self) -> None:
        """--metrics at a login socket, at a socket without a server, and at one that answers no
        counts."""
        odd = self.room() / "odd"
        said = [b"1 stats\n", b"1 stats yes\n", b"1 stats yes=1 yes=\xff\n", b"\n", b""]
        with Peer(odd, lambda _, client: client.sendall(said.pop())):
            for path in (str(self.serving().path()), "/nonexistent", *[str(odd)] * len(said)):
                status, text, faults = ran("--metrics", path)
                self.assertEqual((status, text), (1, ""))
                self.assertRegex(faults, rf"^credkeep-server: {path}: .*\n$")

    def test_metrics_of_two_books(self) -> None:
        """Debian's exporter keeps the counts of both."""
        need("prometheus-node-exporter")
        room, port = self.room(), free_port()
        for name, count in (("users", 1), ("mail", 2)):
            service = self.serving(file=self.room() / f"{name}.db")
            service.talk("".join(f"admin account n{it} -> ok\n" for it in range(count)))
            text = ran("--metrics", str(service.path("admin")))[1]
            (room / f"{name}.prom").write_text(text)
        words = f"prometheus-node-exporter --web.listen-address=127.0.0.1:{port}"
        words += " --collector.disable-defaults --collector.textfile"
        words += f" --collector.textfile.directory={room}"
        exporter = subprocess.Popen(words.split(), stderr=subprocess.DEVNULL)
        self.addCleanup(exporter.wait)
        self.addCleanup(exporter.terminate)
        until(lambda: is_open(port), "the exporter")
        with urllib.request.urlopen(f"http://127.0.0.1:{port}/metrics", timeout=120) as answer:
            text = answer.read().decode()
        found = re.findall(r'^credkeep_changes_total{book="tmp-\S+-(\w+)"} (\d+)$', text, re.M)
        self.assertEqual(sorted(found), [("mail", "2"), ("users", "1")])
        self.assertIn("node_textfile_scrape_error 0", text)

    def test_want_of_memory(self) -> None:
        """The server counts lines that find no memory, and logs them once an hour."""
        service = self.serving(faults="refuses=verify")
        service.client().talk("verify ada {secret} -> bad 4 memory\n" * 3)
        self.assertEqual(service.stats()["memory"], 3)
        self.assertEqual(service.log().count("no memory for a hash"), 1)

    def test_last(self) -> None:
        """`last` answers the time of a name's last right password."""
        service = self.serving().enrol(ada="secret")
        service.talk("login verify ada {wrong} -> no\nadmin last ada -> none\nadmin last z -> none")
        before = datetime.datetime.utcnow().replace(microsecond=0)
        service.client().talk("verify ada {secret} -> yes")
        said, moment = service.client("admin").ask("last ada").split()
        when = datetime.datetime.strptime(moment, "%Y-%m-%dT%H:%M:%SZ")
        self.assertEqual(said, "last")
        self.assertTrue(before <= when <= before + datetime.timedelta(seconds=20), moment)

    def test_last_logins_are_bounded(self) -> None:
        """If there are too many right logins, the server forgets the oldest."""
        verify = OPERATIONS[b"verify"]
        with mock.patch.object(tally, "REMEMBERED", 2):
            counted = tally.Tally(Options())
            for name in "abac":
                counted.count(verify, name, "yes")
        self.assertEqual(
            [counted.answer(b"last", it)[:4] for it in "abc"], ["last", "none", "last"]
        )


# What no log may have: passwords, as they are and as fields, and names.
TYPED = field_of(b"hunter2")
SECRETS = [SECRET, "secret", WRONG, "ada", "zoe", "hunter2", TYPED]


def asked_all(service: Service) -> None:
    """Right, wrong and odd lines; the server, or its book, may end amid these."""
    service.enrol(ada="secret")
    client = service.client()
    for line in (
        *(f"verify ada {SECRET}", f"enrol zoe {WRONG}", "hunter2 x", f"hunter2 {TYPED}"),
        *(f"change ada {WRONG} {SECRET}", f"verify ada {SECRET} {SECRET}"),
    ):
        client.ask(line)
    client.send(f"a verify ada {SECRET * 300}\n")
    client.line()
    with Client(service.path()) as client:
        client.send(f"a verify ada {SECRET}\n" * 50)
    for _ in range(3):
        service.client().ask("enrol zoe x")


class Logs(Case):
    def test_logs(self) -> None:
        """No password, no line and no name is logged, whatever happens and however it is
        started."""
        debug = {"PYTHONASYNCIODEBUG": "1", "PYTHONDEVMODE": "1"}
        for faults in ("", "garbage", "dies=6", "endless", "answers=yes\x07"):
            service = self.serving(faults=faults, environment=debug)
            try:
                asked_all(service)
            except (AssertionError, OSError):
                self.assertTrue(faults, "it ended")
            service.end()
            for secret in SECRETS:
                self.assertNotIn(secret, service.log())
            if not faults:
                denied = f": denied at login to uid {os.getuid()}: enrol\n"
                self.assertEqual(service.log().count(denied), 1, "it is told once")
                self.assertIn("an unknown operation", service.log())
                self.assertIn("end: status 0", service.log())

    def test_upgrades_are_behind(self) -> None:
        """A slow upgrade holds up neither its own client nor another."""
        folder = self.room()
        self.serving(folder=folder).enrol(ada="secret", bob="secret").stop()
        service = self.serving("--upgrade", "$fast$c=2", faults="mute=upgrade", folder=folder)

        def upgraded() -> list[str]:
            return [it.split()[1] for it in service.asked() if it.startswith("upgrade")]

        for name in ("ada", "bob", "ada"):
            self.assertEqual(service.client().ask(f"verify {name} {SECRET}"), "yes")
        until(lambda: upgraded() != [], "an upgrade")
        self.assertEqual(upgraded(), ["ada"], "one at a time")
        service.process.kill()

    def test_types(self) -> None:
        """mypy --strict takes its modules, and credkeep-ask's, by the oldest Python for them."""
        need("mypy")
        need_file("/usr/lib/python3/dist-packages/passlib-stubs")
        words = ("mypy", "--strict", "--python-version=3.9", f"--cache-dir={self.room()}")
        run(*words, "daemon", at=TOP / "python/rigzumal/server")


# Lines, and whether the audit log has them, with their names and answers there.
AUDITED = """
admin account ada -> ok | ada ok
admin enrol ada {secret} -> enrolled | ada enrolled
login change ada {wrong} {secret} -> wrong | ada wrong
login change ada {secret} {wrong} -> replaced | ada replaced
login verify ada {secret} -> no |
login verify ada {wrong} -> yes | ada yes
login change hunter2 {secret} {wrong} -> noaccount |
login change hunter2 {secret} {wrong} {wrong} -> denied |
admin change hunter2 {secret} {wrong} {wrong} -> bad 1 shape |
admin account ada -> bad 1 exists |
login known ada -> yes |
admin list - 5 -> names ada |
login delete ada -> denied |
admin upgrade ada {wrong} $fast$c=2$c2FsdHNhbHQ -> upgraded | ada upgraded
admin remove ada {wrong} -> removed | ada removed
admin reset ada {secret} -> enrolled | ada enrolled
admin login ada {secret} -> yes | ada yes
admin lock ada -> locked | ada locked
admin unlock ada -> unlocked | ada unlocked
admin expire ada -> expired | ada expired
login verify ada {secret} -> expired | ada expired
admin load ada $fast$c=1$x$y -> ok | ada ok
admin rename ada bob -> renamed | ada renamed
admin disable bob show -> bob:$fast$c=1$x$y | bob disabled
admin disable bob -> absent | bob absent
admin delete bob -> deleted | bob deleted
"""


class Audited(Case):
    def test_keys(self) -> None:
        """The manual names each key that a line has, and no other one."""
        page = (TOP / "man/credkeep-server.8").read_text()
        found = re.search(r"A line has the keys (.*?)\.\n", page, re.S)
        assert found
        path = self.room() / "audit"
        service = self.serving("--audit", str(path))
        service.talk("admin account ada -> ok\nadmin rename ada eve -> renamed")
        keys = {key for entry in noted(path) for key in entry}
        self.assertEqual(keys, {*re.findall(r"\\fB(\w+)\\fP", found[1])})

    def test_lines(self) -> None:
        """Each change is a line of JSON, with who asked for it and the answer; right logins are
        too."""
        path, rows = self.room() / "audit", AUDITED.strip().splitlines()
        asked = [row.partition(" |")[0] for row in rows]
        noted_as = [row.partition(" |")[2].strip() for row in rows]
        service = self.serving("--audit", str(path), "--tries", "0")
        service.talk("\n".join(asked))
        self.assertEqual((service.stats()["changes"], service.stats()["yes"]), (13, 6))
        service.stop()
        lines = noted(path)
        whole = {"door": "admin", "uid": os.getuid(), "pid": os.getpid(), "operation": "account"}
        whole |= {"name": "ada", "answer": "ok", "time": lines[0]["time"]}
        self.assertEqual((lines[0], path.stat().st_mode & 0o777), (whole, 0o600))
        self.assertEqual({it["uid"] for it in lines}, {os.getuid()})
        self.assertRegex(str(lines[0]["time"]), r"^\d{4}-\d\d-\d\dT\d\d:\d\d:\d\dZ$")
        keys = ("door", "operation", "name", "answer")
        said = [" ".join(str(line[key]) for key in keys) for line in lines]
        ought = list[str]()
        for row, name_and_answer in zip(asked, noted_as):
            door, operation, *_ = row.split()
            if name_and_answer:
                ought.append(f"{door} {operation} {name_and_answer}")
        self.assertEqual(said, ought)
        self.assertEqual(lines[14]["new_name"], "bob")
        page = (TOP / "man/credkeep-server.8").read_text()
        [told] = re.findall(r"^A line has the keys (.*?)\.$", page, re.M | re.S)
        named = {*re.findall(r"\\fB(\w+)\\fP", told)}
        self.assertEqual(named, {key for line in lines for key in line}, "the manual's keys")
        for secret in (SECRET, WRONG, "secret", "guess", "$fast$", "hunter2"):
            self.assertNotIn(secret, path.read_text())

    def test_tries(self) -> None:
        """With --audit-tries the log has wrong passwords too, without the names that the book
        lacks."""
        path = self.room() / "audit"
        service = self.serving("--audit", str(path), "--audit-tries", "--tries", "2", clocked=True)
        service.enrol(ada="secret")
        service.talk(
            """
            login verify ada {wrong} -> no
            login verify hunter2 {wrong} -> noaccount
            login change hunter2 {wrong} {wrong} -> noaccount
            login change ada {wrong} {wrong} -> wrong
            login verify ada {wrong} -> later
            """
        )
        said = [(it["operation"], it["name"], it["answer"]) for it in noted(path)[2:]]
        unknown = [("verify", None, "noaccount"), ("change", None, "noaccount")]
        ought = [("verify", "ada", "no"), *unknown, ("change", "ada", "wrong")]
        self.assertEqual(said, ought)

    def test_a_change_whose_answer_is_lost(self) -> None:
        """The line of a change that may be kept or not has the name."""
        path = self.room() / "audit"
        service = self.serving("--audit", str(path), faults="mute=delete")
        admin = service.client("admin")
        admin.talk("account ada -> ok")
        admin.send("a delete ada\n")
        until(lambda: "delete ada" in service.asked(), "the line")
        os.kill(service.book_pid(), signal.SIGKILL)
        self.assertEqual(admin.line(), b"a unavailable")
        self.assertEqual([it["name"] for it in noted(path)], ["ada", "ada"])

    def test_a_pipe(self) -> None:
        """A pipe is refused, whether it has a reader or not."""
        path = self.room() / "audit"
        os.mkfifo(path)
        said = f"credkeep-server: {path}: it isn't a regular file\n"
        for reader in (None, os.open(path, os.O_RDONLY | os.O_NONBLOCK)):
            late = self.serving("--audit", str(path), waits=False)
            self.assertEqual(late.ended(), (1, said), reader)

    def test_written_before_it_is_answered(self) -> None:
        """When a change is answered its line is in the file; a file that was renamed is begun
        anew."""
        path = self.room() / "audit"
        admin = self.serving("--audit", str(path)).client("admin")
        for number in range(1, 21):
            self.assertEqual(admin.ask(f"account n{number}"), "ok")
            self.assertEqual(len(noted(path)), number)
        path.rename(f"{path}.1")
        self.assertEqual(admin.ask("account more"), "ok")
        self.assertEqual([it["name"] for it in noted(path)], ["more"])
        admin.send("".join(f"t{it} account m{it}\n" for it in range(200)))
        admin.lines(200)
        self.assertEqual(len(noted(path)), 201)

    def test_logins_wait_for_no_line(self) -> None:
        """A login is answered before its line is written, and a change behind it."""
        need("strace")
        room = self.room()
        words = f"strace -f -qq -s 300 -e trace=sendto,write -o {room}/trace"
        service = self.serving("--audit", f"{room}/audit", before=tuple(words.split()))
        asked = "account ada -> ok\nenrol ada {secret} -> enrolled\nverify ada {secret} -> yes"
        service.client("admin").talk(asked)
        until(lambda: len(noted(room / "audit")) == 3, "the line of the login")
        shell(f"pkill -TERM -P {service.process.pid}")
        service.ended()
        calls = r'sendto\(\d+, "\S+ (\w+)\\n"|write\(\d+, "\{.*operation\\": \\"(\w+)'
        found = ["".join(it) for it in re.findall(calls, (room / "trace").read_text())]
        self.assertEqual(found, ["account", "ok", "enrol", "enrolled", "yes", "verify"])

    def test_no_room(self) -> None:
        """A change whose line can't be written isn't answered as stored; logins go on, and changes
        once there is room."""
        need("prlimit")
        path, said = self.room() / "audit", list[str]()
        service = self.serving("--audit", str(path), before=("prlimit", "--fsize=2000"))
        admin = service.client("admin")
        while "unavailable" not in said and len(said) < 100:
            said.append(admin.ask(f"account n{len(said)}"))
        self.assertIn(len(said), range(10, 30))
        admin.talk("verify n0 {secret} -> absent\naccount more -> unavailable")
        self.assertEqual(service.log().count(f"{path}: File too large"), 1)
        path.write_text("")
        admin.talk("account last -> ok")
        self.assertEqual(json.loads(path.read_text().splitlines()[-1])["name"], "last")
