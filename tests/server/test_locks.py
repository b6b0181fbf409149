"""Tests of bin/credkeep-server: accounts that are locked, and passwords that must be changed."""

import concurrent.futures
import threading
import time

from served import SECRET, TOP, WRONG, BesideCase, Case, Client, Service
from tests.helpers import ended

ASK = str(TOP / "bin/credkeep-ask")

LOCKED = """
admin lock ada -> locked
admin lock ada -> locked
login known ada -> absent
login verify ada {secret} -> no
login verify ada {wrong} -> no
login change ada {secret} {fresh} -> wrong
login change ada {wrong} {fresh} -> wrong
admin login ada {secret} -> no
admin upgrade ada {secret} -> wrong
admin remove ada {secret} -> wrong
admin enrol ada {fresh} -> exists
admin rename ada -> bad 11 line
admin marks - 10 -> marks ada:!
admin unlock ada -> unlocked
admin unlock ada -> none
login known ada -> yes
login verify ada {secret} -> yes
admin marks - 10 -> marks
admin lock zoe -> noaccount
admin unlock zoe -> noaccount
admin expire zoe -> noaccount
admin lock Ada@ -> bad 3 name
login lock ada -> denied
login marks - 10 -> denied
"""
EXPIRED = """
admin expire ada -> expired
login known ada -> expired
login verify ada {secret} -> expired
login verify ada {wrong} -> no
admin login ada {secret} -> expired
admin upgrade ada {secret} -> expired
admin remove ada {secret} -> expired
login change ada {wrong} {fresh} -> wrong
login change ada {secret} {secret} -> same
login change ada {wrong} {wrong} -> wrong
login known ada -> expired
login verify ada {secret} -> expired
login change ada {secret} {fresh} -> replaced
login known ada -> yes
login verify ada {fresh} -> yes
login change ada {fresh} {fresh} -> replaced
admin expire ada -> expired
admin change ada {fresh} {fresh} -> same
admin lock ada -> locked
admin marks - 10 -> marks ada:!~
login verify ada {fresh} -> no
login known ada -> absent
login change ada {fresh} {secret} -> wrong
login change ada {fresh} {fresh} -> wrong
admin reset ada {secret} -> replaced
admin marks - 10 -> marks ada:!
admin unlock ada -> unlocked
login verify ada {secret} -> yes
admin account cid -> ok
admin expire cid -> absent
"""
# A mark goes with its account; the next account of a name has none.
RENAMED = """
admin lock ada -> locked
admin rename ada bob -> exists
admin marks - 10 -> marks ada:!
admin rename ada cid -> renamed
admin marks - 10 -> marks cid:!
login verify cid {secret} -> no
admin account ada -> ok
login known ada -> absent
admin enrol ada {fresh} -> enrolled
login verify ada {fresh} -> yes
admin rename cid Cid -> bad 3 name
admin expire cid -> expired
admin disable cid -> disabled
admin show cid -> !
admin delete cid -> deleted
admin marks - 10 -> marks
admin account cid -> ok
admin enrol cid {fresh} -> enrolled
login verify cid {fresh} -> yes
"""
# More names than an answer shows.
MANY, SHOWN = 1003, 1000
CONNECTIONS = 40


class Locks(Case):
    def over(self, *options: str, **fields: object) -> Service:
        return self.serving("--tries", "0", *options, **fields).enrol(ada="secret", bob="other")

    def test_locked(self) -> None:
        """Each try at a locked name gets the answer to a wrong password, and the record stays."""
        service = self.over()
        record = service.client("admin").ask("show ada")
        service.talk(LOCKED)
        self.assertEqual(service.client("admin").ask("show ada"), record)
        service.talk(f"admin lock ada -> locked\nadmin show ada -> !{record}")

    def test_as_many_hashes(self) -> None:
        """A right password at a locked name costs a hash, as a wrong one does, and counts as a
        failed try."""
        service = self.serving("--tries", "3", clocked=True, faults="slow=0.2").enrol(ada="secret")
        service.talk("admin lock ada -> locked")
        login, seconds = service.client(), list[float]()
        for line in (f"verify ada {SECRET}", f"change ada {SECRET} {WRONG}", f"verify ada {WRONG}"):
            began = time.monotonic()
            login.ask(line)
            seconds.append(time.monotonic() - began)
        self.assertGreaterEqual(min(seconds), 0.2)
        login.talk("verify ada {secret} -> later")

    def test_expired(self) -> None:
        """A right password that must be changed is answered by `expired`, until it is."""
        self.over().talk(EXPIRED)

    def test_what_counts(self) -> None:
        """A right password that must be changed ends failed tries, as another one does, and is no
        change; the marks are changes."""
        service = self.serving("--tries", "2").enrol(ada="secret")
        before = service.stats()
        service.talk("admin expire ada -> expired\nlogin verify ada {wrong} -> no")
        for line in ("remove ada {secret} -> expired", "change ada {secret} {secret} -> same"):
            service.talk(f"admin {line}\nlogin verify ada {{wrong}} -> no")
        service.talk("login change ada {secret} {fresh} -> replaced\nadmin lock ada -> locked")
        now = service.stats()
        self.assertEqual(
            {it: now[it] - before[it] for it in ("yes", "no", "changes")},
            {"yes": 3, "no": 3, "changes": 3},
        )

    def test_kept(self) -> None:
        """After a kill and a restart the server has all marks, and no file but the book exists."""
        folder = self.room()
        service = self.over(folder=folder)
        service.talk(
            "admin lock ada -> locked\nadmin lock bob -> locked\nadmin unlock bob -> unlocked"
        )
        service.talk("admin expire bob -> expired")
        service.process.kill()
        service.process.wait()
        self.assertEqual([it.name for it in folder.glob("users.db*")], ["users.db"])
        service = self.serving("--tries", "0", folder=folder)
        service.talk("admin marks - 10 -> marks ada:! bob:~\nadmin lock bob -> locked")
        service.stop()
        service = self.serving("--tries", "0", folder=folder)
        service.talk("admin marks - 10 -> marks ada:! bob:!~\nlogin verify ada {secret} -> no")

    def test_renamed_and_deleted(self) -> None:
        self.over().talk(RENAMED)

    def test_a_rename_that_fails(self) -> None:
        """After a failed rename the old name keeps its marks, and the new one has none."""
        service = self.over(faults="refuses=rename")
        service.talk("admin lock ada -> locked\nadmin rename ada cid -> bad 4 memory")
        service.talk("admin marks - 10 -> marks ada:!\nlogin verify ada {secret} -> no")

    def test_many(self) -> None:
        """A page has as many as were asked for. credkeep-ask asks for all: who moves away leaves
        out each name that it tells."""
        names, folder = [f"n{number:04}" for number in range(MANY)], self.room()
        rows = {it: "!" for it in names} | {names[SHOWN - 1]: "!~$fast$c=1$x$y", "ada": ""}
        (folder / "users.db").write_text("".join(f"{it} {row}\n" for it, row in rows.items()))
        service = self.serving(folder=folder)
        admin, path = service.client("admin"), str(service.path("admin"))
        said = [f"{it}:{rows[it].partition('$')[0]}" for it in names]
        self.assertEqual(admin.ask(f"marks - {SHOWN}").split(), ["marks", *said[:SHOWN]])
        admin.talk(f"marks {names[SHOWN]} {SHOWN} -> marks {' '.join(said[SHOWN:])}")
        admin.talk(f"marks {names[-1]}0 1 -> marks")
        lines = [f"{it}:locked" for it in names]
        lines.insert(SHOWN - 1, f"{names[SHOWN - 1]}:expired")
        self.assertEqual(
            ended([ASK, "--server", path, "marks"]), (0, "".join(f"{it}\n" for it in lines), "")
        )
        for name, status, text in (
            (names[-1], 0, f"{names[-1]}:locked\n"),
            ("ada", 0, ""),
            ("zoe", 4, "noaccount\n"),
        ):
            with self.subTest(name):
                self.assertEqual(ended([ASK, "--server", path, "marks", name]), (status, text, ""))


class Beside(BesideCase):
    """Locks beside other lines."""

    def test_beside_a_rename(self) -> None:
        """40 connections each lock an account while another connection renames it: after the answer
        `locked` nobody gets in."""
        names = [f"user{number}" for number in range(CONNECTIONS // 2)]
        service = self.over(**dict.fromkeys(names, "secret"))
        pairs = [(service.client("admin"), service.client("admin")) for _ in names]
        for turn in range(5):
            said = dict[str, tuple[bytes, bytes]]()
            for name, (locker, renamer) in zip(names, pairs):
                first, second = (locker, renamer) if turn % 2 else (renamer, locker)
                lines = {locker: f"a lock {name}\n", renamer: f"a rename {name} {name}.new\n"}
                first.send(lines[first])
                second.send(lines[second])
            for name, (locker, renamer) in zip(names, pairs):
                said[name] = locker.line(), renamer.line()
            for name, (lock, rename) in said.items():
                self.assertEqual(rename, b"a renamed")
                self.assertIn(lock, (b"a locked", b"a noaccount"))
                answer = "no" if lock == b"a locked" else "yes"
                service.talk(
                    f"""
                    login verify {name}.new {{secret}} -> {answer}
                    login verify {name} {{secret}} -> noaccount
                    admin rename {name}.new {name} -> renamed
                    admin unlock {name} -> {"unlocked" if answer == "no" else "none"}
                    """
                )

    def test_beside_logins(self) -> None:
        """40 connections send a right password at both names of an account, which is locked,
        renamed and unlocked meanwhile. No try that was sent after a lock, and answered before the
        unlock, is right."""
        service = self.over(ada="secret")
        spans, rights = list[tuple[float, float]](), list[tuple[float, float]]()
        is_over = threading.Event()

        def guess() -> int:
            asked = 0
            with Client(service.path()) as client:
                while not is_over.is_set():
                    for name in ("ada", "eve"):
                        began = time.monotonic()
                        if client.ask(f"verify {name} {SECRET}") == "yes":
                            rights.append((began, time.monotonic()))
                        asked += 1
            return asked

        with concurrent.futures.ThreadPoolExecutor(CONNECTIONS) as pool:
            guesses = [pool.submit(guess) for _ in range(CONNECTIONS)]
            admin = service.client("admin")
            try:
                for _ in range(20):
                    admin.talk("lock ada -> locked")
                    began = time.monotonic()
                    admin.talk("rename ada eve -> renamed\nrename eve ada -> renamed")
                    spans.append((began, time.monotonic()))
                    admin.talk("unlock ada -> unlocked")
                    time.sleep(0.02)
            finally:
                is_over.set()
            asked = sum(it.result() for it in guesses)
        self.assertGreater(asked, CONNECTIONS)
        self.assertTrue(rights, "nobody gets in at any time")
        for sent, answered in rights:
            within = [span for span in spans if span[0] < sent and answered < span[1]]
            self.assertEqual(within, [], "a right password at a locked account")
