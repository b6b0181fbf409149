"""Tests of bin/credkeep-server: failed tries."""

import time
from unittest import mock

from served import CHEAP, SECRET, WRONG, Case, chosen_book, until
from daemon import journal, tally
from daemon.options import Options
from daemon.protocol import OPERATIONS
from daemon.tries import Tries as OldTries


class Tries(Case):
    def test_later(self) -> None:
        """After so many failed tries each doubles the wait; the right password is let in after
        it."""
        service = self.serving("--tries", "2", clocked=True).enrol(ada="secret", bob="secret")
        client = service.client()
        for now, password, ought in (
            *((0, WRONG, "no"), (0, WRONG, "no"), (0.9, WRONG, "later"), (0.9, SECRET, "later")),
            *((1, WRONG, "no"), (2.9, SECRET, "later"), (3, WRONG, "no"), (6.9, SECRET, "later")),
            *((7, SECRET, "yes"), (7, WRONG, "no"), (7, WRONG, "no"), (7, WRONG, "later")),
        ):
            service.set_clock(now)
            self.assertEqual(client.ask(f"verify ada {password}"), ought, f"at {now} s")
            self.assertEqual(client.ask(f"verify bob {SECRET}"), "yes")

    def test_later_for_each_operation(self) -> None:
        """Each operation that takes the old password counts, but at a name that the book lacks; a
        reset ends the wait."""
        service = self.serving("--tries", "5", clocked=True).enrol(ada="secret")
        service.client().talk("verify eve {secret} -> noaccount\n" * 30)  # whom others may know
        service.talk(
            """
            admin login ada {wrong} -> no
            login change ada {wrong} {secret} -> wrong
            admin upgrade ada {wrong} -> wrong
            admin remove ada {wrong} -> wrong
            login verify ada {wrong} -> no
            login verify ada {secret} -> later
            admin login ada {secret} -> later
            login change ada {secret} {secret} -> later
            admin upgrade ada {secret} -> later
            admin remove ada {secret} -> later
            login known ada -> yes
            admin reset ada {wrong} -> replaced
            login verify ada {wrong} -> yes
            """
        )

    def test_what_counts(self) -> None:
        """Each failed try counts, until a right password or a new one ends the count."""
        service = self.serving("--tries", "2", clocked=True).enrol(ada="secret")
        admin = service.client("admin")
        for row in (
            "verify ada {secret} -> yes",
            "login ada {secret} -> yes",
            "upgrade ada {secret} -> kept",
            "upgrade ada {secret} $fast$c=3$c2FsdHNhbHQ -> upgraded",
            "change ada {secret} {secret} -> replaced",
            "reset ada {secret} -> replaced",
        ):
            right, wrong = "verify ada {secret} -> yes", "verify ada {wrong} -> no"
            admin.talk("\n".join([wrong, row, wrong, right]))
        admin.talk("verify ada {wrong} -> no\nremove ada {secret} -> removed")
        admin.talk("verify ada {secret} -> absent\n" * 3)  # no guess is right there
        admin.talk("enrol ada {secret} -> enrolled\nverify ada {secret} -> yes")

    def test_what_forgives_nothing(self) -> None:
        """A wait goes on at a name that is deleted, renamed or disabled, and gets a record again;
        and while another name is forgiven or unlocked."""
        service = self.serving("--tries", "2", clocked=True).enrol(ada="secret", bob="secret")
        record = service.client("admin").ask("show ada")
        for between in (
            ("forgive bob -> forgiven", "reset bob {fresh} -> replaced"),
            ("lock bob -> locked", "unlock bob -> unlocked"),
            ("unlock ada -> none",),
            ("disable ada -> disabled", f"load ada {record} -> ok"),
            ("delete ada -> deleted", "account ada -> ok", f"load ada {record} -> ok"),
            ("rename ada eve -> renamed", "rename eve ada -> renamed"),
        ):
            admin = service.client("admin")
            admin.talk("verify ada {wrong} -> no\n" * 2 + "verify ada {secret} -> later")
            admin.talk("\n".join([*between, "verify ada {secret} -> later"]))
            admin.talk("forgive ada -> forgiven\nverify ada {secret} -> yes")

    def test_unlocked(self) -> None:
        """After `unlock` the right password is right at once, however often it was tried at the
        locked account."""
        service = self.serving("--tries", "2", clocked=True).enrol(ada="secret")
        service.talk(
            """
            admin lock ada -> locked
            login verify ada {secret} -> no
            login verify ada {secret} -> no
            login verify ada {secret} -> later
            admin waits -> waits ada:1
            admin unlock ada -> unlocked
            admin waits -> waits
            login verify ada {secret} -> yes
            """
        )
        text = "ada no longer has to wait: an administrator unlocked it\n"
        self.assertEqual(service.log().count(text), 1)

    def test_guesses_at_once(self) -> None:
        """Of guesses that are sent together only as many are judged as may fail, and one after each
        wait."""
        for operation in "verify", "change", "login":
            service = self.serving("--at-once", "20", clocked=True).enrol(ada="secret")
            for _ in range(100):  # changes are quick, so many are at the book at once
                service.client().talk("verify zoe {secret} -> noaccount")
            clients = [service.client("admin") for _ in range(4)]
            for now, ought in ((0, 10), (1, 1), (3, 1)):
                service.set_clock(now)
                for client in clients:
                    more = f" {WRONG}" if operation == "change" else ""
                    client.send(f"a {operation} ada {WRONG}{more}\n" * 32)
                said = [line for client in clients for line in client.lines(32)]
                self.assertEqual(said.count(b"a later"), 128 - ought, operation)

    def test_right_passwords_at_once(self) -> None:
        """However many right passwords are sent together, none of them is too early."""
        service = self.serving("--tries", "3", "--at-once", "20", faults="slow=0.01", clocked=True)
        service.enrol(ada="secret")
        client = service.client()
        client.talk("verify ada {wrong} -> no\n" * 2)
        client.send(f"a verify ada {SECRET}\n" * 100)
        self.assertEqual(client.lines(100), [b"a yes"] * 100)

    def test_too_early_takes_a_hash(self) -> None:
        """A try that is too early is answered after the time of a hash, as one at an unknown name
        is."""
        service = self.serving("--tries", "2", faults="slow=0.3", clocked=True).enrol(ada="secret")
        client, seconds = service.client(), {}
        for name, ought in (*[("ada", "no")] * 2, ("zoe", "noaccount"), ("ada", "later")):
            begun = time.monotonic()
            client.talk(f"verify {name} {{wrong}} -> {ought}")
            seconds[ought] = time.monotonic() - begun
        self.assertGreater(seconds["later"], 0.29)

    def test_later_by_the_books_name(self) -> None:
        """Failed tries count by the name in the book, however its address is typed."""
        service = self.serving("--mail-names", "--tries", "4", clocked=True)
        service.enrol(**{"ada@example.org": "secret"})
        typed = ("ada@example.org", "ada@EXAMPLE.org", "ada@Example.Org", "ada@example.ORG")
        client = service.client()
        self.assertEqual([client.ask(f"verify {name} {WRONG}") for name in typed], ["no"] * 4)
        for name in (*typed, "ada@eXample.org"):
            self.assertEqual(client.ask(f"verify {name} {SECRET}"), "later", name)
        client.talk("verify Ada@example.org {secret} -> noaccount")

    def test_listed_and_logged(self) -> None:
        """A user who has to wait is listed and logged, and can be forgiven; a wait's begin and end
        are a line each."""
        service = self.serving("--tries", "2", clocked=True)
        service.enrol(ada="secret", bob="secret", cid="secret")
        for name, count in (("ada", 2), ("bob", 2), ("cid", 1)):
            service.talk(f"admin verify {name} {{wrong}} -> no\n" * count)
        service.talk(
            """
            admin waits -> waits
            login verify ada {secret} -> later
            admin waits -> waits ada:1
            admin forgive ada -> forgiven
            admin forgive ada -> forgiven
            admin forgive zoe -> noaccount
            admin forgive cid -> forgiven
            login verify ada {secret} -> yes
            login verify bob {secret} -> later
            admin waits -> waits bob:1
            admin reset bob {secret} -> replaced
            login verify bob {secret} -> yes
            admin waits -> waits
            login waits -> denied
            login forgive ada -> denied
            admin verify bob {wrong} -> no
            admin verify bob {wrong} -> no
            login verify bob {secret} -> later
            """
        )
        service.set_clock(1)
        service.talk("login verify bob {secret} -> yes\nlogin verify bob {secret} -> yes")
        told = [it.partition(": ")[2] for it in service.log().splitlines()]
        lines = [it for it in told if " must wait " in it or " has to wait: " in it]
        said = [
            "ada must wait after 2 failed tries",
            "ada no longer has to wait: an administrator forgave it",
            "bob must wait after 2 failed tries",
            "bob no longer has to wait: a new password",
            "bob must wait after 2 failed tries",
            "bob no longer has to wait: a right password",
        ]
        self.assertEqual(lines, said)

    def test_seconds_listed(self) -> None:
        """A name is listed with the seconds that are left of the wait that its last early try was
        told, until that is over."""
        service = self.serving("--tries", "1", clocked=True).enrol(ada="secret", bob="secret")
        for now, line, ought in (
            *((0, "ada {wrong} -> no", ""), (0, "ada {secret} -> later", " ada:1")),
            *((0.5, "bob {wrong} -> no", " ada:1"), (1, "ada {wrong} -> no", "")),
            *(
                (1, "ada {secret} -> later", " ada:2"),
                (1.2, "bob {wrong} -> later", " ada:2 bob:1"),
            ),
            *((2.5, "ada {secret} -> later", " ada:1"), (3, "ada {wrong} -> no", "")),
            *((4, "ada {secret} -> later", " ada:3"), (5.5, "bob {secret} -> yes", " ada:2")),
        ):
            service.set_clock(now)
            service.talk(f"login verify {line}\nadmin waits -> waits{ought}")

    def test_the_wait_of_one_name(self) -> None:
        """`waits NAME` lists this name alone, also by its address."""
        service = self.serving("--tries", "1", "--mail-names", clocked=True)
        service.enrol(**{"ada": "secret", "bob@example.org": "secret"})
        for name in ("ada", "bob@example.org"):
            service.talk(f"login verify {name} {{wrong}} -> no\nlogin verify {name} - -> later")
        admin = service.client("admin")
        admin.talk("waits ada -> waits ada:1\nwaits zoe -> waits\nwaits e@ -> waits")
        self.assertRegex(admin.ask("waits bob@Example.org"), r"^waits e\.[a-z2-7]{30}:1$")

    def test_logged_once_an_hour(self) -> None:
        """However many tries at a name are too early, its wait is a line an hour."""
        service = self.serving("--tries", "1", clocked=True).enrol(ada="secret")
        service.client().talk("verify ada {wrong} -> no\n" + "verify ada {wrong} -> later\n" * 20)
        self.assertEqual(service.log().count("ada must wait"), 1)
        self.enterContext(mock.patch.object(journal, "MOST_KEYS", 2))
        self.enterContext(mock.patch.object(journal, "logged_at", {}))
        with self.assertLogs(journal.log) as logged:
            for key in "abacab":  # `a` is forgotten as `c` comes, and `b` as `a` does
                journal.log_seldom(key, key)
        self.assertEqual([it.getMessage() for it in logged.records], list("abcab"))

    def test_many_listed(self) -> None:
        """A list is bounded, and so is its memory; the end of its wait ends an entry."""
        verify, counted = OPERATIONS[b"verify"], tally.Tally(Options())
        self.enterContext(mock.patch.object(tally, "REMEMBERED", 4))
        self.enterContext(mock.patch.object(tally, "MOST_SHOWN", 2))
        clock = self.enterContext(mock.patch.object(tally.time, "monotonic", return_value=100.0))
        for name in "abcabde":
            counted.count(verify, name, "later", 900)
        for now, ought in (
            (100.0, " a:900 b:900 more=2"),
            (999.5, " a:1 b:1 more=2"),
            (1000.0, ""),
        ):
            clock.return_value = now
            self.assertEqual(counted.answer(b"waits", ""), f"waits{ought}")


class OverABook(Case):
    """Failed tries over credkeep itself, if it is built, by its own clock."""

    def test_a_wait(self) -> None:
        """A right password has to wait too, but only for this name, and an administrator can end
        the wait."""
        service = self.serving("--setting", CHEAP, "--tries", "2", program=chosen_book())
        service.enrol(ada="secret", bob="other")
        service.guess("ada", 5)
        service.talk("login verify ada {secret} -> later\nlogin verify bob b3RoZXI -> yes")
        service.talk(
            """
            admin forgive zoe -> noaccount
            admin forgive Ada -> bad 3 name
            admin forgive ada -> forgiven
            admin forgive ada -> forgiven
            login verify ada {secret} -> yes
            """
        )

    def test_unlocked(self) -> None:
        """An account that is unlocked has no failed tries."""
        service = self.serving("--setting", CHEAP, "--tries", "2", program=chosen_book())
        service.enrol(ada="secret").talk("admin lock ada -> locked")
        service.guess("ada", 5)
        service.talk("login verify ada {secret} -> later\nadmin unlock ada -> unlocked")
        service.talk("login verify ada {secret} -> yes")

    def test_a_wait_that_ends(self) -> None:
        """After the wait the right password is right, and ends the count."""
        service = self.serving("--setting", CHEAP, "--tries", "2", program=chosen_book())
        service.enrol(ada="secret")
        service.guess("ada", 3)
        client = service.client()
        client.talk("verify ada {secret} -> later")
        until(lambda: client.ask(f"verify ada {SECRET}") == "yes", "the end of the wait")
        client.talk("verify ada {wrong} -> no\nverify ada {secret} -> yes")

    def test_renamed(self) -> None:
        """Failed tries stay at their name: the account has those of its new name, which has
        none."""
        service = self.serving("--setting", CHEAP, "--tries", "2", program=chosen_book())
        service.enrol(ada="secret")
        service.guess("ada", 3)
        service.talk(
            """
            login verify ada {secret} -> later
            admin rename ada eve -> renamed
            login verify eve {wrong} -> no
            login verify eve {secret} -> yes
            """
        )

    def test_no_limit(self) -> None:
        """With --tries 0 nobody has to wait."""
        service = self.serving("--setting", CHEAP, "--tries", "0", program=chosen_book())
        service.enrol(ada="secret")
        service.talk("login verify ada {wrong} -> no\n" * 30 + "login verify ada {secret} -> yes")
        service.talk("admin forgive ada -> forgiven")


class OfAnOldFile(Case):
    """Failed tries at users of an old file, by themselves; `clock` is the time."""

    clock = 0.0

    def setUp(self) -> None:
        super().setUp()
        self.enterContext(mock.patch.object(time, "monotonic", lambda: self.clock))

    def at(self, tries: OldTries, *moments: float) -> list[int]:
        """By how many seconds a try is too early at each of these moments."""
        said = list[int]()
        for self.clock in moments:
            said.append(tries.rest(b"x"))
        return said

    def test_waits(self) -> None:
        """A wait is doubled by each failure, from the last one on, and has a bound; a day behind
        the last all are forgotten, and not before."""
        tries = OldTries(3)
        self.clock = 1000.0
        for wait in (0, 0, 1, 2, 4, 8, 16, 32, 64, 128, 256, 512, *[900] * 3000):
            failed = self.clock
            tries.fail(b"x")
            moments = (failed, failed + 0.5, failed + wait - 0.1) if wait else ()
            self.assertEqual(self.at(tries, *moments), [wait, wait, 1] if wait else [])
            self.assertEqual(self.at(tries, failed + wait), [0])
        for pause, ought in ((86399.0, 900), (86400.0, 0)):
            self.clock = failed = failed + pause
            tries.fail(b"x")
            self.assertEqual(tries.rest(b"x"), ought)

    def test_forgiven(self) -> None:
        """`forgive` ends the wait at one name alone."""
        tries = OldTries(1)
        for name in (b"x", b"y"):
            tries.fail(name)
        tries.forgive(b"x")
        tries.forgive(b"z")
        self.assertEqual([tries.rest(it) for it in (b"x", b"y", b"z")], [0, 1, 0])

    def test_no_limit(self) -> None:
        tries = OldTries(0)
        for _ in range(3000):
            tries.fail(b"x")
        self.assertEqual(tries.rest(b"x"), 0)
