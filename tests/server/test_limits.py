"""Tests of bin/credkeep-server: its limits: lines, clients, turns."""

import contextlib
import os
import pathlib
import re
import signal
import socket
import time

from served import FRESH, SECRET, WRONG, Case, Client, as_user, cpu, need_root, until
from tests.needs import lacking

# An idle time, in seconds, beyond that for which a machine may stall.
STALL = "15"


class Limits(Case):
    def test_half_lines(self) -> None:
        """The book never gets a line without its end, whatever its client does next; other clients
        go on."""
        service = self.serving().enrol(ada="secret")
        asked = len(service.asked())
        halves = [service.client() for _ in range(20)]
        for client in halves:
            client.send(f"a change ada {SECRET} {FRESH}")
        service.client().talk("verify ada {secret} -> yes")
        for client in halves[:10]:
            client.close()
        for client in halves[10:]:
            client.socket.shutdown(socket.SHUT_WR)
            self.assertTrue(client.is_ended(), "it goes on")
        service.client().talk("verify ada {secret} -> yes")
        self.assertEqual(len(service.asked()), asked + 2)

    def test_pieces_and_many_in_one(self) -> None:
        """Bytes may arrive one by one, and many lines at once; a client that stops sending still
        gets its answers."""
        service = self.serving("--tries", "0", faults="late").enrol(ada="secret")
        client = service.client()
        for letter in f"a verify ada {SECRET}\n":
            client.send(letter)
            time.sleep(0.001)
        self.assertEqual(client.line(), b"a yes")
        lines, ought = [], []
        for number in range(500):
            is_right = number % 3 != 0
            lines.append(f"n{number} verify ada {SECRET if is_right else WRONG}\n")
            ought.append(b"n%d %s" % (number, b"yes" if is_right else b"no"))
        client.send("".join(lines))
        client.socket.shutdown(socket.SHUT_WR)
        self.assertEqual(sorted(client.lines(500)), sorted(ought))
        self.assertTrue(client.is_ended(), "it goes on")

    def test_a_byte_out_of_band(self) -> None:
        """A byte that wakes the server, but can't be read, ends no connection."""
        client = self.serving().client()
        try:
            client.socket.send(b"!", socket.MSG_OOB)
        except OSError as fault:
            raise lacking("bytes out of band at Unix sockets") from fault
        time.sleep(0.1)
        client.talk("known ada -> noaccount")

    def test_in_flight(self) -> None:
        """A client has at most 32 running lines, and a user a limited number of hashes; another
        user still gets a place."""
        for at_once, ought in (("100", 32), ("4", 4)):
            service = self.serving("--at-once", at_once, "--tries", "0", faults="mute=verify")
            client = service.client()
            client.send(f"a verify ada {SECRET}\n" * 200)
            until(lambda: len(service.asked()) >= ought, "lines at the book")
            time.sleep(0.3)
            self.assertEqual(len(service.asked()), ought)
            service.client().talk("known ada -> noaccount")  # which waits for no hash
            service.client("admin").send("a verify eve -\n")
            until(lambda: service.asked()[ought + 1 :] == ["verify eve -"], "the other user's")
            client.socket.setblocking(False)
            with self.assertRaises(BlockingIOError):  # what it doesn't take isn't read
                for _ in range(4000):
                    client.socket.send(b"a verify ada -\n" * 100)
            begun = cpu(service.process.pid)
            time.sleep(1)
            self.assertLess(cpu(service.process.pid) - begun, 0.3, "it looks at it all the time")
            service.process.kill()

    def test_read_ahead(self) -> None:
        """The server reads little of waiting lines, however much has arrived."""
        service = self.serving("--tries", "0", faults="mute=verify")
        client, sent = service.client(), []
        client.talk("known ada -> noaccount")
        client.socket.setblocking(False)
        for number in (signal.SIGSTOP, signal.SIGCONT):
            os.kill(service.process.pid, number)
            time.sleep(0.5)
            sent.append(0)
            with contextlib.suppress(BlockingIOError):
                for _ in range(4000):
                    sent[-1] += client.socket.send(b"a verify ada -\n" * 100)
        self.assertLess(sent[1], 10_000, f"behind {sent[0]} bytes")
        service.process.kill()

    def test_lines_of_who_has_gone(self) -> None:
        """The book never gets a line of an ended client that changes nothing; changes still run."""
        service = self.serving("--at-once", "1", "--tries", "0", faults="slow=0.2")
        service.enrol(ada="secret")
        with service.client("admin") as client:
            client.send("a verify gone -\n" * 20 + f"a reset ada {FRESH}\n")
            until(lambda: "verify gone -" in service.asked(), "the first")
        until(lambda: service.client().ask(f"verify ada {FRESH}") == "yes", "the change")
        self.assertLess(service.asked().count("verify gone -"), 5)
        clients = service.stats()["clients"]
        for client in [service.client() for _ in range(20)]:  # as PAM's at its timeout
            client.send("a verify late -\n")
            client.close()
        with service.client() as client:
            client.send(f"a verify ada {FRESH}\n")
            client.socket.shutdown(socket.SHUT_WR)
            self.assertEqual(client.line(), b"a yes")
        self.assertLess(service.asked().count("verify late -"), 5)
        self.assertEqual(service.stats()["clients"], clients)
        for client in [service.client() for _ in range(20)]:  # with more than are run at once
            client.send("a verify left -\n" * 60)
            client.close()
        service.client().talk("verify ada {fresh} -> yes")
        until(lambda: service.stats()["clients"] == clients + 1, "the end of their lines")
        self.assertLess(service.asked().count("verify left -"), 5)

    def test_changes_together(self) -> None:
        """If changes mostly wait for the disk, many run at the book at once, and leave room for
        other lines."""
        service = self.serving("--at-once", "4", "--tries", "0", faults="mute=change")
        service.enrol(ada="secret")
        client = service.client()
        for _ in range(100):  # the quickest of these is what a hash takes
            self.assertEqual(client.ask(f"verify zoe {SECRET}"), "noaccount")
        line = f"change ada {SECRET} {SECRET}"
        for _ in range(16):
            service.client().send(f"a {line}\n")
        until(lambda: service.asked().count(line) == 16, "all changes")
        service.client().talk("verify ada {secret} -> yes")
        service.process.kill()

    def test_lines_without_a_hash(self) -> None:
        """Beside hashes that never end, lines without a hash are answered, at both sockets."""
        service = self.serving("--at-once", "2", faults="mute=verify")
        service.enrol(ada="secret", bob="secret")
        for client, count in zip(service.both(), (6, 7)):
            client.send(f"a verify ada {SECRET}\n" * 32)
            until(lambda: len(service.asked()) == count, "two places are taken, then the third")
        hashing = ["login", "upgrade", "remove", "enrol", "reset", f"change {SECRET}", "verify"]
        for word in hashing:
            operation, *more = word.split()
            service.client("admin").send(f"a {' '.join([operation, 'ada', *more, SECRET])}\n")
        service.talk(
            """
            login known ada -> yes
            admin list - 5 -> names ada bob
            admin disable bob -> disabled
            admin rename bob cid -> renamed
            admin delete cid -> deleted
            admin account dan -> ok
            admin load dan $fast$c=1$x$y -> ok
            admin show dan -> $fast$c=1$x$y
            admin lock dan -> locked
            admin marks - 5 -> marks dan:!
            """
        )
        asked = {line.partition(" ")[0] for line in service.asked()[7:]}
        without = {
            "show",
            "list",
            "marks",
            "disable",
            "rename",
            "delete",
            "account",
            "load",
            "lock",
        }
        self.assertEqual(asked, without, "what was asked beside full places")
        service.process.kill()

    def test_shares_of_users(self) -> None:
        """A uid gets half of the connections that others leave; the next client gets an answer, and
        the log one line."""
        need_root()
        room = self.room()
        first = ["--socket", "a", f"{room}/s", "0666", "-", "known"]
        second = ["--socket", "b", f"{room}/t", "0600", "-", "all"]
        service = self.serving(*first, *second)
        service.clients = clients = [Client(room / "s") for _ in range(600)]
        clients[511].talk("known ada -> noaccount")
        for client in clients[512:]:
            self.assertEqual(client.lines(2), [b"* unavailable", b""])
        for _ in range(3):  # that some were refused makes no room
            with Client(room / "s") as client:
                self.assertEqual(client.line(), b"* unavailable")
        self.assertEqual(as_user(4711, 4711, room / "s", "known ada"), "noaccount")
        with Client(room / "t") as other:
            other.talk("known ada -> noaccount")
        clients[0].close()

        def is_let_in() -> bool:
            with Client(room / "s") as client:
                try:
                    client.send("a known ada\n")
                    return client.line() == b"a noaccount"
                except ConnectionError:
                    return False

        until(is_let_in, "a place comes free")
        for client in clients:
            client.close()
        for _ in range(1200):
            with Client(room / "s") as client:
                self.assertEqual(client.ask("known ada"), "noaccount")
        text = "refused a connection at a: uid 0 already has 512"
        self.assertEqual(service.log().count(text), 1)

    def test_idle_clients(self) -> None:
        """After the idle time a client is closed, also in the midst of a line; one that asks
        isn't."""
        service = self.serving("--idle", STALL)
        silent, half, drips, busy = [service.client() for _ in range(4)]
        half.send("a verify ada")

        def are_closed() -> bool:
            busy.talk("known ada -> noaccount")
            with contextlib.suppress(OSError):
                drips.send("a")
            return service.stats()["clients"] == 2  # the busy one, and the one who looks

        until(are_closed, "the others are closed")
        for client in (silent, half, drips):
            self.assertTrue(client.is_ended(), "it goes on")
        waits = self.serving("--idle", "0").client()
        waits.send("a known")
        time.sleep(0.5)
        waits.send(" ada\n")
        self.assertEqual(waits.line(), b"a noaccount", "0 is no limit")

    def test_slow_readers(self) -> None:
        """A client that doesn't read its answers is held back, and costs others nothing; then it is
        closed."""
        service = self.serving("--idle", STALL, "--at-once", "2")
        for number in range(100):
            service.enrol(**{f"{'n' * 30}{number:02}": ""})
        begun = len(service.asked())
        slow = [service.client("admin") for _ in range(4)]
        for client in slow:
            client.socket.setblocking(False)
            with contextlib.suppress(BlockingIOError):
                for _ in range(3000):
                    client.socket.send(b"a list - 100\n" * 100)
        service.client().talk("known ada -> noaccount\n" * 20)

        def is_still() -> bool:
            count = len(service.asked())
            time.sleep(0.5)
            return len(service.asked()) == count

        until(is_still, "no more lines")
        self.assertLess(len(service.asked()) - begun, 4 * 400, "lines for who reads no answer")
        status = pathlib.Path(f"/proc/{service.process.pid}/status").read_text()
        (resident,) = re.findall(r"VmRSS:\s+(\d+)", status)
        self.assertLess(int(resident), 100_000)
        until(lambda: service.stats()["clients"] == 1, "they are closed")
        for client in slow:
            client.socket.settimeout(60)
            with contextlib.suppress(ConnectionError):
                while client.socket.recv(1 << 20):
                    pass
            client.close()
        service.client().talk("known ada -> noaccount")
        begun_to_end = time.monotonic()
        service.stop()
        self.assertLess(time.monotonic() - begun_to_end, 15, "it waited for who has gone")
