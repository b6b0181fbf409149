"""Tests of bin/credkeep-server: imports that fail, hang, are killed or stopped. No answered change
is lost, and the service continues."""

import contextlib
import os
import signal
import socket
import time
from collections.abc import Iterator
from typing import Any

from served import FAST_BOOK, SECRET, Client, Service, need, until
from tests.helpers import each
from transfer_case import LINE, TransferCase


def drain(notices: socket.socket) -> None:
    """Reads all notices that have come."""
    limit = notices.gettimeout()
    notices.setblocking(False)
    with contextlib.suppress(BlockingIOError):
        while notices.recv(100):
            pass
    notices.settimeout(limit)


class Faults(TransferCase):
    @contextlib.contextmanager
    def held(self, *options: str, **fields: Any) -> Iterator[tuple[Service, Client, Client]]:
        """A server amid an import of bob, with the client that asked for it and one that waits."""
        wait = self.room() / "wait"
        wait.touch()
        service = self.over(*options, program=FAST_BOOK, faults=f"import={wait}", **fields)
        admin, client = service.client("admin"), service.client()
        admin.ask(f"import {len(LINE)}")
        admin.send(LINE)
        until(lambda: "an import runs" in service.log(), "the import")
        client.send(f"a verify ada {SECRET}\nb known bob\n")
        client.wait_until_read()
        yield service, admin, client
        wait.unlink(missing_ok=True)

    def test_lines_that_wait(self) -> None:
        """Waiting lines are answered after the import, and see its accounts. 0 is no limit."""
        with self.held("--longest-import", "0") as (service, admin, client):
            time.sleep(0.3)
            client.socket.setblocking(False)
            with self.assertRaises(BlockingIOError):
                client.line()
            client.socket.settimeout(60)
        self.assertEqual({client.line(), client.line()}, {b"a yes", b"b yes"})
        self.assertRegex(admin.line(), b"t1 ended 0 ")

    @each(("killed", 128 + signal.SIGKILL), ("full", 5))
    def test_an_import_that_fails(self, fault: str, status: int) -> None:
        """A failed import changes nothing, its status is credkeep's, and the service goes on."""
        service = self.over(program=FAST_BOOK, faults=f"import={fault}")
        done = self.ask(service, "import", given=LINE.encode())
        self.assertEqual((done.status, done.written), (status, ""))
        self.assertEqual(self.names(service), ["ada"])
        self.serves(service)
        service.stop()

    def test_a_book_that_is_shut(self) -> None:
        """If the book can't be opened again, no line waits, and the service goes on once it can."""
        for is_stopped in (False, True):
            shut = self.room() / "shut"
            service = self.over(program=FAST_BOOK, faults=f"shut={shut}")
            shut.touch()
            admin = service.client("admin")
            admin.ask(f"import {len(LINE)}")
            admin.send(LINE)
            client = service.client()
            until(lambda: client.ask("known ada") == "unavailable", "it is refused")
            self.assertIn("the server can't reopen the book", service.log())
            if is_stopped:
                service.process.terminate()
                self.assertEqual(service.ended()[0], 5)
            else:
                shut.unlink()
                until(lambda: client.ask("known ada") == "yes", "it is open again")
                self.assertRegex(admin.line(), b"t1 ended 0 ")
                self.serves(service)
                service.stop()

    def test_a_stop(self) -> None:
        """SIGTERM amid an import: it comes to its end, and the lines that waited are answered."""
        with self.held() as (service, admin, client):
            service.process.terminate()
            time.sleep(0.5)
        self.assertEqual({client.line(), client.line()}, {b"a yes", b"b yes"})
        self.assertRegex(admin.line(), b"t1 ended 0 ")
        self.assertEqual(service.ended()[0], 0)

    def test_a_stop_amid_one_that_hangs(self) -> None:
        """A stop kills a hanging import after 18 s, as it does a hanging book, and nothing is
        imported."""
        with self.held() as (service, _, client):
            begun = time.monotonic()
            service.process.terminate()
            self.assertEqual({client.line(), client.line()}, {b"a unavailable", b"b unavailable"})
            self.assertEqual(service.ended()[0], 0)
            self.assertTrue(17 < time.monotonic() - begun < 90, "18 to 30 s")
        again = self.serving(folder=service.folder)
        self.assertEqual(self.names(again), ["ada"])

    def test_a_stop_amid_a_text(self) -> None:
        """A stop amid the text of an import imports nothing."""
        service = self.over()
        admin = service.client("admin")
        admin.ask("import 1000")
        admin.send(LINE)
        service.stop()
        self.assertTrue(admin.is_ended())

    def test_one_that_hangs(self) -> None:
        """The server kills an import that takes too long: nothing is imported, and the lines that
        waited are answered."""
        with self.held("--longest-import", "2") as (service, admin, client):
            self.assertEqual({client.line(), client.line()}, {b"a yes", b"b noaccount"})
            said = b"credkeep-server: killed credkeep, which still ran after 2 s"
            self.assertEqual(admin.lines(2), [b"t1 ended 137 0 %d" % (len(said) + 1), said])
            self.assertIn("killing credkeep, which still runs after 2 s\n", service.log())
            self.serves(service)
            service.stop()

    def test_kills_of_the_server(self) -> None:
        """The book has all of an import, or nothing, and each answered change."""
        with self.held() as (service, admin, client):
            service.process.kill()
            service.process.wait()
            self.assertTrue(admin.is_ended() and client.is_ended())
        again = self.serving(folder=service.folder)
        self.assertIn(self.names(again), (["ada"], ["ada", "bob"]))
        self.serves(again)

    def test_a_book_that_dies_before(self) -> None:
        """The book's process fails at its end before the import: nothing is imported, and the next
        process serves."""
        service = self.over(program=FAST_BOOK, faults="slow=0.4")
        client, admin = service.client(), service.client("admin")
        client.send(f"a verify ada {SECRET}\n")
        until(lambda: len(service.asked()) == 3, "the book has it")
        book = service.book_pid()
        os.kill(book, signal.SIGSTOP)
        admin.ask(f"import {len(LINE)}")
        admin.send(LINE)
        admin.wait_until_read()
        time.sleep(0.2)
        os.kill(book, signal.SIGKILL)
        self.assertEqual(client.line(), b"a unavailable")
        self.assertRegex(admin.line(), rb"t1 ended 137 0 \d+")
        self.assertIn(b"the server did nothing", admin.line())
        self.assertEqual(self.names(service), ["ada"])
        self.serves(service)

    def test_too_few_descriptors(self) -> None:
        """Without a free one an import is refused, or fails; with one it is done."""
        need("prlimit")
        service = self.over(program=FAST_BOOK, before=("prlimit", "--nofile=40:40"))
        admin, clients = service.client("admin"), [service.client() for _ in range(60)]
        folder = f"/proc/{service.process.pid}/fd"
        until(lambda: len(os.listdir(folder)) >= 40, "all are in use")
        for _ in range(2):
            if (said := admin.ask(f"import {len(LINE)}")) == f"send {len(LINE)}":
                admin.send(LINE)
                self.assertRegex(admin.line(), b"^t[0-9]+ (unavailable|ended 5 .*)$")
            else:
                self.assertEqual(said, "unavailable")
        for client in clients:
            client.close()
        until(lambda: self.ask(service, "import", given=LINE.encode()).status == 0, "an import")
        self.serves(service)
        service.stop()

    def test_a_program_that_is_gone(self) -> None:
        """While credkeep is missing, an import fails, and no line is answered; afterwards the
        service goes on."""
        program, away = self.room() / "credkeep", self.room() / "away"
        program.write_text(f'#!/bin/sh\nexec {FAST_BOOK} "$@"\n')
        program.chmod(0o755)
        service = self.over(program=program)
        admin, client = service.client("admin"), service.client()
        program.rename(away)
        admin.ask(f"import {len(LINE)}")
        admin.send(LINE)
        until(lambda: client.ask("known ada") == "unavailable", "it is refused")
        away.rename(program)
        self.assertRegex(admin.line(), b"^t1 ended 5 0 ")
        self.assertRegex(admin.line(), b"^credkeep-server: .*: No such file or directory$")
        self.serves(service)
        service.stop()

    @contextlib.contextmanager
    def systemd(self) -> Iterator[tuple[socket.socket, dict[str, str]]]:
        """A socket as systemd's, and the environment that names it."""
        path = self.room() / "notify"
        with socket.socket(socket.AF_UNIX, socket.SOCK_DGRAM) as notices:
            notices.bind(str(path))
            notices.settimeout(self.seconds)
            yield notices, {"NOTIFY_SOCKET": str(path), "WATCHDOG_USEC": "200000"}

    def test_a_watchdog(self) -> None:
        """The server sends its watchdog notices to systemd while an import has the book."""
        with self.systemd() as (notices, given), self.held(environment=given):
            drain(notices)
            for _ in range(3):
                self.assertEqual(notices.recv(100), b"WATCHDOG=1")

    def test_a_watchdog_of_one_that_hangs(self) -> None:
        """The notices end after the time of an import, if not even a kill ends it, or if the book's
        process doesn't end before it."""
        with self.systemd() as (notices, given):
            service = self.over("--longest-import", "1", program=FAST_BOOK, environment=given)
            admin, book = service.client("admin"), service.book_pid()
            admin.ask(f"import {len(LINE)}")
            os.kill(book, signal.SIGSTOP)
            self.addCleanup(service.process.kill)
            self.addCleanup(os.kill, book, signal.SIGKILL)
            admin.send(LINE)
            admin.wait_until_read()
            time.sleep(1.5)
            drain(notices)
            notices.settimeout(2)
            with self.assertRaises(TimeoutError):
                notices.recv(100)
