"""Tests of bin/credkeep-server: its start, the lines of the book, its end, and systemd's
notices."""

import contextlib
import itertools
import os
import pathlib
import re
import signal
import socket
import time
from collections.abc import Callable

from served import SECRET, Case, Client, Service, is_listening, need, until
from tests.helpers import busy


class Starting(Case):
    def test_own_limits(self) -> None:
        """Both have as many descriptors as they may have, and no core dump; so many clients are let
        in."""
        need("prlimit")
        core = ["--core=unlimited"] if os.geteuid() == 0 else []
        service = self.serving(before=("prlimit", "--nofile=64:2048", *core))
        for pid in (service.process.pid, service.book_pid()):
            limits = pathlib.Path(f"/proc/{pid}/limits").read_text()
            self.assertRegex(limits, r"Max core file size +0 +0 ")
            self.assertRegex(limits, r"Max open files +2048 +2048 ")
        clients = [service.client() for _ in range(200)]
        for client in clients:
            client.talk("known ada -> noaccount")

    def test_too_few_descriptors(self) -> None:
        """Without a descriptor for another client it goes on with those that it has, and asyncio
        logs nothing."""
        need("prlimit")
        service = self.serving(before=("prlimit", "--nofile=32:32"))
        clients = [service.client() for _ in range(60)]
        clients[0].talk("known ada -> noaccount")
        folder = f"/proc/{service.process.pid}/fd"
        until(lambda: len(os.listdir(folder)) >= 32, "all are in use")
        time.sleep(0.3)
        clients[0].talk("known ada -> noaccount")
        for client in clients:
            client.close()
        with Client(service.path()) as client:
            client.talk("known ada -> noaccount")
        service.stop()
        own = re.compile("credkeep-server: .*")
        self.assertEqual([it for it in service.log().splitlines() if not own.match(it)], [])

    def test_a_systemd_that_isnt_there(self) -> None:
        """A value that the environment can't mean is passed over, and a socket that nobody reads is
        named in the log."""
        for usec in ("x", "0", "-1", "", "9" * 400):
            given = {"NOTIFY_SOCKET": f"{self.room()}/none", "WATCHDOG_USEC": usec}
            service = self.serving(environment=given)
            service.client().talk("known ada -> noaccount")
            service.stop()
            self.assertEqual(service.log().count("NOTIFY_SOCKET: No such file or directory\n"), 1)
            self.assertNotIn("Traceback", service.log())


class Endings(Case):
    def test_ends_in_order(self) -> None:
        """SIGTERM and SIGINT: lines that it took are answered, no new ones; the status is 0.

        So too where a terminal sends the signal to all of its programs. SIGHUP does nothing.
        """
        need("setsid")
        before = ("env", "--default-signal=HUP", "setsid")
        for number in (signal.SIGTERM, signal.SIGINT):
            for kill in (os.kill, os.killpg):
                service = self.serving("--at-once", "3", faults="slow=0.4", before=before)
                kill(service.process.pid, signal.SIGHUP)
                service.enrol(ada="secret")
                *clients, idle = [service.client() for _ in range(4)]
                for client in clients:
                    client.send(f"a verify ada {SECRET}\n")
                until(lambda: len(service.asked()) == 5, "the book has them")
                kill(service.process.pid, number)
                until(lambda: not is_listening(service.path()), "it ends")
                with contextlib.suppress(OSError):
                    clients[0].send(f"b verify ada {SECRET}\n")
                self.assertEqual([client.line() for client in clients], [b"a yes"] * 3)
                self.assertTrue(all(client.is_ended() for client in [*clients, idle]), "it goes on")
                self.assertEqual(service.ended()[0], 0)
                self.assertEqual(len(service.asked()), 5)
                self.assertIn("end: status 0", service.log())

    def test_book_ends(self) -> None:
        """If the book ends, the server ends with the same status, and waiting clients get an
        answer. After a line without end the book is killed, and nothing that it wrote then is an
        answer."""
        for faults, ought in (("dies=4", 5), ("killed=4", 128 + 9), ("endless", 128 + 9)):
            service = self.serving("--at-once", "3", faults=faults + ";slow=0.4")
            clients, idle = [service.client("admin") for _ in range(8)], service.client()
            for client in clients:
                client.send("a verify ada -\nb verify ada -\n")
            said = [line[2:] for client in clients for line in iter(client.line, b"")]
            self.assertLessEqual(set(said), {b"noaccount", b"unavailable"})
            self.assertGreaterEqual(said.count(b"unavailable"), 16 if faults == "endless" else 4)
            self.assertTrue(idle.is_ended(), "it goes on")
            status, log = service.ended()
            self.assertEqual(status, ought, faults)
            self.assertIn(f"end: status {ought}", log)

    def test_unread_answers(self) -> None:
        """A client that leaves answers unread delays the end by a moment, and the book ends by
        itself."""
        for lines in ("a known ada\n" * 1000, "a list\n" * 300, "\n" * 900):
            service = self.serving()
            client = service.client()
            client.socket.setblocking(False)
            with contextlib.suppress(BlockingIOError):
                for _ in range(100):
                    client.send(lines)
            begun = time.monotonic()
            service.stop()
            self.assertLess(time.monotonic() - begun, 15 * busy(), f"{lines:.20}")
            self.assertNotIn("killed", service.log())

    def test_an_end_amid_a_beat(self) -> None:
        """A stop while the server itself waits for the book costs nobody an answer."""
        for number, ought in ((signal.SIGCONT, b"noaccount"), (signal.SIGKILL, b"unavailable")):
            service = self.serving(
                environment={"WATCHDOG_USEC": "200000"}
            )  # of which half is a beat
            client, book = service.client(), service.book_pid()
            os.kill(book, signal.SIGSTOP)
            time.sleep(0.3)  # until the server asks it
            client.send("a known ada\n" * 8)
            client.wait_until_read()
            service.process.terminate()
            time.sleep(0.3)
            os.kill(book, number)
            self.assertEqual(client.lines(8), [b"a " + ought] * 8)
            status, log = service.ended()
            self.assertEqual(status, 0 if number == signal.SIGCONT else 128 + 9)
            self.assertNotIn("a fault", log)

    def with_unanswered_lines(self) -> Service:
        """A server that has 20 lines, of which the book has two and answers none."""
        service = self.serving("--at-once", "2", faults="mute=verify")
        client = service.client()
        client.send("a verify ada -\n" * 20)
        client.wait_until_read()
        until(lambda: len(service.asked()) == 2, "the book's lines")
        return service

    def test_a_book_that_goes_on(self) -> None:
        """Lines without an answer are dropped after 18 s. A book that still goes on is killed, 12 s
        later."""
        goes_on, stopped = self.with_unanswered_lines(), self.with_unanswered_lines()
        os.kill(stopped.book_pid(), signal.SIGSTOP)
        begun = time.monotonic()
        goes_on.process.terminate()
        stopped.process.terminate()
        for service, least, is_stopped in ((goes_on, 18, False), (stopped, 30, True)):
            status, log = service.ended()
            self.assertTrue(least - 1 < time.monotonic() - begun < 90 * busy(), f"{least} s")
            self.assertIn("20 lines had no answer after 18 s", log)
            is_killed = "killing the book's process, which still runs after 30 s" in log
            self.assertEqual((is_killed, status), (is_stopped, 128 + 9 if is_stopped else 0))

    def test_listening_fails(self) -> None:
        """An address that can't be listened at ends the server with a cause, and the book in
        order."""
        need("systemd-socket-activate")
        for option, name, said in (
            ("--datagram", "admin", "systemd passed no stream socket named login"),
            ("", "other", "systemd passed no stream socket named admin"),
        ):
            room, kind = self.room(), socket.SOCK_DGRAM if option else socket.SOCK_STREAM
            words = f"systemd-socket-activate {option} --fdname=login:{name} -l {room}/a"
            before = (*words.split(), "-l", f"{room}/b")
            service = self.serving(before=before, folder=room, waits=False)
            with socket.socket(socket.AF_UNIX, kind) as client:
                until(lambda: client.connect_ex(f"{room}/a") == 0, "a socket")
                client.send(b"a known ada\n")
            status, log = service.ended()
            self.assertEqual((status, said in log), (1, True), log)


class Systemd(Case):
    def notices(self) -> tuple[dict[str, str], Callable[[], list[bytes]]]:
        """A socket as systemd's, in the environment, and what came so far."""
        path, came = self.room() / "notify", list[bytes]()
        systemd = self.enterContext(socket.socket(socket.AF_UNIX, socket.SOCK_DGRAM))
        systemd.bind(str(path))
        systemd.setblocking(False)

        def look() -> list[bytes]:
            with contextlib.suppress(BlockingIOError):
                while True:
                    came.append(systemd.recv(4096))
            return came

        return {"NOTIFY_SOCKET": str(path)}, look

    def test_notices(self) -> None:
        """READY=1 once the book answers, WATCHDOG=1 for as long as it does, STOPPING=1."""
        environment, came = self.notices()
        service = self.serving(environment={**environment, "WATCHDOG_USEC": "4000000"})

        def beats() -> int:
            return came().count(b"WATCHDOG=1")

        moments = list[float]()
        for count in range(1, 5):
            until(lambda: beats() >= count, "WATCHDOG=1")
            moments.append(time.monotonic())
        gaps = [later - earlier for earlier, later in itertools.pairwise(moments)]
        self.assertLess(min(gaps), 3.9, "it is told less than once in 4 s")
        self.assertEqual(came()[0], b"READY=1")
        book = service.book_pid()
        os.kill(book, signal.SIGSTOP)
        try:
            time.sleep(2.2)
            count = beats()
            time.sleep(2.5)
            self.assertEqual(beats(), count, "the book doesn't answer")
        finally:
            os.kill(book, signal.SIGCONT)
        until(lambda: beats() > count, "WATCHDOG=1")
        service.stop()
        self.assertEqual(came().count(b"STOPPING=1"), 1)

    def test_a_book_that_never_answers(self) -> None:
        """If the book never answers, systemd gets no notice, and no client is let in."""
        environment, came = self.notices()
        service = self.serving(environment=environment, faults="mute=show", waits=False)
        time.sleep(1)
        self.assertEqual(came(), [])
        self.assertFalse(service.path().exists() and is_listening(service.path()))
        service.process.kill()

    def test_sockets_handed_over(self) -> None:
        """The server finds systemd's sockets by their names, whatever their order, and opens
        none."""
        need("systemd-socket-activate")
        for order in (["login", "admin"], ["admin", "login"]):
            room = self.room()
            words = ["systemd-socket-activate", f"--fdname={':'.join(order)}"]
            words += [word for name in order for word in ("-l", f"{room}/{name}.handed")]
            service = self.serving(before=tuple(words), folder=room, waits=False)
            for name in order:
                until(lambda: is_listening(room / f"{name}.handed"), "it listens")
            with Client(room / "login.handed") as login, Client(room / "admin.handed") as admin:
                login.talk("list - 1 -> denied")
                admin.talk("list - 1 -> names")
            made = service.path().exists() or service.path("admin").exists()
            self.assertFalse(made, "sockets were made")
            service.stop()
            self.assertTrue((room / "login.handed").exists(), "systemd's socket is gone")

    def test_sockets_of_another_process(self) -> None:
        """A socket that systemd hands to another process isn't used."""
        others = {"LISTEN_PID": "1", "LISTEN_FDS": "2", "LISTEN_FDNAMES": "login:admin"}
        self.serving(environment=others).client().talk("known ada -> noaccount")
