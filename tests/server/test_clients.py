"""Tests of rigzumal.server, for threads and for asyncio.

The tests need the library in c/out, or the one that RIGZUMAL_LIBRARY names.
"""

import asyncio
import concurrent.futures
import importlib
import os
import pathlib
import socket
import socketserver
import threading
import time
from typing import Any
from unittest import mock

from client_case import ClientCase
from served import SECRET, longest, until


class Clients(ClientCase):
    def test_all_calls(self) -> None:
        """Each call, for threads and for asyncio, returns the book's answer."""
        Reply, odd = self.server.Reply, "p\u00e4ss w\u00f6rd"
        rows: list[tuple[Any, ...]] = [
            (Reply.OK, "account", "ada"),
            (Reply.ABSENT, "known", "ada"),
            (Reply.ABSENT, "verify", "ada", "x"),
            (Reply.ENROLLED, "enrol", "ada", "secret"),
            (Reply.EXISTS, "enrol", "ada", "secret"),
            (Reply.YES, "verify", "ada", b"secret"),
            (Reply.NO, "verify", "ada", ""),
            (Reply.NO_ACCOUNT, "verify", "zoe", "x"),
            (Reply.NO_ACCOUNT, "known", "zoe"),
            (Reply.REPLACED, "change", "ada", "secret", odd),
            (Reply.WRONG, "change", "ada", "secret", "x"),
            (Reply.YES, "verify", "ada", odd),
            (Reply.REPLACED, "reset", "ada", b"\xff" * 256),
            (Reply.YES, "verify", "ada", b"\xff" * 256),
            (Reply.YES, "known", "ada"),
            (Reply.LOCKED, "lock", "ada"),
            (Reply.NO, "verify", "ada", b"\xff" * 256),
            (Reply.UNLOCKED, "unlock", "ada"),
            (Reply.NONE, "unlock", "ada"),
            (Reply.EXPIRED, "expire", "ada"),
            (Reply.EXPIRED, "verify", "ada", b"\xff" * 256),
            (Reply.EXPIRED, "known", "ada"),
            (Reply.NO_ACCOUNT, "expire", "zoe"),
            (Reply.RENAMED, "rename", "ada", "bob"),
            (["bob"], "names"),
            (Reply.OK, "account", "cid"),
            (["bob"], "names", "-", 1),
            (["cid"], "names", "c"),
            (Reply.DELETED, "delete", "cid"),
            (Reply.DISABLED, "disable", "bob"),
            (Reply.DELETED, "delete", "bob"),
            ([], "names", "-", 5),
        ]
        path, open_before = self.serving().path("admin"), len(os.listdir("/proc/self/fd"))
        for call in self.calls(path):
            for ought, *asked in rows:
                self.assertEqual(call(*asked), ought, f"{asked}")
        self.assertEqual(len(os.listdir("/proc/self/fd")), open_before, "what stays open")

    def test_refusals(self) -> None:
        """Calls that are denied, refused, too early or missing, by name; and those that aren't even
        sent."""
        service = self.serving("--tries", "1").enrol(ada="secret")
        names = ["", "a b", "a\nb", "a\x7f", "a\tb", " ", "\r", "\ud800", "x" * 255, "x" * 2000]
        rows: list[tuple[Any, ...]] = [
            ("Denied", "login", "enrol", "ada", "secret"),
            ("Refused 3 name", "admin", "account", "Ada"),
            ("Later", "login", "verify", "ada", "secret"),
            *(("Refused 3 name", "admin", "rename", "ada", name) for name in names),
            *(("Refused 3 name", "admin", "account", name) for name in names),
            ("ValueError", "admin", "reset", "ada", "x" * 257),
            ("ValueError", "login", "change", "ada", "x", "x" * 257),
            ("TypeError", "login", "verify", "ada", 5),
        ]
        login, admin = service.path(), service.path("admin")
        self.assertIs(
            self.server.Client(login, longest()).verify("ada", "guess"), self.server.Reply.NO
        )
        asked = len(service.asked())
        for ought, door, *given in rows:
            for call in self.calls(admin if door == "admin" else str(login)):
                with self.assertRaises(Exception) as caught:
                    call(*given)
                text = f"{type(caught.exception).__name__} {caught.exception}"
                self.assertEqual(text[: len(ought)], ought, f"{given}")
                self.assertNotIn("secret", text)
        with self.assertRaises(self.server.Refused) as refused:
            self.server.Client(admin, longest()).account("a b")
        self.assertEqual((refused.exception.number, refused.exception.word), (3, "name"))
        sent = ["account Ada", f"verify ada {SECRET}"]
        self.assertEqual(sorted(service.asked()[asked:]), sorted(sent * 2), "what isn't sent")
        for path in ("/nonexistent/socket", login):
            if path == login:
                service.stop()
            for call in self.calls(path):
                text = f"^{path}: (No such file or directory|Connection refused)$"
                with self.assertRaisesRegex(self.server.Unavailable, text):
                    call("known", "ada")
        asked = importlib.import_module("rigzumal.server._client").Question
        self.assertNotRegex(repr(asked("verify", ("ada",), ("secret",))), "c2Vj|secret")

    def test_replies_are_no_truth(self) -> None:
        """`if client.verify(..):` fails, whatever the answer; comparisons don't."""
        for reply in self.server.Reply:
            with self.assertRaisesRegex(TypeError, "compare it with Reply.YES"):
                bool(reply)
            self.assertEqual([it for it in self.server.Reply if it is reply], [reply])
            self.assertIn(reply, {reply})

    def test_peers_that_say_nothing_right(self) -> None:
        """Garbage, half an answer, another tag, what has no end: Unavailable, at once or after the
        call's whole time."""
        answers = [b"", b"yes\n", b"1 yes", b"2 yes\n", b"1 yess\n", b"1 ye\n", b"1 no yes\n"]
        answers += [b"1 \xffyes\n", b"x" * 200000, b"* bad 16 long\n", b"1 unavailable\n"]
        scenes = [(answer, "", 60.0, 0.0, 30) for answer in (*answers, b"\n", b"1\n")]
        scenes += [(b"1 y", "waits", 0.5, 0.4, 60), (b"1 y", "drips", 1.0, 0.9, 60)]
        for answer, then, timeout, least, most in (
            *scenes,
            (b"x" * (8 << 20), "waits", 60.0, 0, 30),
        ):
            for call in self.calls(self.peer(answer, then), timeout=timeout):
                seconds = self.is_unavailable(call)
                self.assertTrue(least <= seconds < most, f"{answer[:20]!r}, {then}: {seconds} s")

    def test_full_backlog(self) -> None:
        """While too many clients wait to be let in, a call waits too, for its timeout and no
        longer."""
        path = str(self.room() / "s")
        listener, first = (self.enterContext(socket.socket(socket.AF_UNIX)) for _ in range(2))
        listener.bind(path)
        listener.listen(0)
        first.connect(path)
        client = self.server.Client(path, timeout=0.3)
        self.assertGreaterEqual(self.is_unavailable(client.verify, "ada", "x"), 0.29)

        def take() -> None:
            for said in (b"", b"1 yes\n"):
                with listener.accept()[0] as accepted:
                    accepted.recv(100 if said else 0)
                    accepted.sendall(said)

        later = threading.Timer(0.2, take)
        later.start()
        self.assertIs(self.server.Client(path, longest()).verify("ada", "x"), self.server.Reply.YES)
        later.join()

    def test_pauses_of_a_full_backlog(self) -> None:
        """Pauses at a full backlog are short: the server lets the next client in within
        milliseconds."""
        full = mock.Mock(connect=mock.Mock(side_effect=[BlockingIOError] * 5 + [None]))
        with mock.patch("time.sleep") as slept:
            self.server.Client("s")._connect(full, time.monotonic() + 60)
        pauses = [it.args[0] for it in slept.call_args_list]
        self.assertEqual(len(pauses), 5)
        self.assertTrue(all(0 < it <= 0.05 for it in pauses), pauses)

    def test_closed_amid_a_call(self) -> None:
        """Each waiting call learns of the connection's end from its own client."""

        async def closes(path: pathlib.Path) -> None:
            client = self.aio.Client(path, timeout=60)
            waiting = asyncio.ensure_future(client.verify("ada", "x"))
            await asyncio.sleep(0.3)
            await client.close()
            with self.assertRaises(self.server.Unavailable):
                await asyncio.wait_for(waiting, 120)

        asyncio.run(closes(self.peer(b"", "waits")))

    def test_late_answers(self) -> None:
        """No call gets an answer that came too late."""
        path = str(self.room() / "s")

        async def late(reader: asyncio.StreamReader, writer: asyncio.StreamWriter) -> None:
            """Answers a line as the next one comes: yes and no in turns."""
            before, said = b"", [b"yes", b"no"]
            while line := await reader.readline():
                if before:
                    writer.write(before + b" " + said[0] + b"\n")
                    said.reverse()
                before = line.split()[0]

        async def asks() -> None:
            client = self.aio.Client(path, timeout=0.4)
            async with await asyncio.start_unix_server(late, path), client:
                for _ in range(4):
                    with self.assertRaises(self.server.Unavailable):
                        await client.verify("ada", "x")
                (connection,) = client._connections.values()
                self.assertEqual(connection._waiting, {}, "calls that nobody waits for")

        asyncio.run(asks())

    def test_one_connection(self) -> None:
        """Tasks that begin together connect once."""
        path, taken = str(self.room() / "s"), []

        async def take(reader: asyncio.StreamReader, writer: asyncio.StreamWriter) -> None:
            taken.append(writer)
            while line := await reader.readline():
                writer.write(line.split()[0] + b" yes\n")
            writer.close()

        async def asks() -> None:
            client = self.aio.Client(path, longest())
            async with await asyncio.start_unix_server(take, path), client:
                said = await asyncio.gather(*(client.known("ada") for _ in range(50)))
            self.assertEqual((set(said), len(taken)), ({self.server.Reply.YES}, 1))

        asyncio.run(asks())

    def test_several_event_loops(self) -> None:
        """One client serves event loops one after another, as of several asyncio.run, and two at
        the same time. Each has its own connection, and closed ones aren't kept."""
        Reply, taken, both = self.server.Reply, [], threading.Barrier(2, timeout=longest())

        class Yes(socketserver.StreamRequestHandler):
            def handle(self) -> None:
                taken.append(self)
                for line in self.rfile:
                    self.wfile.write(line.split()[0] + b" yes\n")

        server = socketserver.ThreadingUnixStreamServer(str(self.room() / "s"), Yes)
        self.addCleanup(server.server_close)
        self.addCleanup(server.shutdown)
        server.daemon_threads = True
        threading.Thread(target=server.serve_forever, args=(0.01,), daemon=True).start()
        client = self.aio.Client(server.server_address, longest())

        async def asks() -> set[Any]:
            return {*await asyncio.gather(*(client.known("ada") for _ in range(50)))}

        async def asks_beside(_: int) -> set[Any]:
            both.wait()
            said = await asks()
            both.wait()
            return said

        for _ in range(3):
            self.assertEqual(asyncio.run(asks()), {Reply.YES})
        self.assertEqual((len(taken), len(client._connections)), (3, 1))
        with concurrent.futures.ThreadPoolExecutor(2) as threads:
            said = threads.map(lambda number: asyncio.run(asks_beside(number)), range(2))
            self.assertEqual([*said], [{Reply.YES}] * 2)
        self.assertEqual(len(taken), 5)

    def test_two_answers_in_one_packet(self) -> None:
        """Both clients read the first answer alone, whatever comes with it."""
        for call in self.calls(self.peer(b"1 yes\n1 no\n")):
            self.assertIs(call("known", "ada"), self.server.Reply.YES)

    def test_many_at_once(self) -> None:
        """Tasks share a connection, threads have one each: each call gets its own answer, though
        answers come in any order, and from a book that also writes noise."""
        Reply = self.server.Reply
        pairs = [(number % 8, number % 3) for number in range(400)]
        ought = [Reply.YES if one == two else Reply.NO for one, two in pairs]

        async def used(client: Any) -> None:
            asked = (client.verify(f"user{one}", f"secret{two}") for one, two in pairs)
            self.assertEqual(await asyncio.gather(*asked), ought)

        for faults in ("late", "late;garbage"):
            service = self.serving("--tries", "0", faults=faults)
            service.enrol(**{f"user{number}": f"secret{number}" for number in range(8)})
            self.run_with(service.path(), used)
            verify = self.server.Client(service.path(), longest()).verify
            with concurrent.futures.ThreadPoolExecutor(8) as pool:
                said = pool.map(lambda pair: verify(f"user{pair[0]}", f"secret{pair[1]}"), pairs)
                self.assertEqual(list(said), ought)
            service.stop()
            self.assertEqual(
                "answered a line that nobody sent" in service.log(), "garbage" in faults
            )

    def test_connections_that_end(self) -> None:
        """After the server has closed or restarted, the next call connects anew."""
        Reply, service = self.server.Reply, self.serving("--idle", "1")
        service.enrol(ada="secret")

        def is_closed() -> bool:
            return service.stats()["clients"] == 1  # the one who looks

        async def used(client: Any) -> None:
            self.assertIs(await client.verify("ada", "secret"), Reply.YES)
            await asyncio.to_thread(until, is_closed, "it is closed")
            self.assertIs(await client.verify("ada", "secret"), Reply.YES)
            service.stop()
            with self.assertRaises(self.server.Unavailable):
                await client.verify("ada", "secret")

        self.run_with(service.path(), used)
