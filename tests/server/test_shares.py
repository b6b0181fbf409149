"""Tests of bin/credkeep-server: one user's requests and connections hold up no other user."""

import asyncio
import builtins
import contextlib
import io
import os
import pathlib
import pwd
import select
import socket
import subprocess
import time
from collections.abc import AsyncIterator
from unittest import mock

from served import PYTHON, Case, Client, need_root
from daemon import doors
from daemon.doors import MOST_WAITING, Door, owner_of, share_of
from daemon.options import Options
from daemon.service import TURNS, Service

# Lines that cost the book nothing, and the end of each answer.
IDLE_LINES = {
    "empty": (b"\n", b"* bad 11 line"),
    "denied": (b"1 list\n", b"1 denied"),
    "unknown": (b"1 frob\n", b"1 denied"),
    "long": (b"1 " + b"x" * 1000 + b"\n", b"1 bad 16 long"),
}


# Opens this many connections.
CONNECTED = """import socket, sys, time
clients = [socket.socket(socket.AF_UNIX) for _ in range(int(sys.argv[2]))]
for it in clients:
    it.connect(sys.argv[1])
print("connected", flush=True)
time.sleep(200)
"""


class Floods(Case):
    def test_lines_that_need_no_book(self) -> None:
        """Beside a hundred connections that send such lines without end, another user soon gets an
        answer."""
        service = self.serving()
        for kind, (line, answer) in IDLE_LINES.items():
            with self.subTest(kind), contextlib.ExitStack() as stack:
                clients = [stack.enter_context(Client(service.path())) for _ in range(100)]
                for client in clients:
                    client.socket.setblocking(False)
                    with contextlib.suppress(BlockingIOError):
                        client.socket.sendall(line * 3000)
                with Client(service.path()) as other:
                    for _ in range(20):
                        other.talk("known ada -> noaccount")
                self.assertLess(self.answers(clients, answer), 100 * 200, "each had its turn")

    def answers(self, clients: list[Client], answer: bytes) -> int:
        """The number of answers, each of which is this one."""
        count = 0
        for client in clients:
            with contextlib.suppress(BlockingIOError):
                while came := client.socket.recv(1 << 20):
                    lines = came.splitlines()
                    self.assertEqual(set(lines[1:-1]), {answer} if lines[1:-1] else set())
                    count += len(lines)
        return count

    def test_all_of_a_users_lines(self) -> None:
        """A user gets a thousand answers a second to lines that cost the book nothing, on however
        many connections."""
        service = self.serving()
        for count in (1, 10, 100):
            clients = [service.client() for _ in range(count)]
            begun, each = time.monotonic(), 400 // count
            for client in clients:
                client.send(b"\n" * each)
            for client in clients:
                self.assertEqual(client.lines(each), [b"* bad 11 line"] * each)
                client.close()
            self.assertGreater(time.monotonic() - begun, 0.25, f"{count} connections")

    @contextlib.asynccontextmanager
    async def door(self, service: Service) -> AsyncIterator[tuple[Door, contextlib.ExitStack]]:
        """A door of a service in this process, and a stack that closes its clients in the end."""
        door = Door("a", str(self.room() / "s"), 0o600, "-", frozenset())
        door.listener = door.listen()
        accepting = asyncio.ensure_future(door.accept(service, door.listener))
        with contextlib.ExitStack() as stack:
            yield door, stack
            accepting.cancel()
        while service.clients:
            await asyncio.sleep(0)
        self.assertFalse(door.counts)

    async def all_let_in(self, door: Door) -> None:
        """Waits until no client waits to be let in."""
        while select.select([door.listener], [], [], 0)[0]:
            await asyncio.sleep(0)

    def test_connections_that_have_gone(self) -> None:
        """Ended connections are closed as they are let in; meanwhile the queue at the socket is
        short."""

        async def waiting(is_flooded: bool) -> int:
            """A hundred come, and are let in; how many more can wait then."""
            async with self.door(Service(Options())) as (door, stack):
                made = (socket.socket(socket.AF_UNIX) for _ in range(100 + 2 * MOST_WAITING))
                clients = [stack.enter_context(it) for it in made]
                for client in clients[:100]:
                    client.connect(door.path)
                    if is_flooded:
                        client.close()
                await self.all_let_in(door)
                self.assertEqual(sum(door.counts.values()), 0 if is_flooded else 100)
                for client in clients[100:]:
                    client.setblocking(False)
                return sum(it.connect_ex(door.path) == 0 for it in clients[100:])

        self.assertEqual(asyncio.run(waiting(is_flooded=True)), MOST_WAITING + 1)
        self.assertEqual(asyncio.run(waiting(is_flooded=False)), 2 * MOST_WAITING)

    def test_lines_in_a_pass(self) -> None:
        """Connections take turns, a line in each, and a pass of the loop takes few lines of all."""
        letters, most = "abcdefghijklmnopqrst", 0

        async def taken() -> str:
            nonlocal most
            lines, service = list[bytes](), Service(Options())
            with mock.patch.object(service, "submit", lambda _, tag, words: lines.append(tag)):
                async with self.door(service) as (door, stack):
                    for letter in letters:
                        client = stack.enter_context(Client(pathlib.Path(door.path)))
                        client.send(f"{letter}\n" * 5)
                    while (before := len(lines)) < 5 * len(letters):
                        await asyncio.sleep(0)
                        most = max(most, len(lines) - before)
            return b"".join(lines).decode()

        text = asyncio.run(taken())
        for letter in letters:
            at = [place for place, it in enumerate(text) if it == letter]
            self.assertLess(at[0], len(letters) + 2 * TURNS, "others had many turns before it")
            self.assertTrue(all(b - a <= len(letters) for a, b in zip(at, at[1:])), text)
        self.assertLessEqual(most, TURNS)

    def test_services_of_root(self) -> None:
        """Each service that asks as root has connections of its own: of 64 places a user has 32."""
        share_of = mock.Mock(side_effect=["sshd"] * 25 + ["imap"] * 18 + ["mail"] * 6)

        async def let_in() -> int:
            async with self.door(Service(Options())) as (door, _):
                words = [PYTHON, "-c", CONNECTED, door.path, "49"]
                with subprocess.Popen(words, stdout=subprocess.PIPE) as process:
                    assert process.stdout and process.stdout.readline()
                    await self.all_let_in(door)
                    process.kill()
                share_of.assert_called_with(os.getuid(), process.pid)
                return sum(door.counts.values())

        few = mock.patch.multiple(doors, MOST_CLIENTS=64, LAST_PLACES=4)
        with few, mock.patch.object(doors, "share_of", share_of):
            self.assertEqual(asyncio.run(let_in()), 49)

    def test_a_fault(self) -> None:
        """A fault costs the client that is being let in, and the next client gets in."""
        share_of = mock.Mock(side_effect=[ValueError("secret"), "other"])

        async def let_in() -> int:
            async with self.door(Service(Options())) as (door, stack):
                for _ in range(2):
                    stack.enter_context(Client(pathlib.Path(door.path)))
                    for _ in range(100):
                        await asyncio.sleep(0)
                return door.counts["a", "other"]

        logged = mock.patch.object(doors, "log_seldom")
        with mock.patch.object(doors, "share_of", share_of), logged as log_seldom:
            self.assertEqual(asyncio.run(let_in()), 1)
        self.assertNotIn("secret", str(log_seldom.call_args_list))

    def test_many_users(self) -> None:
        """However many connections other users have, a user without one gets in."""
        many = [f"user {number}" for number in range(20) for _ in range(16)]

        async def are_let_in(*others: str) -> list[int]:
            """The numbers of connections of each, once many users have theirs."""
            share_of = mock.Mock(side_effect=[*many, *others])
            few = mock.patch.multiple(doors, MOST_CLIENTS=256, LAST_PLACES=32)
            with few, mock.patch.object(doors, "share_of", share_of):
                async with self.door(Service(Options())) as (door, stack):
                    for _ in range(len(many) + len(others)):
                        stack.enter_context(Client(pathlib.Path(door.path)))
                        await self.all_let_in(door)
                    return [door.counts["a", it] for it in others]

        self.assertEqual(asyncio.run(are_let_in("other")), [1])
        self.assertEqual(asyncio.run(are_let_in("user 1", "other", "third")), [16, 1, 1])


class Shares(Case):
    def test_subordinate_uids(self) -> None:
        """Subordinate uids belong to a person, by subuid(5), and count as one user with the
        person's own."""
        file = self.room() / "subuid"
        no_names = "nobody.here:300000:10\na\0b:300000:10\nodd\n:::\n"
        file.write_text(f"1000:100000:65536\nroot:200000:10\n{no_names}1002:300009:1\n")
        with mock.patch.object(doors, "SUBORDINATE", str(file)):
            for uid, owner in {
                0: 0,
                33: 33,
                1000: 1000,
                60001: 60001,
                99999: 99999,
                100000: 1000,
                165535: 1000,
                165536: 165536,
                200009: 0,
                200010: 200010,
                300000: 300000,
                300009: 1002,
            }.items():
                self.assertEqual(owner_of(uid), owner)
            file.write_text("1001:100000:65536\n\n")
            self.assertEqual(owner_of(100000), 1001, "the file has changed")
            file.unlink()
            self.assertEqual(owner_of(100000), 100000)

    def test_names_that_are_looked_up(self) -> None:
        """Of a long file the server looks up one name, the owner's, since a directory may be
        slow."""
        file = self.room() / "subuid"
        lines = (f"nobody.{number}:{number}00000:65536\n" for number in range(1, 1000))
        file.write_text("".join(lines) + "root:100000000:65536\n")
        with mock.patch.object(doors, "SUBORDINATE", str(file)):
            with mock.patch.object(pwd, "getpwnam", wraps=pwd.getpwnam) as looked_up:
                self.assertEqual(owner_of(100000001), 0)
        self.assertEqual(looked_up.mock_calls, [mock.call("root")])

    def test_a_peer_with_a_subordinate_uid(self) -> None:
        """A peer with a subordinate uid shares the connections of the uid's owner."""
        need_root()
        file = self.room() / "subuid"
        file.write_text("1000:100000:65536\n")

        async def users() -> dict[object, int]:
            async with Floods.door(self, Service(Options())) as (door, stack):
                os.chmod(door.path, 0o666)
                for uid in (1000, 100000, 165535, 165536):
                    os.seteuid(uid)
                    try:
                        stack.enter_context(Client(pathlib.Path(door.path)))
                    finally:
                        os.seteuid(0)
                while select.select([door.listener], [], [], 0)[0]:
                    await asyncio.sleep(0)
                return dict(door.counts)

        with mock.patch.object(doors, "SUBORDINATE", str(file)):
            ought = {("a", "uid 1000"): 3, ("a", "uid 165536"): 1}
            self.assertEqual(asyncio.run(users()), ought)

    def test_shares(self) -> None:
        """The share is the uid's; for root's processes the service's, or that of the user who
        logged in."""
        sshd, person = "/system.slice/ssh.service", "/user.slice/user-1000.slice"
        for text, ought in {
            f"0::{sshd}\n": f"uid 0 in {sshd}",
            f"0::{sshd}/inner/deep\n": f"uid 0 in {sshd}",
            f"0::{person}/session-3.scope\n": f"uid 0 in {person}",
            f"0::{person}/user@1000.service/app.slice/x.service\n": f"uid 0 in {person}",
            f"9:pids:/a/b\n1:name=systemd:{sshd}\n0::/\n": f"uid 0 in {sshd}",
            "0::/init.scope\n": "uid 0 in /init.scope",
            "5:memory:/a/b\n0::/\n": "uid 0",
            "": "uid 0",
        }.items():
            opened = mock.Mock(return_value=io.BytesIO(text.encode()))
            with mock.patch.object(builtins, "open", opened):
                self.assertEqual(share_of(0, 1), ought, text)
                self.assertEqual(opened.call_args.args[0], "/proc/1/cgroup")
                self.assertEqual(share_of(33, 1), "uid 33")
        self.assertEqual(share_of(0, 2**22 + 1), "uid 0")  # which is no process
