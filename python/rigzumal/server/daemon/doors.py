"""The sockets: their operations, how they admit clients, and the shares of users."""

from __future__ import annotations

import asyncio
import fcntl
import functools
import grp
import os
import pathlib
import pwd
import re
import socket
import struct
from collections import Counter
from contextlib import suppress
from dataclasses import dataclass, field
from typing import TYPE_CHECKING, Hashable, Optional

from .clients import Client
from .journal import Problem, log_seldom

if TYPE_CHECKING:
    from .service import Service

MOST_CLIENTS = 1024  # of a door
MOST_WAITING = 64  # clients that may wait for admission, while no admitted one stays
LAST_PLACES = 64  # of a door, for users without a place
ACCEPTED_AT_ONCE = 16  # clients in a pass of the loop: other tasks then have their turn
FIRST_OF_SYSTEMD = 3  # the descriptor of its first socket: sd_listen_fds(3)
PEER = struct.Struct("3i")  # of SO_PEERCRED: the peer's pid, uid and gid
SUBORDINATE = "/etc/subuid"  # subuid(5): the uids that a person has in namespaces
RANGE = re.compile(r"([^:\n]+):([0-9]{1,10}):([0-9]{1,10})\n?")  # a line of that file
LEAST_SUBORDINATE = 60001  # the least uid to look up there: people have lower ones
# The first two names of a control group: /system.slice/ssh.service, /user.slice/user-1000.slice.
GROUP = re.compile(rb"^\d+:(?:name=systemd)?:((?:/[^/\n]+){1,2})", re.M)


@dataclass(frozen=True)
class Peer:
    """The process at the other end of a connection."""

    pid: int
    uid: int
    user: tuple[str, str]  # the user whose turn it is: a door, and a share


@dataclass(eq=False)
class Door:
    """A socket, its operations, and its clients."""

    name: str
    path: str
    mode: int
    group: str  # or "-" for none
    operations: frozenset[bytes]
    client: type[Client] = Client  # the protocol that its clients speak
    gid: int = -1
    listener: Optional[socket.socket] = None  # the socket that systemd has opened
    counts: Counter[Hashable] = field(default_factory=Counter)  # clients of each user

    def prepare(self) -> None:
        """Uses the socket from systemd; without one, finds the group, and locks the path of the
        door's own socket."""
        if os.environ.get("LISTEN_PID") == str(os.getpid()):
            self.listener = self.socket_of_systemd()
            return
        try:
            self.gid = -1 if self.group == "-" else grp.getgrnam(self.group).gr_gid
        except KeyError:
            raise Problem(f"the group {self.group} of {self.path} doesn't exist") from None
        self.lock()

    def socket_of_systemd(self) -> socket.socket:
        """Returns the socket that systemd passes under this name."""
        names = os.environ.get("LISTEN_FDNAMES", "").split(":")
        if self.name in names:
            found = socket.socket(fileno=FIRST_OF_SYSTEMD + names.index(self.name))
            if (found.type, found.family) == (socket.SOCK_STREAM, socket.AF_UNIX):
                return found
        raise Problem(f"systemd passed no stream socket named {self.name}")

    def lock(self) -> None:
        """Creates the socket's folder, and locks the path until the process ends."""
        folder = os.path.dirname(self.path)
        if not os.path.isdir(folder):
            os.mkdir(folder)
            os.chmod(folder, 0o755)
        lock = os.open(f"{self.path}.lock", os.O_RDWR | os.O_CREAT, 0o600)
        try:
            fcntl.flock(lock, fcntl.LOCK_EX | fcntl.LOCK_NB)
        except BlockingIOError:
            raise Problem(f"another server uses {self.path}") from None

    def own_socket(self) -> socket.socket:
        """Creates a socket at the door's path, and sets its mode before it listens."""
        listener = socket.socket(socket.AF_UNIX)
        if pathlib.Path(self.path).is_socket():
            if listener.connect_ex(self.path) == 0:
                raise Problem(f"another server listens at {self.path}")
            os.unlink(self.path)
        listener.bind(self.path)
        os.chown(self.path, -1, self.gid)
        os.chmod(self.path, self.mode)
        return listener

    def listen(self) -> socket.socket:
        """Opens the door's socket; from now on clients may connect."""
        try:
            listener = self.listener or self.own_socket()
            listener.setblocking(False)
            listener.listen(MOST_CLIENTS)
        except OSError as fault:
            raise Problem(f"{self.path}: {fault.strerror}") from None
        return listener

    async def accept(self, service: Service, listener: socket.socket) -> None:
        """Admits clients, and shortens the socket's queue while the admitted ones don't stay."""
        with listener:
            while True:
                try:
                    for _ in range(ACCEPTED_AT_ONCE):
                        sock, _address = await asyncio.get_running_loop().sock_accept(listener)
                        stays = self.let_in(service, sock)
                        listener.listen(MOST_CLIENTS if stays else MOST_WAITING)
                    await asyncio.sleep(0)
                except OSError:  # no descriptor is free
                    await asyncio.sleep(0.1)
                except Exception as fault:  # the fault ends one client, and never the socket
                    what = type(fault).__name__
                    log_seldom((self.name, what), "%s: a fault: %s", self.path, what)

    def peer_of(self, sock: socket.socket) -> Peer:
        pid, uid, _gid = PEER.unpack(
            sock.getsockopt(socket.SOL_SOCKET, socket.SO_PEERCRED, PEER.size)
        )
        return Peer(pid, uid, (self.name, share_of(owner_of(uid), pid)))

    def has_place(self, own: int) -> bool:
        """Whether a user with this number of places may have one more. A user may have at most half
        of the places that the others leave free, and may get one of the last places only as a first
        place."""
        taken = sum(self.counts.values())
        is_at_most_half = own + taken < MOST_CLIENTS - 1
        return is_at_most_half and (own == 0 or taken < MOST_CLIENTS - LAST_PLACES)

    def let_in(self, service: Service, sock: socket.socket) -> bool:
        """Whether the connection gets a place of its user. Otherwise a client that is still
        connected receives an answer."""
        with suppress(OSError):  # if the client has sent nothing
            if not sock.recv(1, socket.MSG_PEEK):
                sock.close()
                return False
        client = self.client(service, self, sock, self.peer_of(sock))
        own = self.counts[client.user]
        if self.has_place(own):
            service.clients[client] = asyncio.ensure_future(client.run())
            self.counts[client.user] += 1
            return True
        with suppress(OSError):
            sock.send(client.no_room)
        sock.close()
        log_seldom(client.user, "refused a connection at %s: %s already has %d", *client.user, own)
        service.tally.counts["refused"] += 1
        return False


@functools.lru_cache(maxsize=1)
def ranges_in(path: str, _version: tuple[int, ...]) -> list[tuple[range, str]]:
    """Reads the ranges of uids in this version of a subuid(5) file, each with its owner (a name or
    a uid)."""
    with open(path, encoding="utf-8", errors="replace") as file:
        lines = [found for found in map(RANGE.fullmatch, file) if found]
    ranges = list[tuple[range, str]]()
    for line in lines:
        owner, first, count = line[1], int(line[2]), int(line[3])
        ranges.append((range(first, first + count), owner))
    return ranges


def owner_of(uid: int) -> int:
    """Returns the owner of a subordinate uid; any other uid is its own owner."""
    if uid < LEAST_SUBORDINATE:
        return uid
    try:
        found = os.stat(SUBORDINATE)
        ranges = ranges_in(SUBORDINATE, (found.st_ino, found.st_size, found.st_mtime_ns))
    except OSError:  # the machine has no such file
        return uid
    for uids, owner in ranges:
        if uid in uids:
            with suppress(KeyError, ValueError):  # nobody has this name, or it can't be one
                return int(owner) if owner.isdecimal() else pwd.getpwnam(owner).pw_uid
    return uid


def share_of(uid: int, pid: int) -> str:
    """Returns the user to whose share a process belongs: its uid, or, for a process of root, its
    service."""
    found = None
    if uid == 0:
        with suppress(OSError), open(f"/proc/{pid}/cgroup", "rb", buffering=0) as file:
            found = GROUP.search(file.read(4096))
    return f"uid {uid} in {found[1].decode(errors='replace')}" if found else f"uid {uid}"
