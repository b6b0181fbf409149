"""The parts that the tests of the server share: a server in a temporary folder, and clients of
it."""

import base64
import contextlib
import fcntl
import functools
import os
import pathlib
import socket
import subprocess
import sys
import termios
from collections.abc import Iterator
from dataclasses import dataclass, field
from typing import Any, Optional

HERE = pathlib.Path(__file__).resolve().parent
TOP = HERE.parent.parent
sys.path.insert(0, str(TOP))
from tests import helpers, hostile_fields  # noqa: E402
from tests.helpers import longest, program  # noqa: E402
from tests.helpers import need, need_root, until  # noqa: E402, F401 (for the tests)

FAST_BOOK = HERE / "fast_book.py"
CHEAP = "$argon2id$v=19$m=64,t=1,p=1"
PYTHON = os.environ.get("SERVER_PYTHON", "/usr/bin/python3")
SERVER = os.environ.get("CREDKEEP_SERVER", str(TOP / "bin/credkeep-server"))
os.environ.setdefault("RIGZUMAL_LIBRARY", str(TOP / "c/out/librigzumal.so.1"))
sys.path.insert(0, str(TOP / "python/rigzumal/server"))  # as the server's program does
# Of the server's Python.
need_module = functools.partial(helpers.need_module, python=PYTHON)


def field_of(password: bytes) -> str:
    """A password as a line has it."""
    return base64.b64encode(password).decode().rstrip("=") or "-"


SECRET, WRONG, FRESH = field_of(b"secret"), field_of(b"guess"), field_of(b"fresh")


class Case(helpers.Case):
    def serving(self, *options: str, waits: bool = True, **fields: Any) -> "Service":
        """A server that runs until the test ends."""
        folder = fields.pop("folder", None) or self.room()
        service = Given(folder, options, **fields).begun()
        self.addCleanup(service.end)
        return service.wait_until_started() if waits else service

    @contextlib.contextmanager
    def tapped(self) -> Iterator[pathlib.Path]:
        """An administrator's socket for hostile fields: no line comes there but a login's, and the
        record of ada, whose password is `secret`, stays."""
        costs = ("--setting", CHEAP, "--tries", "0")
        service = self.serving(*costs, program=chosen_book()).enrol(ada="secret")
        admin = service.client("admin")
        record = admin.ask("show ada")
        with hostile_fields.Tap(self.room() / "tap", service.path("admin")) as tap:
            yield tap.path
        self.assertTrue(tap.sent)
        self.assertEqual(tap.other_lines(), [])
        self.assertEqual(admin.ask("show ada"), record)
        service.talk("login verify ada {secret} -> yes")


class BesideCase(Case):
    """Tests of lines sent at once, over credkeep itself."""

    def over(self, **passwords: str) -> "Service":
        program = chosen_book()
        costs = () if program == FAST_BOOK else ("--setting", CHEAP)
        faults = {"faults": "late"} if program == FAST_BOOK else {}
        service = self.serving("--tries", "0", *costs, program=program, **faults)
        return service.enrol(**passwords)


def same(is_: object, ought: object, said: str = "") -> None:
    if is_ != ought:
        raise AssertionError(f"{said}: {is_!r} instead of {ought!r}")


def real_book() -> pathlib.Path:
    """credkeep, as `make` links it or as CREDKEEP names it."""
    return pathlib.Path(program("credkeep"))


def chosen_book() -> pathlib.Path:
    """credkeep, or with BOOK=fast the fast book."""
    return FAST_BOOK if os.environ.get("BOOK") == "fast" else real_book()


def cpu(pid: int) -> float:
    """The seconds of processor time that a process has used."""
    fields = pathlib.Path(f"/proc/{pid}/stat").read_text().rpartition(")")[2].split()
    return (int(fields[11]) + int(fields[12])) / os.sysconf("SC_CLK_TCK")


def ran(*words: str) -> helpers.Ended:
    """The end of the program with these words."""
    return helpers.ended([PYTHON, SERVER, *words])


def is_listening(path: pathlib.Path) -> bool:
    with socket.socket(socket.AF_UNIX) as client:
        return client.connect_ex(str(path)) == 0


def as_user(uid: int, gid: int, path: pathlib.Path, *lines: str) -> str:
    """The answer to a user of one group at a socket, or the system's refusal."""
    groups = os.getgroups()
    os.setgroups([])
    os.setegid(gid)
    os.seteuid(uid)
    try:
        client = Client(path)
    except PermissionError:
        return "not permitted"
    finally:
        os.seteuid(0)
        os.setegid(0)
        os.setgroups(groups)
    with client:
        return " ".join(client.ask(it) for it in lines)


class Client(contextlib.AbstractContextManager["Client"]):
    """A connection to a socket of the server."""

    def __init__(self, path: pathlib.Path) -> None:
        self.socket = socket.socket(socket.AF_UNIX)
        self.socket.settimeout(longest())
        self.rest, self.asked = b"", 0
        try:
            self.socket.connect(str(path))
        except OSError:
            self.close()
            raise

    def send(self, data: bytes | str) -> None:
        self.socket.sendall(data.encode() if isinstance(data, str) else data)

    def wait_until_read(self) -> None:
        """Waits until the server has read all sent bytes."""
        none = bytes(4)
        until(lambda: fcntl.ioctl(self.socket, termios.TIOCOUTQ, none) == none, "it is read")

    def line(self) -> bytes:
        """The next line, without its end; empty at the end."""
        while b"\n" not in self.rest:
            more = self.socket.recv(65536)
            if not more:
                assert not self.rest, f"half an answer: {self.rest!r}"
                return b""
            self.rest += more
        line, _, self.rest = self.rest.partition(b"\n")
        return line

    def lines(self, count: int) -> list[bytes]:
        return [self.line() for _ in range(count)]

    def ask(self, line: str) -> str:
        """The answer to a line, which gets a tag."""
        self.asked += 1
        self.send(f"t{self.asked} {line}\n")
        tag, _, said = self.line().decode().partition(" ")
        same(tag, f"t{self.asked}", f"the tag of {said!r}")
        return said

    def talk(self, table: str) -> None:
        """Asks each line of a table `LINE -> ANSWER`; {secret}, {wrong} and {fresh} are fields."""
        for row in table.format(secret=SECRET, wrong=WRONG, fresh=FRESH).strip().splitlines():
            line, _, ought = row.lstrip().partition(" -> ")
            same(self.ask(line), ought, line)

    def is_ended(self) -> bool:
        try:
            return self.line() == b""
        except ConnectionError:
            return True

    def close(self) -> None:
        self.socket.close()

    def __exit__(self, *_: object) -> None:
        self.close()


@dataclass
class Given:
    """The settings of a server: by default over a fast book, with sockets in a folder."""

    folder: pathlib.Path
    options: tuple[str, ...] = ()
    faults: str = ""
    program: pathlib.Path = FAST_BOOK
    file: Optional[pathlib.Path] = None
    sockets: bool = True
    before: tuple[str, ...] = ()
    environment: dict[str, str] = field(default_factory=dict)
    clocked: bool = False

    def path(self) -> pathlib.Path:
        """The book's file."""
        return self.file or self.folder / "users.db"

    def command(self) -> list[str]:
        server = str(HERE / "clocked.py") if self.clocked else SERVER
        words, at = [*self.before, PYTHON, server, "--credkeep", str(self.program)], self.folder
        if self.sockets:
            words += ["--socket", "login", f"{at}/login.sock", "0660", "-", "verify,change,known"]
            words += ["--socket", "admin", f"{at}/admin.sock", "0600", "-", "all"]
        return [*words, *self.options, str(self.path())]

    def begun(self) -> "Service":
        """Starts the server, over a new book if none exists."""
        if self.program != FAST_BOOK and not self.path().exists():
            subprocess.run([self.program, self.path(), "init"], check=True)
        (self.folder / "clock").write_text("0.0")
        (self.folder / "asked").touch()
        own = {"BOOK_FAULTS": self.faults, "BOOK_LOG": f"{self.folder}/asked"}
        if self.clocked:
            own["CLOCK"] = f"{self.folder}/clock"
        environment = {**os.environ, **own, **self.environment}
        with open(self.folder / "log", "w") as log:
            process = subprocess.Popen(self.command(), stderr=log, env=environment)
        return Service(self.folder, process)


@dataclass
class Service:
    """A server that runs, and its folder."""

    folder: pathlib.Path
    process: subprocess.Popen[bytes]
    clients: list[Client] = field(default_factory=list)

    def wait_until_started(self) -> "Service":
        process = self.process
        until(lambda: "start: " in self.log() or process.poll() is not None, "start")
        assert process.poll() is None, f"it ended: {self.log()}"
        return self

    def path(self, name: str = "login") -> pathlib.Path:
        return self.folder / f"{name}.sock"

    def client(self, name: str = "login") -> Client:
        self.clients.append(Client(self.path(name)))
        return self.clients[-1]

    def both(self) -> tuple[Client, Client]:
        """A client of the login socket, and one of the admin's."""
        return self.client(), self.client("admin")

    def talk(self, table: str) -> None:
        """Asks the lines of a table as Client.talk, with the socket before each line."""
        with Client(self.path("login")) as login, Client(self.path("admin")) as admin:
            clients = {"login": login, "admin": admin}
            for row in table.strip().splitlines():
                door, _, rest = row.lstrip().partition(" ")
                clients[door].talk(rest)

    def log(self) -> str:
        return (self.folder / "log").read_text()

    def asked(self) -> list[str]:
        """The lines that came to the book, but the server's own."""
        lines = (self.folder / "asked").read_text().splitlines()
        return [it for it in lines if it not in ("show -", "verify - -")]

    def stats(self) -> dict[str, float]:
        """The counts of the server."""
        with Client(self.path("admin")) as admin:
            words = admin.ask("stats").split()
        same(words[0], "stats")
        counts = dict(word.split("=") for word in words[1:])
        counts.pop("book")
        return {name: float(value) for name, value in counts.items()}

    def enrol(self, **passwords: str) -> "Service":
        for name, password in passwords.items():
            typed = field_of(password.encode())
            self.talk(f"admin account {name} -> ok\nadmin enrol {name} {typed} -> enrolled")
        return self

    def guess(self, name: str, count: int) -> None:
        """Makes this many tries at a name fail, each once it isn't too early any more."""
        with Client(self.path()) as client:
            for _ in range(count):
                until(lambda: client.ask(f"verify {name} {WRONG}") == "no", "a failed try")

    def set_clock(self, seconds: float) -> None:
        """The time by which failed tries wait, of a server that is clocked."""
        (self.folder / "clock.new").write_text(str(seconds))
        (self.folder / "clock.new").rename(self.folder / "clock")

    def stop(self) -> None:
        """Ends the server in order."""
        self.process.terminate()
        same(self.process.wait(timeout=longest()), 0, self.log())

    def ended(self) -> tuple[int, str]:
        """The status with which it ends by itself, and its log."""
        return self.process.wait(timeout=longest()), self.log()

    def end(self) -> None:
        """Ends the server and its clients, whatever they do."""
        for client in self.clients:
            client.close()
        self.process.terminate()
        try:
            self.process.wait(timeout=longest())
        except subprocess.TimeoutExpired:
            self.process.kill()
            self.process.wait()

    def book_pid(self) -> int:
        children = pathlib.Path(f"/proc/{self.process.pid}/task/{self.process.pid}/children")
        return int(children.read_text().split()[0])
