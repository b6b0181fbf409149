"""Runs the PAM module in a driver of its own, against a peer that answers it."""

import base64
import contextlib
import enum
import os
import pathlib
import signal
import socket
import subprocess
import sys
import tempfile
import time
from collections.abc import Callable, Sequence
from dataclasses import dataclass, field
from typing import Any

HERE = pathlib.Path(__file__).resolve().parent
TOP = HERE.parent
sys.path.insert(0, str(TOP.parent.parent))
from tests import helpers  # noqa: E402
from tests.needs import need_file  # noqa: E402

ROOM = helpers.common_folder()
SOURCES = ["pam_rigzumal.c", "../src/base64.c"]
WARNINGS = os.environ.get("TEST_WARNINGS", "-Wall -Wextra -Wpedantic -Werror").split()
SANITIZED = ["-O1", "-fsanitize=address,undefined", "-fno-sanitize-recover=all"]


class Pam(enum.IntEnum):
    """Results of pam(3), by Linux-PAM's numbers."""

    SUCCESS = 0
    SERVICE_ERR = 3
    AUTH_ERR = 7
    AUTHINFO_UNAVAIL = 9
    USER_UNKNOWN = 10
    MAXTRIES = 11
    NEW_AUTHTOK_REQD = 12
    ACCT_EXPIRED = 13
    AUTHTOK_ERR = 20
    TRY_AGAIN = 24
    INCOMPLETE = 31


class Case(helpers.Case):
    @classmethod
    def setUpClass(cls) -> None:
        super().setUpClass()
        need_file("/usr/include/security/pam_modules.h")  # of libpam0g-dev

    def check(
        self, answer: bytes, ought: Pam, *lines: bytes, task: str = "authenticate", **question: Any
    ) -> "Said":
        """Tests the result of a task and the lines that it sends, if each line gets the same
        answer."""
        said, sent = said_at(answer, Question(tasks=task, **question))
        what = f"{task} {answer!r:.40} {question!r:.200}"
        self.assertEqual((said.codes, sent), ([ought], list(lines)), what)
        return said


def compiled(name: str, flags: Sequence[str], *sources: str) -> pathlib.Path:
    out = ROOM / name
    if not out.exists():
        words = [os.environ.get("CC", "cc"), "-std=c11", "-g", "-I../src", *WARNINGS, *flags]
        helpers.run(*words, *sources, "-o", out, "-lpam", at=TOP)
    return out


@dataclass(frozen=True)
class Build:
    """The module and the driver, built with some flags, and the command that runs the driver."""

    name: str
    flags: tuple[str, ...]
    runner: tuple[str, ...] = ()

    def module(self) -> pathlib.Path:
        return compiled(f"{self.name}.so", [*self.flags, "-fPIC", "-shared"], *SOURCES)

    def driver(self) -> pathlib.Path:
        flags = [*self.flags, "-pthread", "-rdynamic"]
        return compiled(f"driver-{self.name}", flags, "tests/driver.c")


CHECKED = Build("checked", tuple(SANITIZED))
PLAIN = Build("plain", ("-O2",))
VALGRIND = Build(
    "valgrind", ("-O1",), ("valgrind", "-q", "--error-exitcode=9", "--leak-check=full")
)


@dataclass
class Said:
    """The output of a run of the driver."""

    results: list[tuple[str, int]] = field(default_factory=list)
    prompts: list[str] = field(default_factory=list)
    logs: list[str] = field(default_factory=list)
    looks: list[list[int]] = field(default_factory=list)  # how often what was looked for was found
    seconds: float = 0.0

    @property
    def codes(self) -> list[int]:
        return [number for _, number in self.results]


@dataclass
class Question:
    """A service with our module in it, and a user's words."""

    user: str = "ada"
    tasks: str = "authenticate"
    answers: Sequence[bytes] = (b"secret",)
    options: str = ""
    stack: str = "required"
    environment: dict[str, str] = field(default_factory=dict)
    build: Build = CHECKED
    service: str = ""
    looked_for: Sequence[bytes] = ()  # in its memory, as each call ends, and at the end of all


def asked(question: Question, path: pathlib.Path) -> Said:
    """The driver's answer to a question at a socket."""
    module = question.build.module()
    options = f"socket={path} timeout=60 {question.options}"
    default = "".join(
        f"{kind} {question.stack} {module} {options}\n" for kind in ("auth", "account", "password")
    )
    folder = pathlib.Path(tempfile.mkdtemp(dir=ROOM))
    (folder / "other").write_text("auth required pam_deny.so\n")
    (folder / "test").write_text(question.service.format(module=f"{module} {options}") or default)
    command = [*question.build.runner, str(question.build.driver()), str(folder), "test"]
    environment = {**os.environ, "ASAN_OPTIONS": "detect_leaks=1", **question.environment}
    if question.looked_for:
        environment["STOPS"] = "1"
    words = [*command, question.user, *question.tasks.split()]
    pipe, said, before = subprocess.PIPE, Said(), time.monotonic()
    with subprocess.Popen(words, stdin=pipe, stdout=pipe, stderr=pipe, env=environment) as run:
        assert run.stdin and run.stdout and run.stderr
        with contextlib.suppress(BrokenPipeError):  # the driver has ended, and asked for nothing
            run.stdin.write("".join(f"{it.hex()}\n" for it in question.answers).encode())
            run.stdin.close()
        while os.WIFSTOPPED(status := os.waitpid(run.pid, os.WUNTRACED)[1]):
            said.looks.append(found_in(run.pid, question.looked_for))
            run.send_signal(signal.SIGCONT)
        run.returncode, said.seconds = os.waitstatus_to_exitcode(status), time.monotonic() - before
        text, faults = (it.read().decode(errors="replace") for it in (run.stdout, run.stderr))
    if run.returncode:
        raise AssertionError(f"{text}{faults}")
    for line in text.splitlines():
        word, _, rest = line.partition(" ")
        if word in ("prompt", "log"):
            (said.prompts if word == "prompt" else said.logs).append(rest)
        else:
            said.results.append((word, int(rest)))
    if said.results.pop() != ("open", 0):
        raise AssertionError("files stay open, or a child's program has them")
    return said


def found_in(pid: int, needles: Sequence[bytes]) -> list[int]:
    """The number of places of each of these in the writable memory of a process."""
    parts = [*helpers.memory_of(pid, "w")]
    return [sum(part.count(it) for part in parts) for it in needles]


def peer(reply: Callable[[bytes, socket.socket], None]) -> helpers.Peer:
    return helpers.Peer(pathlib.Path(tempfile.mkdtemp(dir=ROOM)) / "socket", reply)


def sends(answer: bytes) -> Callable[[bytes, socket.socket], None]:
    return lambda line, client: client.sendall(answer)


def answers(**words: bytes) -> Callable[[bytes, socket.socket], None]:
    """Answers each operation with its words, and others with yes."""

    def reply(line: bytes, client: socket.socket) -> None:
        operation = line.split()[1].decode()
        client.sendall(words.get(operation, b"1 yes\n"))

    return reply


def said_at(answer: bytes, question: Question) -> tuple[Said, list[bytes]]:
    """The result of a question if each line gets the same answer, and the lines."""
    with peer(sends(answer)) as server:
        return asked(question, server.path), server.lines


def line_of(word: str, name: str, *passwords: bytes) -> bytes:
    """The line that the module must send."""
    fields = [base64.b64encode(it).rstrip(b"=") or b"-" for it in passwords]
    return b" ".join([b"1", word.encode(), name.encode(), *fields]) + b"\n"
