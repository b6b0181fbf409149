"""The shared parts of all tests: runs of programs, and the shims in front of the C library.

With RIGZUMAL_TIMES=N the tests make N times as many kills and random operations as in the gate.
With ARCH=arm64 they run programs of that processor, under qemu-user. This module runs on Python
3.9, as the package does. needs.py lists the needs of a test.
"""

from __future__ import annotations

import atexit
import contextlib
import functools
import inspect
import os
import pathlib
import pty
import re
import resource
import select
import shlex
import shutil
import signal
import socket
import socketserver
import subprocess
import sys
import tempfile
import termios
import threading
import time
import unittest
from collections.abc import Callable, Iterable, Iterator
from typing import Any, NamedTuple

from tests.needs import ARCH, IS_NATIVE, need, need_native
from tests.needs import need_module, need_root  # noqa: F401 (for the tests)

TOP = pathlib.Path(__file__).resolve().parent.parent
PYTHON, LIBRARIES = TOP / "python", TOP / "c/out"
TIMES = int(os.environ.get("RIGZUMAL_TIMES", "1"))
TRIPLET = "x86_64-linux-gnu" if IS_NATIVE else "aarch64-linux-gnu"
# Programs of another processor run under qemu-user, over Debian's cross libraries.
EMULATOR = ["qemu-aarch64", "-L", f"/usr/{TRIPLET}"]
LIMIT = float(os.environ.get("TEST_LIMIT", "1800"))

if sys.version_info < (3, 11):

    def enter_context(case: unittest.TestCase, context: Any) -> Any:
        """Serves as unittest's own method, which Python has from 3.11 on."""
        entered = context.__enter__()
        case.addCleanup(context.__exit__, None, None, None)
        return entered

    unittest.TestCase.enterContext = enter_context


def busy() -> int:
    """Returns the factor by which everything may take longer, while other work uses our
    processors."""
    return max(1, int(os.getloadavg()[0] / len(os.sched_getaffinity(0))))


def longest() -> int:
    """Returns the seconds after which the tests kill a run that hasn't ended."""
    return 120 * busy()


class Case(unittest.TestCase):
    """A test that fails after this many seconds, wherever it waits."""

    seconds = 300

    def setUp(self) -> None:
        def too_long(*_: object) -> None:
            raise TimeoutError(f"over {self.seconds} s")

        signal.signal(signal.SIGALRM, too_long)
        signal.alarm(self.seconds * busy())
        self.addCleanup(signal.alarm, 0)

    def room(self) -> pathlib.Path:
        """Creates a folder for this test, which each user may enter."""
        room = pathlib.Path(self.enterContext(tempfile.TemporaryDirectory(prefix="rigzumal-")))
        room.chmod(0o755)
        return room


def each(*rows: Any) -> Callable[[Callable[..., None]], Callable[..., None]]:
    """Runs a test for each of these rows, as a subtest: the test's parameters name the row's
    values."""

    assert rows, "a test for no row tests nothing"

    def run_each(test: Callable[..., None]) -> Callable[..., None]:
        _, *names = inspect.signature(test).parameters

        @functools.wraps(test)
        def run(case: unittest.TestCase) -> None:
            for row in rows:
                values = row if len(names) > 1 else (row,)
                with case.subTest(**dict(zip(names, values))):
                    test(case, *values)

        return run

    return run_each


class Peer(socketserver.ThreadingUnixStreamServer):
    """A socket at which a function answers the first line of each client, and then closes."""

    daemon_threads = True

    def __init__(self, path: pathlib.Path, reply: Callable[[bytes, socket.socket], None]) -> None:
        super().__init__(str(path), socketserver.BaseRequestHandler)
        self.path, self.reply, self.lines = path, reply, list[bytes]()

    def finish_request(self, request: Any, client_address: Any) -> None:
        with contextlib.suppress(OSError):  # the client has gone
            line = request.makefile("rb").readline()
            self.lines.append(line)
            self.reply(line, request)

    def __enter__(self) -> Peer:
        threading.Thread(target=self.serve_forever, args=(0.01,), daemon=True).start()
        return self

    def __exit__(self, *_: object) -> None:
        self.shutdown()
        self.server_close()


class Ended(NamedTuple):
    """The end of a run: its status, and its output on both streams."""

    status: int
    written: str = ""
    faults: str = ""


def ended(command: list[str], given: str = "", **options: Any) -> Ended:
    """Runs a command to its end with this text as its input; the options are those of Popen."""
    options = {"stdout": subprocess.PIPE, "stderr": subprocess.PIPE, **options}
    if "stdin" not in options:
        options["input"] = given.encode()
    done = subprocess.run(command, timeout=longest(), **options)
    return Ended(done.returncode, *(text_of(it or b"") for it in (done.stdout, done.stderr)))


def run(
    *words: object,
    given: str = "",
    env: dict[str, str] | None = None,
    status: int = 0,
    at: pathlib.Path = TOP,
) -> str:
    """Returns the output of a command on both streams, if it ends with this status. After
    TEST_LIMIT seconds the function kills the command and its process group."""
    line = [str(word) for word in words]
    pipe, both = subprocess.PIPE, subprocess.STDOUT
    streams: dict[str, Any] = {"stdin": pipe, "stdout": pipe, "stderr": both}
    environment = {**os.environ, **(env or {})}
    with subprocess.Popen(
        line, cwd=at, env=environment, start_new_session=True, **streams
    ) as process:
        try:
            text = text_of(process.communicate(given.encode(), LIMIT)[0])
        except BaseException:
            os.killpg(process.pid, signal.SIGKILL)
            raise
    if process.returncode != status:
        raise AssertionError(f"{shlex.join(line)}: status {process.returncode}\n{text}")
    return text


def until(fact: Callable[[], bool], said: str, seconds: float | None = None) -> None:
    """Waits until a condition holds, as long as a slow and busy machine may need."""
    end, pause = time.monotonic() + (longest() if seconds is None else seconds), 0.01
    while not fact():
        assert time.monotonic() < end, f"never: {said}"
        time.sleep(pause)
        pause = min(pause * 1.2, 0.1)


def text_of(written: bytes) -> str:
    return written.decode(errors="surrogateescape")


@functools.cache
def program(name: str) -> str:
    """Returns the path of a program that each user may run: a copy of the file that the variable
    NAME names, or of the built program."""
    out = TOP / "out" / ("" if IS_NATIVE else ARCH)
    source = pathlib.Path(os.environ.get(name.upper(), out / name))
    if not source.is_file():
        raise FileNotFoundError(f"{source}: build it by make programs")
    return str(runnable(pathlib.Path(shutil.copy(source, common_folder()))))


def runnable(program: pathlib.Path) -> pathlib.Path:
    """Returns the program, or a script that runs it under the emulator."""
    if IS_NATIVE:
        return program
    need(EMULATOR[0])
    script = program.with_suffix(".sh")
    script.write_text(f'#!/bin/sh\nexec {shlex.join(EMULATOR)} {program} "$@"\n')
    script.chmod(0o755)
    return script


@functools.cache
def common_folder() -> pathlib.Path:
    """Creates a folder for the files that each process builds once."""
    folder = pathlib.Path(tempfile.mkdtemp(prefix="rigzumal-"))
    folder.chmod(0o755)
    atexit.register(shutil.rmtree, folder, ignore_errors=True)
    return folder


def write_files(folder: pathlib.Path, texts: dict[str, str], mode: int = 0o644) -> None:
    """Writes each text into the file of its name below a folder."""
    for name, text in texts.items():
        path = folder / name
        path.parent.mkdir(parents=True, exist_ok=True)
        path.write_text(text)
        path.chmod(mode)


def memory_of(pid: int, right: str = "r") -> Iterator[bytes]:
    """Yields the parts of a process's memory for which the process has this right, r or w."""
    need_native()
    with open(f"/proc/{pid}/mem", "rb", 0) as memory:
        for line in pathlib.Path(f"/proc/{pid}/maps").read_text().splitlines():
            places, rights = line.split()[:2]
            if right in rights and not re.search(r"\[v\w+\]$", line):
                first, last = (int(it, 16) for it in places.split("-"))
                memory.seek(first)
                yield memory.read(last - first)


def files_below(folder: pathlib.Path) -> set[str]:
    return {str(it.relative_to(folder)) for it in folder.rglob("*") if not it.is_dir()}


def manual(name: str) -> str:
    """Returns the text of a manual page, without its fonts and the backslashes of its hyphens."""
    return re.sub(r"\\f[A-Z]", "", (TOP / "man" / name).read_text().replace("\\-", "-"))


def options_in(text: str) -> set[str]:
    """Returns the options that a text names, in any of its lines."""
    return set(re.findall(r"(?<![\w-])--[a-z][a-z-]*", text))


def limited(limit: int, most: int) -> Callable[[], None]:
    """Returns a function for preexec_fn, which sets a limit of a process before it begins."""
    if limit != resource.RLIMIT_FSIZE:
        need_native()
    return lambda: resource.setrlimit(limit, (most, most))


def small_files(size: int) -> dict[str, Any]:
    """Returns the options for a process whose files can't grow beyond this many bytes. The process
    ignores SIGXFSZ, like Python, so the system refuses the write."""
    return {"preexec_fn": limited(resource.RLIMIT_FSIZE, size), "restore_signals": False}


@contextlib.contextmanager
def small_disk(folder: pathlib.Path, options: str, kind: str = "tmpfs") -> Iterator[pathlib.Path]:
    """Mounts a filesystem in memory with these options, such as size=65536; only root can."""
    folder.mkdir()
    subprocess.run(["mount", "-t", kind, "-o", options, kind, str(folder)], check=True)
    try:
        yield folder
    finally:
        subprocess.run(["umount", str(folder)], check=True)


class Shown(NamedTuple):
    """A program's status; the text on its terminal, with a bar at each input; and whether the
    terminal echoed then and at the end."""

    status: int
    text: bytes
    echoes: list[bool]


def at_a_terminal(
    command: list[str], typed: Iterable[bytes | int], env: dict[str, str] | None = None
) -> Shown:
    """Runs a program at its own terminal. At each prompt the function types a line, or sends a
    signal, again and again while the program runs. It kills the program at a prompt too many."""
    pid, terminal = pty.fork()
    if pid == 0:
        for number in (signal.SIGHUP, signal.SIGINT, signal.SIGQUIT, signal.SIGTERM):
            signal.signal(number, signal.SIG_DFL)  # in a shell's background it would ignore them
        os.execvpe(command[0], command, os.environ if env is None else env)
    shown, echoes, rest, sent = b"", [], [*typed], 0

    def does_echo() -> bool:
        return bool(termios.tcgetattr(terminal)[3] & termios.ECHO)

    with contextlib.suppress(OSError):  # the terminal's end
        while True:
            if select.select([terminal], [], [], 0.1)[0]:
                shown += os.read(terminal, 10000)
            elif shown.rstrip(b" ").endswith((b":", b"]")):
                echoes.append(does_echo())
                shown += b"|"
                if isinstance(given := rest.pop(0) if rest else signal.SIGKILL, bytes):
                    os.write(terminal, given)
                else:
                    sent = given
            if sent:
                os.kill(pid, sent)
    status = os.waitstatus_to_exitcode(os.waitpid(pid, 0)[1])
    echoes.append(does_echo())
    os.close(terminal)
    assert not rest, f"it asked for less: {shown!r}"
    return Shown(status, shown, echoes)


# ---- the shims before the C library, tests/shims

BUILDING = threading.Lock()
TOLD = r"(REFUSED|SYNCS|THREADS|PEAK|ASKED|REQUESTS) (\d+)\n"


def shim_compiler() -> list[str]:
    """Returns the toolchain's clang, in a folder beside the page whose path `rt doc` prints, or cc
    if either is missing. For another processor, returns the compiler for it."""
    if not IS_NATIVE:
        return [f"{TRIPLET}-gcc"]
    if shutil.which("rt") is None:
        return ["cc"]
    page = subprocess.run(["rt", "doc"], capture_output=True, text=True, check=True).stdout.strip()
    clang = pathlib.Path(page).parent / "toolchain" / "bin" / "clang"
    return [str(clang), "-nostdlib", "-fuse-ld=lld"] if clang.exists() else ["cc"]


def shim(name: str = "calls") -> str:
    """Builds a shim of tests/shims as a library, once, and returns its path."""
    library, source = common_folder() / f"{name}.so", TOP / f"tests/shims/{name}.c"
    flags = ["-shared", "-fPIC", "-fno-builtin", "-O2", "-w", "-o", str(library), str(source)]
    with BUILDING:
        if not library.exists():
            subprocess.run([*shim_compiler(), *flags], check=True)
    return str(library)


def before_libc(library: str) -> dict[str, str]:
    """Returns the environment of a program that loads this library before the C library. An
    emulator passes the variable on to the program, and doesn't load the library itself."""
    preload = {"LD_PRELOAD": library} if IS_NATIVE else {"QEMU_SET_ENV": f"LD_PRELOAD={library}"}
    return {**os.environ, **preload}


def shimmed(
    command: list[str], given: str, refused: int, **options: Any
) -> tuple[Ended, dict[str, int]]:
    """Runs a command, refuses its request for memory of this number, and returns all counts."""
    env = {**before_libc(shim()), "REFUSE_NTH": str(refused)}
    done = ended(command, given, env=env, **options)
    found = {word: int(count) for word, count in re.findall(TOLD, done.faults)}
    return done._replace(faults=re.sub(TOLD, "", done.faults)), found


def counts(command: list[str], given: str = "", **options: Any) -> tuple[Ended, dict[str, int]]:
    """Runs a command, and returns its end with the counts of SYNCS, THREADS and memory."""
    return shimmed(command, given, 0, **options)


def requests_of(command: list[str], given: str = "", **options: Any) -> range:
    """Returns the numbers of a command's requests for memory, from 1."""
    return range(1, counts(command, given, **options)[1]["REQUESTS"] + 1)


def without_request(nth: int, command: list[str], given: str = "", **options: Any) -> Ended | None:
    """Runs a command, and refuses its request for memory with this number. Returns its end, or
    nothing if it made fewer requests."""
    done, told = shimmed(command, given, nth, **options)
    return done if "REFUSED" in told else None


def instructions(command: list[str], given: str = "") -> tuple[Ended, int]:
    """Runs a command, and returns its end with the number of its instructions, by valgrind."""
    need_native()
    counter = ["valgrind", "--tool=callgrind", "--callgrind-out-file=/dev/null"]
    done = ended([*counter, *command], given)
    return done, int(done.faults.split("Collected : ")[1].split()[0])
