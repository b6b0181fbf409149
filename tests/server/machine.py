"""A separate machine for Debian's programs: namespaces, layers over folders, the PAM module, and a
server."""

import functools
import os
import pathlib
import re
import shutil
import socket
import subprocess
import unittest
from collections.abc import Callable
from typing import TypeVar

from served import CHEAP, FAST_BOOK, HERE, PYTHON, TOP, Case, Given, Service, chosen_book, need
from served import need_root, same
from tests.helpers import busy, longest, run

PAGE = TOP / "docs/SERVERS.md"
SECURITY = pathlib.Path("/usr/lib/x86_64-linux-gnu/security")
RUN = pathlib.Path("/run/rigzumal/users")


def on_page(path: str) -> str:
    """The text of a file as the page has it; one text may be of several files."""
    form = rf"```\n# (?:[^\n]+, )?{re.escape(path)}(?:, [^\n]+)?\n(.*?)```"
    found = re.search(form, PAGE.read_text(), re.S)
    assert found, f"{path} isn't on the page"
    assert len(found[1].splitlines()) <= 36, f"{path} has over 36 lines"
    return found[1]


def install(*paths: str) -> None:
    """Writes files as the page has them, but for PAM's patience: a machine may stall."""
    for path in paths:
        pathlib.Path(path).parent.mkdir(parents=True, exist_ok=True)
        patient = on_page(path).replace("pam_rigzumal.so", "pam_rigzumal.so timeout=60")
        pathlib.Path(path).write_text(patient)


def commands_on_page(word: str) -> list[str]:
    """The lines of shell on the page that begin with a word."""
    blocks = re.findall(r"```sh\n(.*?)```", PAGE.read_text(), re.S)
    lines = "\n".join(blocks).splitlines()
    return [line for line in lines if line.startswith(word)]


def shell(line: str, status: int = 0) -> str:
    return run("sh", "-c", line, status=status)


def private(room: pathlib.Path, *paths: str) -> None:
    """Redirects changes of folders into the room, away from the machine."""
    over = room / "over"
    over.mkdir()
    shell(f"mount -t tmpfs none {over}")
    for number, path in enumerate(paths):
        upper, work = over / f"upper{number}", over / f"work{number}"
        upper.mkdir()
        upper.chmod(pathlib.Path(path).stat().st_mode)
        work.mkdir()
        layers = f"lowerdir={path},upperdir={upper},workdir={work}"
        shell(f"mount -t overlay overlay -o {layers} {path}")


def prepared(room: pathlib.Path) -> None:
    """A machine with the module, the group, two users and the sockets' folder."""
    shell(f"mkdir {room}/pts && mount --bind /dev/pts {room}/pts")
    private(room, "/etc", "/var", "/dev", "/home", "/usr/share/pam-configs", str(SECURITY))
    shell(f"mkdir -p /dev/pts && mount --bind {room}/pts /dev/pts")
    shell("mkdir -p /var/lib/rigzumal && mount -t tmpfs none /var/lib/rigzumal")
    shell("mount -t tmpfs none /run && ip link set lo up")
    shell("mkdir -p /run/sshd /run/lock /run/apache2 /run/dovecot")
    shutil.copy(TOP / "c/pam/out/pam_rigzumal.so", SECURITY)
    crypted = shell("openssl passwd -6 unixword").strip()
    added = {"group": "rigzumal:x:64999:www-data\npeople:x:4711:\n", "passwd": "", "shadow": ""}
    for number, name in enumerate(("ada", "eve"), 4711):
        added["passwd"] += f"{name}:x:{number}:4711::/tmp:/bin/sh\n"
        added["shadow"] += f"{name}:{crypted}:19000:0:99999:7:::\n"
    for file, lines in added.items():
        with open(f"/etc/{file}", "a") as appended:
            appended.write(lines)
    RUN.mkdir(parents=True)
    os.chmod(RUN, 0o755)


def begun(*options: str, book: str = "users") -> Service:
    """A book's server, with the sockets that it has by default."""
    program, file = chosen_book(), pathlib.Path(f"/var/lib/rigzumal/{book}.db")
    folder = RUN.parent / book
    folder.mkdir(exist_ok=True)
    folder.chmod(0o755)
    costs = () if program == FAST_BOOK or "--setting" in options else ("--setting", CHEAP)
    given = Given(folder, (*options, *costs), program=program, file=file, sockets=False)
    return given.begun().wait_until_started()


def started(room: pathlib.Path, *options: str) -> Service:
    """A machine with a server, whose book has two users."""
    prepared(room)
    return begun(*options).enrol(ada="secret", bob="other word")


def is_open(port: int) -> bool:
    with socket.socket() as client:
        return client.connect_ex(("127.0.0.1", port)) == 0


def pamtester(service: str, user: str, tasks: str, typed: str, status: int, text: str) -> None:
    words = ["pamtester", "-I", "rhost=192.0.2.7", service, user, *tasks.split()]
    said = run(*words, given=typed, status=status)
    same(text in said, True, f"{tasks}: {said}")


def lets_in(service: str, user: str, password: str, tasks: str = "authenticate") -> None:
    pamtester(service, user, tasks, f"{password}\n", 0, "successfully")


def keeps_out(service: str, user: str, password: str, text: str = "Authentication failure") -> None:
    pamtester(service, user, "authenticate", f"{password}\n", 1, text)


Test = TypeVar("Test", bound=Case)


def in_namespaces(test: Callable[[Test, pathlib.Path], None]) -> Callable[[Test], None]:
    """A test that runs itself once more in namespaces of its own, with a room for its copies."""

    @functools.wraps(test)
    def outer(self: Test) -> None:
        if "INSIDE" in os.environ:
            test(self, pathlib.Path(os.environ["INSIDE"]))
            return
        need_root()
        need("unshare", "ip", "make")
        if pathlib.Path("/usr/include/security/pam_modules.h").exists():
            subprocess.run(["make", "-s", "-C", TOP / "c/pam"], check=True, timeout=longest())
        name = f"{pathlib.Path(test.__code__.co_filename).stem}.{type(self).__name__}"
        words = f"unshare --mount --pid --fork --kill-child --mount-proc --net {PYTHON} -m unittest"
        done = subprocess.run(
            [*words.split(), "-v", f"{name}.{test.__name__}"],
            cwd=HERE,
            env={**os.environ, "INSIDE": str(self.room())},
            capture_output=True,
            text=True,
            timeout=0.9 * self.seconds * busy(),
        )
        if skipped := re.search(r"skipped (['\"])(.*)\1$", done.stderr, re.M):
            raise unittest.SkipTest(skipped[2])
        self.assertEqual(done.returncode, 0, f"{done.stdout}{done.stderr}")

    return outer
