#!/usr/bin/python3
"""Times logins through credkeep-server: at the socket, and through PAM, beside pam_unix.

    /usr/bin/python3 bench/server/run.py [--seconds S] [--clients N [N ..]] [--fast]

The script measures verifies a second with 64 MiB and 4 MiB (Argon2id, t=1, p=1), for 1, 4 and 16
clients. At the socket, each client keeps its connection. Through pam_rigzumal, each login has its
own connection. pam_unix uses yescrypt at its default costs. The script needs root, the built
credkeep, libpam0g-dev and pamtester, and runs in its own namespaces. `--fast` uses the tests' book,
whose hashes cost nothing, so the figures show only the server's own time. Run this script on a
machine without other work.
"""

import argparse
import asyncio
import pathlib
import subprocess
import sys
import tempfile
import time

TOP = pathlib.Path(__file__).resolve().parent.parent.parent
sys.path = [str(TOP / "tests/server"), str(TOP / "bench"), *sys.path]
from machine import RUN, begun, install, prepared, shell  # noqa: E402
from served import PYTHON, field_of  # noqa: E402
from turns import print_head, print_row, rate  # noqa: E402

WORD = "secret word"
FIELD = field_of(WORD.encode())


async def at_socket(clients: int, seconds: float) -> float:
    """Measures verifies a second of this many clients."""
    end, counts = time.perf_counter() + seconds, [0] * clients

    async def one(number: int) -> None:
        reader, writer = await asyncio.open_unix_connection(str(RUN / "login.sock"))
        while time.perf_counter() < end:
            writer.write(f"1 verify ada {FIELD}\n".encode())
            assert await reader.readline() == b"1 yes\n"
            counts[number] += 1
        writer.close()

    start = time.perf_counter()
    await asyncio.gather(*map(one, range(clients)))
    return sum(counts) / (time.perf_counter() - start)


def by_pam(service: str, clients: int, seconds: float) -> float:
    """Measures logins a second of this many clients, ten in each run of pamtester."""
    words, given = ["pamtester", service, "ada", *["authenticate"] * 10], f"{WORD}\n" * 10
    ten = lambda: subprocess.run(words, input=given, text=True, capture_output=True, check=True)
    return 10 * rate(ten, seconds, clients)


def inside(room: pathlib.Path, given: argparse.Namespace) -> None:
    prepared(room)
    install("/etc/pam.d/book")
    lines = "auth required pam_unix.so\naccount required pam_unix.so\n"
    pathlib.Path("/etc/pam.d/unix").write_text(lines)
    shell("sed -i '/^ada:/d' /etc/shadow && echo 'ada::19000:0:99999:7:::' >> /etc/shadow")
    shell(f"echo 'ada:{WORD}' | chpasswd -c YESCRYPT")
    print_head(["Costs", "Clients", "At the socket", "By PAM", "pam_unix, yescrypt"])
    settings = {f"{it} MiB": f"$argon2id$v=19$m={it * 1024},t=1,p=1" for it in (64, 4)}
    for costs, setting in ({"none": "$fast$c=1"} if given.fast else settings).items():
        server = begun("--setting", setting)
        server.enrol(ada=WORD)
        for clients in given.clients:
            rates = [asyncio.run(at_socket(clients, given.seconds))]
            rates += [by_pam(it, clients, given.seconds) for it in ("book", "unix")]
            print_row([costs, clients, *(f"{it:.1f}" for it in rates)])
        server.talk("admin delete ada -> deleted")
        server.stop()


def main() -> None:
    words = argparse.ArgumentParser()
    words.add_argument("--seconds", type=float, default=10)
    words.add_argument("--clients", type=int, nargs="+", default=[1, 4, 16])
    words.add_argument("--fast", action="store_true")
    words.add_argument("--inside", metavar="ROOM", help=argparse.SUPPRESS)
    given = words.parse_args()
    if given.inside:
        return inside(pathlib.Path(given.inside), given)
    subprocess.run(["make", "-s", "-C", TOP / "c/pam"], check=True)
    unshare = ["unshare", "--mount", "--pid", "--fork", "--kill-child", "--mount-proc", "--net"]
    with tempfile.TemporaryDirectory(prefix="rigzumal-bench-") as room:
        pathlib.Path(room).chmod(0o755)
        words = ["env", f"BOOK={'fast' if given.fast else 'real'}", PYTHON, __file__]
        subprocess.run([*unshare, *words, "--inside", room, *sys.argv[1:]], check=True)


if __name__ == "__main__":
    main()
