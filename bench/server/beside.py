#!/usr/bin/python3
"""Times this tree's credkeep-server beside another tree's, such as that of an earlier version.

    /usr/bin/python3 bench/server/beside.py OTHER [--seconds S] [--turns N] [--clients N [N ..]]
                                            [--accounts N] [--setting COSTS]

OTHER is the top of a checkout with its built credkeep. Both servers run, and take turns. The script
prints verifies and changes a second for each number of clients. Each client has its own account,
and sends a line after each answer. Then the script prints the seconds of a start over this many
accounts, from the server's process to its first answer. A figure is the best turn's. Two ratios
compare this tree with the other one: that of their best turns, and the median of all turns' ratios.
The files are in TMPDIR: changes include the syncs of that disk. Run this script on a machine
without other work.
"""

import argparse
import base64
import contextlib
import functools
import os
import pathlib
import selectors
import socket
import subprocess
import sys
import tempfile
import time
from collections.abc import Iterator

TOP = pathlib.Path(__file__).resolve().parent.parent.parent
sys.path.insert(0, str(TOP / "bench"))
from turns import best, median_ratio, print_head, print_load, print_row, ratio  # noqa: E402
from turns import take_turns  # noqa: E402

PYTHON = "/usr/bin/python3"
WORD = base64.b64encode(b"secret").decode().rstrip("=")
LINES = {"verify": ("verify c{0} {1}", "yes"), "change": ("change c{0} {1} {1}", "replaced")}
LONGEST = 60  # seconds until an answer


def connected(path: pathlib.Path) -> socket.socket:
    """Connects a client to a socket."""
    client = socket.socket(socket.AF_UNIX)
    client.settimeout(LONGEST)
    client.connect(str(path))
    return client


def ask(path: pathlib.Path, line: str) -> str:
    """Returns the answer of a server to a line."""
    with connected(path) as client:
        client.sendall(f"1 {line}\n".encode())
        return client.makefile().readline().strip().removeprefix("1 ")


class Tree:
    """A checkout, and servers of it over books in a folder."""

    def __init__(self, top: pathlib.Path, folder: pathlib.Path, setting: str) -> None:
        self.top, self.folder, self.setting = top, folder, setting
        self.program = top / "out/credkeep"
        if not self.program.is_file():
            sys.exit(
                f"{self.program} is not there: `make programs` builds it, by the toolchain's rt"
            )
        folder.mkdir()

    @contextlib.contextmanager
    def served(self, name: str) -> Iterator[pathlib.Path]:
        """Yields the admin socket of a server over a book of this name, once it answers."""
        path = self.folder / f"{name}.sock"
        words = [PYTHON, self.top / "bin/credkeep-server", "--credkeep", self.program]
        words += ["--socket", "admin", path, "0600", "-", "all", "--setting", self.setting]
        log = self.folder / f"{name}.log"
        with open(log, "w") as file:
            server = subprocess.Popen([*words, self.folder / f"{name}.db"], stderr=file)
        try:
            while not is_answered(path):
                if server.poll() is not None:
                    sys.exit(f"{self.top}: the server ended: {log.read_text()}")
                time.sleep(0.005)
            yield path
        finally:
            server.terminate()
            server.wait()

    def begin(self, name: str, accounts: int) -> None:
        """Creates a book with this many accounts, all of which have one record."""
        file = self.folder / f"{name}.db"
        subprocess.run([self.program, file, "init"], check=True)
        with self.served(name) as path:
            ask(path, "account c0")
            ask(path, f"enrol c0 {WORD}")
            record = ask(path, "show c0")
        lines = "".join(f"c{number}:{record}\n" for number in range(1, accounts))
        words = [self.program, file, "import", "--quiet"]
        subprocess.run(words, input=lines.encode(), check=True, stdout=subprocess.DEVNULL)

    def start(self, name: str) -> tuple[tuple[float], None]:
        """Measures the seconds of a start."""
        began = time.perf_counter()
        with self.served(name):
            return (time.perf_counter() - began,), None


def is_answered(path: pathlib.Path) -> bool:
    """Whether a server answers at a socket, which may not exist yet."""
    with contextlib.suppress(OSError):
        return ask(path, "known nobody") == "noaccount"
    return False


def answered(
    path: pathlib.Path, word: str, clients: int, seconds: float
) -> tuple[tuple[float], None]:
    """Measures the seconds of an answer, with this many clients at once."""
    form, answer = LINES[word]
    ought = f"1 {answer}\n".encode()
    count, open_lines = 0, clients
    with contextlib.ExitStack() as stack, selectors.DefaultSelector() as selector:
        start = time.perf_counter()
        end = start + seconds
        for number in range(clients):
            client, line = stack.enter_context(connected(path)), form.format(number, WORD)
            selector.register(client, selectors.EVENT_READ, f"1 {line}\n".encode())
            client.sendall(f"1 {line}\n".encode())
        while open_lines:
            for key, _ in selector.select(LONGEST):
                found = key.fileobj.recv(100)
                assert found == ought, f"{found!r} instead of {ought!r}"
                count += 1
                if time.perf_counter() < end:
                    key.fileobj.sendall(key.data)
                else:
                    open_lines -= 1
        return ((time.perf_counter() - start) / count,), None


def printed(found: dict, given: argparse.Namespace) -> None:
    """Prints the rows."""
    print_head(["What", "Clients", "This tree", "Other", "This over other, best", "median"])
    for (word, clients), turns in found.items():
        this, other = turns["this"], turns["other"]
        ours, theirs = best(this), best(other)
        if word == "start":
            what, over = f"s of a start, {given.accounts} accounts", (this, other)
            shown = [f"{ours:.2f}", f"{theirs:.2f}"]
        else:
            what, over = f"{word}, a second", (other, this)  # a ratio of rates, not of times
            shown = [f"{1 / ours:.0f}", f"{1 / theirs:.0f}"]
        ratios = [f"{it(*over):.2f}" for it in (ratio, median_ratio)]
        print_row([what, clients, *shown, *ratios])


def main() -> None:
    words = argparse.ArgumentParser(description="Times the server beside another tree's.")
    words.add_argument("other", type=pathlib.Path, metavar="OTHER")
    words.add_argument("--seconds", type=float, default=2)
    words.add_argument("--turns", type=int, default=10)
    words.add_argument("--clients", type=int, nargs="+", default=[1, 16, 64, 500])
    words.add_argument("--accounts", type=int, default=10**6)
    words.add_argument("--setting", default="$argon2id$v=19$m=64,t=1,p=1")
    given = words.parse_args()
    load = os.getloadavg()[0]
    with tempfile.TemporaryDirectory(
        prefix="rigzumal-bench-"
    ) as room, contextlib.ExitStack() as all_:
        trees = {"this": TOP, "other": given.other.resolve()}
        trees = {it: Tree(top, pathlib.Path(room) / it, given.setting) for it, top in trees.items()}
        paths, rows = {}, {}
        for name, tree in trees.items():
            tree.begin("few", max(given.clients))
            tree.begin("many", given.accounts)
            paths[name] = all_.enter_context(tree.served("few"))
        for word in LINES:
            for clients in given.clients:
                rows[word, clients] = {
                    name: functools.partial(answered, path, word, clients, given.seconds)
                    for name, path in paths.items()
                }
        rows["start", ""] = {
            name: functools.partial(tree.start, "many") for name, tree in trees.items()
        }
        printed(take_turns(rows, given.turns), given)
    print_load(load)


if __name__ == "__main__":
    main()
