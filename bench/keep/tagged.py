#!/usr/bin/python3
"""Times changes at `credkeep serve --tagged`, which commits waiting changes together.

    bench/keep/tagged.py [--seconds S] [--sync MS] [PROGRAM]

The script measures the changes a second of 1, 4, 16 and 64 clients, who wait for each answer, with
the cheapest costs. strace makes each sync of the disk MS milliseconds longer (by default 4). Run
this script on a machine without other work. bench/server times verifies.
"""

import argparse
import base64
import pathlib
import subprocess
import sys
import tempfile

TOP = pathlib.Path(__file__).resolve().parent.parent.parent
sys.path.insert(1, str(TOP / "bench"))

from service import Service

WORD = base64.b64encode(b"secret").decode()
CHEAPEST = "$argon2id$v=19$m=8,t=1,p=1"
CLIENTS = (1, 4, 16, 64)


class Book:
    """A new book, and the measurements on it."""

    def __init__(self, program: pathlib.Path, path: pathlib.Path, seconds: float) -> None:
        self.words, self.seconds = (program, path), seconds
        subprocess.run([*self.words, "init"], check=True)

    def changes_a_second(self, clients: int, pause: float) -> float:
        """Measures changes a second of this many clients, each with its own account, who send a
        line after each answer."""

        def after(tag: str, answer: str) -> str:
            assert answer in ("enrolled", "removed")
            word = "remove" if answer == "enrolled" else "enrol"
            return f"{tag} {word} c{clients}x{tag} {WORD}"

        slow = (
            "-e",
            "trace=fsync,fdatasync",
            "-e",
            f"inject=fsync,fdatasync:delay_enter={pause * 1000:.0f}",
        )
        strace = ("strace", "-f", "--seccomp-bpf", "-o", "/dev/null", *slow)
        with Service(*strace, *self.words, "serve", "--tagged", "--setting", CHEAPEST) as run:
            for at in range(clients):
                run.ask(f"a account c{clients}x{at}")
            return run.rate(
                [after(str(at), "removed") for at in range(clients)], after, self.seconds
            )


def changes_together(program: pathlib.Path, seconds: float, pause: float) -> None:
    """Prints the changes a second of each number of clients."""
    with tempfile.TemporaryDirectory() as folder:
        book = Book(program, pathlib.Path(folder) / "users.db", seconds)
        print(f"changes a second, {CHEAPEST}, a sync takes {pause:g} ms more:")
        alone = 0.0
        for clients in CLIENTS:
            made = book.changes_a_second(clients, pause)
            alone = alone or made
            print(
                f"  {clients} clients: {made:.0f}, {made / alone:.1f} times those of one",
                flush=True,
            )


def main() -> None:
    parser = argparse.ArgumentParser(description="Times changes at credkeep serve --tagged.")
    parser.add_argument("--seconds", type=float, default=10)
    parser.add_argument("--sync", type=float, default=4, metavar="MS")
    credkeep = TOP / "out/credkeep"
    parser.add_argument("program", nargs="?", type=pathlib.Path, default=credkeep)
    words = parser.parse_args()
    changes_together(words.program, words.seconds, words.sync)


if __name__ == "__main__":
    main()
