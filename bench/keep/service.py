"""A credkeep that serves lines, and its times and memory."""

import os
import pathlib
import sys
import threading
import time
from collections.abc import Callable

sys.path.insert(1, str(pathlib.Path(__file__).resolve().parents[2]))
from tests.credkeep import books


class Service(books.Service):
    """A service whose process may run for as long as a benchmark does."""

    def __init__(self, *command: str | pathlib.Path) -> None:
        super().__init__([*map(str, command)])
        self.guard.cancel()

    def __exit__(self, *given: object) -> None:
        self.process.communicate()
        super().__exit__(*given)

    def seconds_at_once(self, lines: list[str]) -> float:
        """Measures the seconds of lines that don't wait for answers."""
        writer, left = threading.Thread(target=self.send, args=[books.lined(lines)]), len(lines)
        start = time.perf_counter()
        writer.start()
        while left > 0:
            piece = os.read(self.stdout.fileno(), 1 << 16)
            assert piece, "the service ended"
            left -= piece.count(b"\n")
        seconds = time.perf_counter() - start
        writer.join()
        return seconds

    def rate(self, lines: list[str], after: Callable[[str, str], str], seconds: float) -> float:
        """Measures answers a second: these tagged lines are open, and a new line follows each
        answer."""
        self.send(books.lined(lines))
        start, count = time.perf_counter(), 0
        while time.perf_counter() - start < seconds:
            tag, answer = self.answer().split()
            self.send(after(tag, answer) + "\n")
            count += 1
        return count / (time.perf_counter() - start)

    def peak_mb(self) -> float:
        """Returns the most memory that the service has held so far."""
        status = pathlib.Path(f"/proc/{self.process.pid}/status").read_text()
        return int(status.partition("VmHWM:")[2].split()[0]) / 1024
