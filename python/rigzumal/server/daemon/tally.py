"""The counts of answers since the start."""

import math
import re
import socket
import time
from collections import Counter, OrderedDict
from collections.abc import Callable, Iterator
from dataclasses import dataclass
from typing import TypeVar

from .book import LATER
from .journal import Problem, forget_message, log, log_seldom, utc
from .options import Options, folder_of
from .protocol import ANSWERS, NO_ANSWER, RIGHT, Operation

Note = TypeVar("Note")
EXPIRED = "expired"  # the answer to `expire`, and to a right password that the user must change
# The answers by which an administrator ends a wait.
ENDS_WAIT = {
    "forgiven": "an administrator forgave it",
    "unlocked": "an administrator unlocked it",
}
REMEMBERED = 65536  # names
MOST_SHOWN, LONGEST_STATS = 1000, 4096  # names in an answer, letters of one


@dataclass(frozen=True)
class Metric:
    """A metric for Prometheus: its name and text, and the counts of `stats` that are its
    samples."""

    name: str
    text: str
    counts: tuple[str, ...]

    def lines(self, counted: dict[str, str]) -> Iterator[str]:
        """Yields the metric in Prometheus' text format. If the metric has several samples, each has
        its answer as a label."""
        kind = "counter" if self.name.endswith("_total") else "gauge"
        yield f"# HELP credkeep_{self.name} {self.text}"
        yield f"# TYPE credkeep_{self.name} {kind}"
        for count in self.counts:
            answer = f',answer="{count}"' if len(self.counts) > 1 else ""
            book = counted["book"]
            yield f'credkeep_{self.name}{{book="{book}"{answer}}} {counted[count]}'


TRIES = ("yes", "no", "absent", "noaccount", "later")
METRICS = (
    Metric("tries_total", "Tries by their answer.", TRIES),
    Metric("changes_total", "Changes that the book stored.", ("changes",)),
    Metric("upgraded_total", "Records that --upgrade upgraded.", ("upgraded",)),
    Metric("memory_total", "Lines that got no memory for a hash.", ("memory",)),
    Metric("disk_total", "Changes that the server refused because a disk was full.", ("disk",)),
    Metric("denied_total", "Lines that their socket doesn't allow.", ("denied",)),
    Metric("refused_total", "Connections that the server refused for lack of room.", ("refused",)),
    Metric("clients", "Connections.", ("clients",)),
    Metric("waits", "Names that must wait after failed tries.", ("waits",)),
    Metric("waited_seconds_total", "Seconds that lines waited for their turn.", ("waited",)),
)
COUNTED = [*(count for metric in METRICS for count in metric.counts), "book"]  # by `stats`


@dataclass(frozen=True)
class Wait:
    """The wait in the answer to a try: its seconds, and the time of the answer."""

    seconds: int
    told: float

    def rest(self) -> int:
        """Returns the remaining seconds."""
        return max(0, math.ceil(self.seconds - (time.monotonic() - self.told)))


def remember(notes: "OrderedDict[str, Note]", name: str, note: Note) -> None:
    """Stores the latest note about a name, and forgets the oldest names if there are too many."""
    notes[name] = note
    notes.move_to_end(name)
    if len(notes) > REMEMBERED:
        notes.popitem(last=False)


class Tally:
    """Counts the answers of a server since its start."""

    def __init__(self, options: Options) -> None:
        self.tries = options.tries  # tries that may fail before the next one must wait
        self.book, self.doors = folder_of(options.file).name, options.doors
        self.counts, self.waited = Counter[str](), 0.0
        self.logins = OrderedDict[str, float]()
        self.early = OrderedDict[str, Wait]()  # the wait in the last answer to each name

    def count(self, kind: Operation, name: str, answer: str, seconds: int = 0) -> None:
        """Counts an answer to a request for a name, with the seconds of its wait, and logs the
        wait."""
        if answer == LATER.decode():
            self.counts["later"] += 1
            remember(self.early, name, Wait(seconds, time.monotonic()))
            log_seldom((LATER, name), "%s must wait after %d failed tries", name, self.tries)
        if answer in ENDS_WAIT:
            self.end_wait(name, ENDS_WAIT[answer])
        meaning = ANSWERS.get(answer, NO_ANSWER)
        is_refused = kind.tries and answer == EXPIRED
        has_changed = kind.changes and meaning.changed and not is_refused
        self.counts["changes"] += has_changed
        self.counts["disk"] += answer == "bad 19 disk"
        if answer == "bad 4 memory":
            self.counts["memory"] += 1
            log_seldom(answer, "no memory for a hash: check --memory and the machine's memory")
        if not kind.tries:
            if kind.hashes and has_changed:
                self.end_wait(name, "a new password")
        elif tried := meaning.tried:
            self.counts[tried] += 1
            self.early.pop(name, None)  # the book checks a password only if no wait is left
            if tried == RIGHT:
                self.end_wait(name, "a right password")
                remember(self.logins, name, time.time())

    def end_wait(self, name: str, why: str) -> None:
        """Notes that the wait of a name has ended, and logs this if the wait was logged."""
        self.early.pop(name, None)
        if forget_message((LATER, name)):
            log.info("%s no longer has to wait: %s", name, why)

    def end_waits(self, staying: Callable[[str], int]) -> None:
        """Ends all waits, since a new process of the book knows no failed tries. Only waits of
        names for which `staying` returns seconds remain."""
        ended = [name for name in self.early if not staying(name)]
        for name in ended:
            del self.early[name]
            forget_message((LATER, name))
        if ended:
            log.info("%d names no longer have to wait: the book's process is new", len(ended))

    def waits(self, only: str = "") -> list[str]:
        """Returns the names whose wait isn't over, or only this one of them, each as NAME:SECONDS
        with the remaining seconds. A try at that name was too early, and no login, `forgive` or
        `unlock` has ended its wait."""
        names = [only] if only else list(self.early)
        rests = {name: self.early[name].rest() for name in names if name in self.early}
        return [f"{name}:{rest}" for name, rest in rests.items() if rest > 0]

    def stats(self) -> str:
        now: dict[str, object] = {**self.counts, "waited": f"{self.waited:.3f}"}
        now["waits"] = len(self.waits())
        now["clients"] = sum(sum(door.counts.values()) for door in self.doors)
        now["book"] = re.sub("[^A-Za-z0-9_.-]", "_", self.book)
        return " ".join(["stats", *(f"{name}={now.get(name, 0)}" for name in COUNTED)])

    def answer(self, operation: bytes, name: str) -> str:
        """Returns the server's own answers; `last` is the time of a right password."""
        if operation == b"waits":
            waits = self.waits(name)
            more = [f"more={len(waits) - MOST_SHOWN}"] if len(waits) > MOST_SHOWN else []
            return " ".join(["waits", *waits[:MOST_SHOWN], *more])
        if operation == b"last":
            return f"last {utc(self.logins[name])}" if name in self.logins else "none"
        return self.stats()


def metrics(path: str) -> str:
    """Returns the counts of the server at an admin socket, in Prometheus' text format."""
    try:
        with socket.socket(socket.AF_UNIX) as admin:
            admin.settimeout(10)
            admin.connect(path)
            admin.sendall(b"1 stats\n")
            answer = admin.makefile(errors="replace").readline(LONGEST_STATS)
    except OSError as fault:
        raise Problem(f"{path}: {fault.strerror or fault}") from None
    found = dict(re.findall(r" (\w+)=([\w.-]+)", answer))
    if found.keys() != set(COUNTED):
        raise Problem(f"{path}: its clients may not ask for stats")
    return "".join(f"{line}\n" for metric in METRICS for line in metric.lines(found))
