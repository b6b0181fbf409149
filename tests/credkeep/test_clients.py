"""64 clients at once: the answers of a service of tagged lines are those of one history, and the
book keeps each change that the service answered before a kill."""

import random
import signal
import threading
from typing import NamedTuple

from tests.credkeep.books import CHEAP, DONE, BookTest, Service, lined
from tests.credkeep.doors import Operation
from tests.helpers import TIMES

CLIENTS = 64
OPERATIONS = 4000 * TIMES
NAMES = ["ann", "bob", "cat", "dan", "eve", "fay", "gus", "hal"]
PASSWORDS = ["-", "one", "two"]
WIDER = "$argon2id$v=19$m=16,t=1,p=1"
VERBS = ["verify"] * 6 + ["login"] * 4 + ["change"] * 2
VERBS += ["enrol", "upgrade", "remove", "reset", "disable"]
CHANGED = {"enrolled", "replaced", "upgraded", "removed", "disabled"}


class Stored(NamedTuple):
    """A record: its password, its costs, and the salt that it alone has."""

    password: str
    costs: str
    salt: str | None


class Line:
    """A line of a client, and its answer."""

    def __init__(self, tag: str, chance: random.Random, number: int) -> None:
        self.tag, self.number, self.reply = tag, number, ""
        self.verb, self.name = chance.choice(VERBS), chance.choice(NAMES)
        self.password, new = (chance.choice(PASSWORDS) for _ in range(2))
        costs = CHEAP if self.verb == "login" else chance.choice([CHEAP, WIDER])
        # What it makes; the salt of a login is drawn.
        made_of = new if self.verb == "change" else self.password
        self.made = Stored(made_of, costs, None if self.verb == "login" else f"{number:012}")
        words = [self.verb, self.name]
        if self.verb != "disable":
            words.append(self.password)
        if self.verb == "change":
            words.append(new)
        if self.verb in ("enrol", "change", "upgrade", "reset"):
            words.append(f"{costs}${number:012}")
        self.text = f"{tag} {Operation.of(' '.join(words)).line()}"

    def done(self, stored: Stored | None) -> tuple[str, Stored | None]:
        """The reply of one thread to the line, and the record afterwards."""
        if self.verb == "enrol":
            return ("exists", stored) if stored else ("enrolled", self.made)
        if self.verb == "reset":
            return "replaced" if stored else "enrolled", self.made
        if not stored:
            return "absent", None
        if self.verb == "disable":
            return "disabled", None
        is_right, is_new = stored.password == self.password, stored.costs != self.made.costs
        if self.verb == "verify":
            return "yes" if is_right else "no", stored
        if self.verb == "login" and not is_right:
            return "no", stored
        if self.verb == "login":
            return "yes", self.made if is_new else stored
        if not is_right:
            return "wrong", stored
        if self.verb == "upgrade":
            return ("upgraded", self.made) if is_new else ("kept", stored)
        return ("removed", None) if self.verb == "remove" else ("replaced", self.made)

    def salts(self) -> set[str | None]:
        """The salts that an account may have once the line has changed it: None is no record."""
        return {None} if self.verb in ("remove", "disable") else {self.made.salt or "drawn"}


class Clients:
    """Clients that each send a line once their last one is answered."""

    def __init__(self, service: Service, chance: random.Random, first: int = 0) -> None:
        self.service, self.chance, self.number = service, chance, first
        self.open: dict[str, Line] = {}
        self.history: list[Line] = []

    def send(self, *tags: str) -> None:
        lines = [Line(tag, self.chance, self.number + at) for at, tag in enumerate(tags)]
        self.number += len(tags)
        self.open |= {line.tag: line for line in lines}
        self.service.send(lined(line.text for line in lines))

    def take(self) -> bool:
        """Reads the next answer, and returns whether one came."""
        text = self.service.stdout.readline().decode()
        if not text.endswith("\n"):
            return False
        tag, reply = text.removesuffix("\n").split(" ", 1)
        assert tag in self.open, f"an answer to no open line: {text!r}"
        self.history.append(self.open.pop(tag))
        self.history[-1].reply = reply
        return True

    def go(self, most: int | None = None) -> None:
        """Runs until this many operations are answered, or no answer comes any more."""
        self.send(*(f"c{at}" for at in range(CLIENTS)))
        while (most is None or self.number < most) and self.take():
            self.send(self.history[-1].tag)
        while most is not None and self.open:
            assert self.take(), "it ended early"


class ClientsTest(BookTest):
    def test_history(self) -> None:
        """64 clients on 8 accounts: each answer is what one thread replies, in the order of the
        answers. So each line takes effect between its sending and its answer."""
        for words in [(), ("--at-once", "1"), ("--at-once", "8", "--memory", "24")]:
            with self.subTest(words=words):
                self.begun(dict.fromkeys(NAMES, ""))
                with self.book.tagged(*words) as service:
                    clients = Clients(service, random.Random(len(words)))
                    clients.go(OPERATIONS)
                    self.assertEqual(service.end(), DONE)
                numbers = [line.number for line in clients.history]
                self.assertEqual(sorted(numbers), list(range(max(OPERATIONS, CLIENTS))))
                stored: dict[str, Stored | None] = dict.fromkeys(NAMES)
                served = [line for line in clients.history if line.reply != "bad 14 busy"]
                for line in served:
                    reply, stored[line.name] = line.done(stored[line.name])
                    self.assertEqual((line.text, line.reply), (line.text, reply))
                busy = len(numbers) - len(served)
                self.assertLessEqual(busy * 10, len(numbers) + 10, "too many are busy")
                self.assertTrue(numbers != sorted(numbers) or words == ("--at-once", "1"))
        self.assertSound(self.book)

    def test_kills(self) -> None:
        """A change that was answered before a kill is kept; an account has its record, or that of a
        line that was open."""
        chance, number = random.Random(), 0
        standing: dict[str, str | None] = dict.fromkeys(NAMES)
        self.begun(dict.fromkeys(NAMES, ""))
        for _ in range(10 * TIMES):
            with self.book.tagged() as service:
                clients = Clients(service, chance, number)
                killer = threading.Timer(chance.uniform(0.02, 0.3), service.process.kill)
                killer.start()
                try:
                    clients.go()
                except BrokenPipeError:
                    while clients.take():
                        pass
                killer.join()
                self.assertEqual(service.process.wait(), -signal.SIGKILL)
            number = clients.number
            for name, record in self.book.accounts().items():
                may: set[str | None] = {standing[name]}
                for line in (it for it in clients.history if it.name == name):
                    if line.reply in CHANGED:
                        may = line.salts()
                    elif line.verb == "login" and line.reply == "yes":
                        may |= line.salts()
                for line in (it for it in clients.open.values() if it.name == name):
                    may |= set() if line.verb == "verify" else line.salts()
                found = standing[name] = record.split("$")[4] if record else None
                # A salt of 16 bytes is one that was drawn.
                is_drawn = "drawn" in may and len(found or "") == 22
                self.assertTrue(found in may or is_drawn, f"{name}: {found}, and not of {may}")
