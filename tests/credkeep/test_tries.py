"""A service that limits failed tries, from the line to its answer, which no clause covers."""

import contextlib
import itertools
import os
import pathlib
import select
import time
from collections import Counter
from collections.abc import Iterator, Sequence
from typing import NamedTuple

from tests.credkeep.books import CHEAP, DONE, RECORD, SALT, TAG, BookTest, Service, lined
from tests.credkeep.doors import in_base64
from tests.helpers import before_libc, shim, until

RIGHT, WRONG, NEW = map(in_base64, ("one", "two", "three"))
LIMIT = 3
FAIL = [f"verify ann {WRONG}"] * LIMIT


class TriesTest(BookTest):
    def setUp(self) -> None:
        super().setUp()
        self.begun({"bob": "", "cat": ""}).add("ann", "one")
        self.clock = self.room / "clock"
        self.show(5000)

    def show(self, seconds: int) -> None:
        """Sets the clock of a service."""
        new = self.room / "clock.new"
        new.write_text(str(seconds))
        new.rename(self.clock)

    def limited(self) -> Service:
        """A service with a limit and a clock that is set."""
        env = {**before_libc(shim("clock")), "CLOCK": str(self.clock)}
        return self.book.tagged("--tries", str(LIMIT), env=env)

    def answers_in_turn(self, *lines: str) -> list[str]:
        """The answers to lines, each of which is sent when the one before is answered."""
        with self.limited() as service:
            found = [service.ask(f"t {line}").removeprefix("t ") for line in lines]
            self.assertEqual(service.end(), DONE)
        return found

    def test_later(self) -> None:
        """After this many failures a right password gets `later`, and has no effect."""
        for line in (f"verify ann {RIGHT}", f"change ann {RIGHT} {NEW}", f"remove ann {RIGHT}"):
            with self.subTest(line):
                found = self.answers_in_turn(*FAIL, line, "show ann")
                self.assertEqual(found[:-1], ["no"] * LIMIT + ["later 1"])
                self.assertTrue(found[-1].startswith(CHEAP))

    def test_waits(self) -> None:
        """The wait doubles with each failure, up to a quarter of an hour, also if the clock is set
        back meanwhile. Each early try gets the seconds that are left. A right password ends the
        wait."""
        waits = [1, 2, 4, 8, 16, 32, 64, 128, 256, 512, 900, 900]
        with self.limited() as service:

            def ask(password: str) -> str:
                return service.ask(f"t verify ann {password}")

            self.assertEqual(ask(RIGHT), "t yes")  # the service has begun, long before
            self.show(now := 50000)
            self.assertEqual([ask(WRONG) for _ in FAIL], ["t no"] * LIMIT)
            for wait in waits:
                self.show(now := now - 1000)
                self.assertEqual(ask(RIGHT), f"t later {wait}")
                self.show(now := now + wait - 1)
                self.assertEqual(ask(RIGHT), "t later 1")
                self.show(now := now + 1)
                self.assertEqual(ask(WRONG), "t no")
            self.show(now + 900)
            found = [ask(RIGHT), *(ask(WRONG) for _ in range(LIMIT + 1))]
            self.assertEqual(found, ["t yes"] + ["t no"] * LIMIT + ["t later 1"])

    def test_forgotten(self) -> None:
        """A day after the last failure none counts."""
        with self.limited() as service:
            for at in (5000, 5000 + 86400, 5000 + 2 * 86400):
                self.show(at)
                found = [service.ask(f"t {line}") for line in [*FAIL, FAIL[0]]]
                self.assertEqual(found, ["t no"] * LIMIT + ["t later 1"])

    def test_many_at_once(self) -> None:
        """If many wrong tries come at once, as many fail as the limit allows, and the others get
        `later`. Right ones at once all get yes."""
        few = {"no": LIMIT, "later 1": 40 - LIMIT}
        for password, wanted in ((WRONG, few), (RIGHT, {"yes": 40})):
            with self.subTest(wanted), self.limited() as service:
                done = service.end(lined(f"t{at} verify ann {password}" for at in range(40)))
                found = Counter(line.split(" ", 1)[1] for line in done.written.splitlines())
                self.assertEqual((done.status, dict(found)), (0, wanted))

    def test_nothing_to_guess(self) -> None:
        """An account without a record never waits, nor does an unknown name."""
        for name, answer in (("bob", "absent"), ("dan", "noaccount")):
            with self.subTest(name):
                found = self.answers_in_turn(*[f"verify {name} {WRONG}"] * (LIMIT + 2))
                self.assertEqual(found, [answer] * (LIMIT + 2))

    def test_forgive(self) -> None:
        """`forgive` answers for each account, also for one without failures, and for no other
        name."""
        found = self.answers_in_turn("forgive ann", *FAIL, "forgive ann", "forgive dan")
        self.assertEqual(found, ["forgiven", *["no"] * LIMIT, "forgiven", "noaccount"])
        self.assertEqual(self.book.answers("t forgive ann"), ["t forgiven"])

    def test_what_forgives(self) -> None:
        """A reset and `forgive` end a wait. A deletion, a lock or a load doesn't, nor does a change
        of another account."""
        rows = [
            ([f"reset ann {NEW}"], "no"),
            (["forgive ann"], "no"),
            (["forgive cat", "forgive dan"], "later 1"),
            (["lock ann", "unlock ann"], "later 1"),
            (["delete ann", "account ann", f"load ann {CHEAP}$c29tZXNhbHQ${TAG}"], "later 1"),
            (["rename ann dan", "rename dan ann"], "later 1"),
            ([f"enrol cat {NEW}", f"verify cat {NEW}"], "later 1"),
        ]
        for between, answer in rows:
            with self.subTest(between):
                self.begun({"cat": ""}).add("ann", "one")
                found = self.answers_in_turn(*FAIL, *between, FAIL[0])
                self.assertEqual((found[:LIMIT], found[-1]), (["no"] * LIMIT, answer))


class State(NamedTuple):
    """What stands at ann when a try comes: the service's options, the lines that were answered
    before, and a line that comes with the try, if any. If every password gets the same answer, it
    is `later` or that of a wrong one."""

    options: list[str]
    lines: list[str]
    beside: list[str]
    answer: str


# The password of RECORD, another one, and one that is new.
OLD, OTHER, FRESH = map(in_base64, ("password", "two", "three"))
MISS = f"verify ann {OTHER}"
LIMITED = ["--tries", str(LIMIT)]
STATES = {
    "failed once": State(LIMITED, [MISS], [], ""),
    "must wait": State(LIMITED, [MISS] * (LIMIT - 1), [MISS], "later 1"),
    "locked": State([], ["lock ann"], [], "wrong"),
}
# Operations that change the record, since it has other costs than the service, and their answers.
CHANGING = {
    f"change ann {{}} {FRESH}": ("replaced", "wrong"),
    "upgrade ann {}": ("upgraded", "wrong"),
    "remove ann {}": ("removed", "wrong"),
    "login ann {}": ("yes", "no"),
}
# Accounts whose changes are sent before a try. One commit makes the first change, since the line
# behind it takes long to hash; the next one as many as there may be, so the last ones wait.
BEFORE = [f"before{at}" for at in range(70)]
SLOW = f"$argon2id$v=19$m=65536,t=4,p=1${SALT}${TAG}"
# Accounts for lines behind the try, and for lines that come once these are hashed.
BEHIND = [f"behind{at}" for at in range(8)]
LATE = [f"late{at}" for at in range(8)]
# Lines of an administrator, each of which needs no hash.
WITHOUT_HASH = [
    "lock ann",
    "expire ann",
    "disable ann",
    "delete ann",
    "rename ann eve",
    f"load ann {RECORD}",
    "forgive ann",
]


class PlacesTest(BookTest):
    """The place of an answer among those to changes of other accounts, which wait together for the
    disk."""

    def setUp(self) -> None:
        super().setUp()
        clock, self.hold = self.room / "clock", self.room / "hold"
        clock.write_text("5000")
        shims = before_libc(f"{shim('clock')}:{shim('holds')}")
        self.environment = {**shims, "CLOCK": str(clock), "HOLD": str(self.hold)}

    @contextlib.contextmanager
    def held(self) -> Iterator[int]:
        """A pipe, a byte of which lets one sync go on. At the end all go on."""
        os.mkfifo(self.hold)
        pipe = os.open(self.hold, os.O_RDWR)
        try:
            yield pipe
        finally:
            self.hold.unlink()
            os.close(pipe)

    def answers(self, state: State, lines: list[str], behind: Sequence[str] = ()) -> list[str]:
        """The answers to tagged lines of many accounts, in their order. All come while a change of
        another account is synced, and those that are hashed behind the first change wait for its
        sync. The lines `behind` come once the others are hashed."""
        names = ("ann", "bob", *BEFORE, *BEHIND, *LATE)
        self.begun({**dict.fromkeys(names, RECORD), "slow": SLOW})
        words = ["--at-once", "1", *state.options]
        with self.book.tagged(*words, env=self.environment) as service:
            for line in state.lines:
                service.ask(f"t {line}")
            with self.held() as pipe:
                service.send(lined([change_of("bob")]))
                until(lambda: is_asleep(service), "a sync waits")
                service.send(lined(lines))
                until(lambda: is_asleep(service), "the lines have come")
                while not select.select([service.stdout], [], [], 0)[0]:
                    os.write(pipe, b".")
                    until(lambda: is_asleep(service), "the next sync waits")
                service.send(lined(behind))
                until(lambda: is_asleep(service), "the lines behind have come")
            done = service.end()
        self.assertEqual((done.status, done.faults), (0, ""))
        first, *answers = done.written.splitlines()
        self.assertEqual((first, len(answers)), ("bob replaced", len(lines) + len(behind)))
        return answers

    def test_places(self) -> None:
        """At an account with failed tries or a lock no answer waits for changes of others. So the
        place of `later` or `wrong` doesn't tell whether the password is right."""
        rows = itertools.product(STATES.items(), CHANGING.items(), (OLD, OTHER))
        for (name, state), (line, (right, wrong)), password in rows:
            told = {"": right if password == OLD else wrong, "wrong": wrong}
            answer = f"try {told.get(state.answer, state.answer)}"
            lines = [f"beside {it}" for it in state.beside] + [*BEFORE_A_TRY]
            lines += [f"try {line.format(password)}", *map(change_of, BEHIND)]
            with self.subTest(name, line=line.format(password)):
                answers = self.answers(state, lines)
                self.assertIn(answer, answers)
                waiting = [f"{name} replaced" for name in (BEFORE[-1], *BEHIND)]
                after = answers[answers.index(answer) :]
                self.assertEqual([it for it in after if it in waiting], waiting)

    def test_turns_at_one_account(self) -> None:
        """A right password that came before wrong ones is answered before them, and never by
        `later`: its change waits for others, and they don't overtake it."""
        for line, (right, _) in CHANGING.items():
            lines = [*BEFORE_A_TRY, f"try {line.format(OLD)}", *map(change_of, BEHIND)]
            lines += [f"miss {MISS}"] * LIMIT
            with self.subTest(line):
                answers = self.answers(State(LIMITED, [], [], ""), lines)
                found = [it for it in answers if it.startswith(("try", "miss"))]
                miss = "miss absent" if right == "removed" else "miss no"
                self.assertEqual(found, [f"try {right}", *[miss] * LIMIT])

    def test_record_that_changed_meanwhile(self) -> None:
        """A try that was hashed before another line changed the record is answered before lines
        that came later, whether its password is that of the older record or not."""
        late = [f"{name} verify {name} {OTHER}" for name in LATE]
        for (line, (_, wrong)), password in itertools.product(CHANGING.items(), (OLD, OTHER)):
            with self.subTest(line.format(password)):
                tries = [f"first change ann {OLD} {FRESH}", f"try {line.format(password)}"]
                lines = [*BEFORE_A_TRY, *tries, *map(change_of, BEHIND)]
                answers = self.answers(State([], [], [], ""), lines, late)
                after = answers[answers.index(f"try {wrong}") :]
                no = [f"{name} no" for name in LATE]
                self.assertEqual([it for it in after if it in no], no)

    def test_operations_behind_a_change(self) -> None:
        """A line without a hash that comes after a right password's hash waits for its change."""
        for (line, (right, _)), operation in itertools.product(CHANGING.items(), WITHOUT_HASH):
            lines = [*BEFORE_A_TRY, f"try {line.format(OLD)}", *map(change_of, BEHIND)]
            with self.subTest(operation, line=line):
                answers = self.answers(State([], [], [], ""), lines, [f"next {operation}"])
                found = [it.split()[0] for it in answers if it.startswith(("try", "next"))]
                self.assertEqual(found, ["try", "next"])
                self.assertIn(f"try {right}", answers)


def change_of(name: str) -> str:
    """A change of an account, with the account's name as its tag."""
    return f"{name} change {name} {OLD} {FRESH}"


BEFORE_A_TRY = [*map(change_of, BEFORE)]
BEFORE_A_TRY.insert(1, f"slow verify slow {OTHER}")


def is_asleep(service: Service) -> bool:
    """Whether each thread of a service waits, at some looks one after another."""
    for _ in range(4):
        time.sleep(0.01)
        stats = pathlib.Path(f"/proc/{service.process.pid}/task").glob("*/stat")
        if any(it.read_text().rpartition(")")[2].split()[0] != "S" for it in stats):
            return False
    return True
