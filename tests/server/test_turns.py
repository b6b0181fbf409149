"""Tests of the server's turns and rounds, by themselves."""

import asyncio
import time
from collections import defaultdict, deque
from collections.abc import Callable
from types import SimpleNamespace
from typing import Any
from unittest import IsolatedAsyncioTestCase, mock

from served import Case
from daemon.book import Places, Rounds
from daemon.options import Options
from daemon.protocol import OPERATIONS
from daemon.service import Request, Service


class Waiting(IsolatedAsyncioTestCase):
    """Each place that somebody wants is a letter."""

    def setUp(self) -> None:
        self.users, self.waiting = dict[str, int](), dict[str, asyncio.Future[None]]()

    def take(self, places: Places, user: int, letters: str) -> str:
        """The places that a user gets who wants this many."""
        for letter in letters:
            self.users[letter], self.waiting[letter] = user, places.take(user)
        return self.released(places, "")

    def released(self, places: Places, letters: str) -> str:
        """The places in use once these are free."""
        for letter in letters:
            places.release(self.users[letter])
        taken = [letter for letter, place in self.waiting.items() if place.done()]
        self.waiting = {it: self.waiting[it] for it in self.waiting if it not in taken}
        return "".join(taken)

    async def test_places(self) -> None:
        """A user takes all free places but the last, and then each one that is released."""
        places = Places(3)
        self.assertEqual(self.take(places, 1, "abcd"), "ab")
        self.assertEqual([self.released(places, it) for it in "abcd"], ["c", "d", "", ""])
        self.assertEqual(self.take(places, 1, "efg"), "ef")

    async def test_the_last_place(self) -> None:
        """A user without a place takes the last one at once; the user with the fewest gets the
        next."""
        places = Places(4)
        self.assertEqual(self.take(places, 1, "abcdefg"), "abc")
        self.assertEqual(self.take(places, 2, "xyz"), "x")
        self.assertEqual(self.take(places, 3, "mn"), "")
        self.assertEqual([self.released(places, it) for it in "abcxy"], ["m", "", "d", "y", "z"])

    async def test_turns(self) -> None:
        """Users take turns; each takes its places in their order."""
        places, said = Places(1), "-"
        self.assertEqual(self.take(places, 1, "-"), "-")
        for user, letters in ((2, "ABC"), (3, "xy"), (4, "!")):
            self.take(places, user, letters)
        while more := self.released(places, said[-1]):
            said += more
        self.assertEqual(said, "-Ax!ByC")

    async def test_an_end(self) -> None:
        """A user whose wait is cancelled gets no place."""
        places = Places(3)
        self.take(places, 1, "abcde")
        for letter in "cd":
            self.waiting.pop(letter).cancel()
        self.assertEqual([self.released(places, it) for it in "ab"], ["e", ""])
        self.assertEqual((places.free, places.taken[1]), (2, 1))

    async def judged(self, service: Service, answer: bytes, *asked: tuple[str, int, int]) -> str:
        """Which names are judged, in their order, as each client verifies one so many times."""
        names = list[str]()

        async def judge(request: Request) -> bytes:
            names.append(request.words[1].decode())
            await asyncio.sleep(0)
            return answer

        door, replies = SimpleNamespace(operations=OPERATIONS, name="login"), mock.AsyncMock()
        with mock.patch.object(service, "answer", judge):
            for name, uid, count in asked:
                client: Any = SimpleNamespace(door=door, uid=uid, user=uid)
                client.reply = replies
                client.running, client.answered = 0, asyncio.Event()
                client.has_gone = lambda: False
                client.queues = defaultdict(asyncio.Lock)
                for _ in range(count):
                    service.submit(client, b"a", [b"verify", name.encode(), b"-"])
            await asyncio.gather(*service.tasks)
        self.assertEqual(replies.await_count, sum(count for _, _, count in asked))
        return " ".join(names)

    async def test_clients_of_a_user(self) -> None:
        """A line of each takes its turn, however many others wait before it."""
        service = Service(Options())
        service.hashes = Places(2)
        said = await self.judged(service, b"yes", ("ann", 33, 9), ("bob", 33, 3), ("cat", 33, 1))
        self.assertEqual(said, "ann ann bob cat ann bob ann bob" + " ann" * 5)


class Changes(Case):
    """Each change is a letter, a small one if it is a sync of its own; at "-" nobody logs in any
    more."""

    def setUp(self) -> None:
        super().setUp()
        self.gone, self.clock, self.is_busy = "", 0.0, True
        self.rests: list[tuple[float, Callable[[], None]]] = []
        self.at_book = deque["asyncio.Future[bytes]"]()
        self.enterContext(mock.patch.object(time, "monotonic", lambda: self.clock))

    def ask(self, letter: str) -> "asyncio.Future[bytes]":
        """Stands for the book: answers a change once the test lets it; then the change has
        ended."""
        self.gone += letter
        self.at_book.append(asyncio.get_running_loop().create_future())
        return self.at_book[-1]

    def rounds(self) -> Rounds:
        return Rounds(self, lambda: self.is_busy)  # type: ignore

    def begin(self, rounds: Rounds, letter: str) -> "asyncio.Future[bytes]":
        return asyncio.ensure_future(rounds.ask([letter], letter.islower()))  # type: ignore

    def played(self, *scene: tuple[str, int, int, str]) -> None:
        """Plays the steps: the changes that arrive, the number that end after 20 ms, the rest after
        these, and the changes that ran."""

        async def run() -> None:
            loop, rounds, tasks = asyncio.get_running_loop(), self.rounds(), []
            with mock.patch.object(loop, "call_later", lambda *given: self.rests.append(given)):
                for come, ended, rest, ought in scene:
                    self.is_busy = self.is_busy and "-" not in come
                    letters = come.strip("-")
                    tasks += [self.begin(rounds, it) for it in letters]
                    await asyncio.sleep(0)
                    self.clock += 0.02
                    for _ in range(ended):
                        self.at_book.popleft().set_result(b"")
                    await asyncio.sleep(0)
                    rests = [round(1000 * seconds) for seconds, _ in self.rests]
                    self.assertEqual(rests, [rest] if ended else [])
                    while self.rests:
                        self.rests.pop()[1]()
                    for _ in range(3):
                        await asyncio.sleep(0)
                    self.assertEqual(self.gone, ought, come)
                    self.gone = ""

        asyncio.run(run())

    def test_nobody_logs_in(self) -> None:
        """If nobody logs in, each change starts at once."""
        self.played(("-ABcd", 0, 0, "ABcd"), ("e", 0, 0, "e"))

    def test_rounds(self) -> None:
        """Changes that arrive in a round run together in the next, after a rest longer than the
        round."""
        self.played(("ABCD", 1, 30, "ABCD"), ("E", 0, 0, ""), ("F", 3, 60, "EF"))

    def test_alone(self) -> None:
        """Of changes that need a sync each, one runs in a round."""
        self.played(("abc", 1, 30, "ab"), ("XYdZ", 1, 30, "cXYZ"), ("", 4, 30, "d"))

    def test_a_rest_for_nobody(self) -> None:
        """A rest follows a round also if nothing waits; a long round has a bounded rest."""
        self.played(("A", 1, 30, "A"), ("B", 0, 0, "B"), *[("", 0, 0, "")] * 5, ("", 1, 100, ""))

    def test_the_last_login_ends(self) -> None:
        """A waiting change goes on at once when nobody logs in any more."""
        self.played(("AbcD", 0, 0, "A"), ("-", 1, 0, "bcD"))

    def test_an_older_rest_ends(self) -> None:
        """The end of a rest opens no gate within the round of a change that went meanwhile."""

        async def run() -> None:
            loop, rounds = asyncio.get_running_loop(), self.rounds()

            async def passes() -> None:
                for _ in range(3):
                    await asyncio.sleep(0)

            async def end() -> None:
                self.at_book.popleft().set_result(b"")
                await passes()

            with mock.patch.object(loop, "call_later", lambda *given: self.rests.append(given)):
                first = self.begin(rounds, "a")
                await passes()
                await end()
                self.is_busy = False
                second = self.begin(rounds, "b")
                await passes()
                self.is_busy = True
                third = self.begin(rounds, "c")
                await passes()
                for gone in ("ab", "abc"):
                    self.rests.pop()[1]()
                    await passes()
                    self.assertEqual(self.gone, gone)
                    await end()
                await asyncio.gather(first, second, third)

        asyncio.run(run())
