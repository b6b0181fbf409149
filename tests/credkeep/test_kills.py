"""Kills of services at random moments: the book keeps answered changes. test_refused_calls.py kills
commands, and test_clients.py has many clients."""

import signal
import time

from tests.credkeep.books import SERVE, BookTest, killed, lined
from tests.helpers import TIMES


class ServicesTest(BookTest):
    def test_kills(self) -> None:
        """After a kill the book has every answered change, and at most one more."""
        kills = [signal.SIGKILL] * 60 + [signal.SIGTERM] * 10
        start = time.monotonic()
        standing, count = self.book.accounts(), 0
        within = 0.05 + 2 * (time.monotonic() - start)
        for turn, how in enumerate(kills * TIMES):
            names = [f"t{at}" for at in range(count + 100)]
            given = lined(f"t account {it}" for it in names[count:])
            done = killed(self.book, *SERVE, given=given, within=within, how=how)
            answers = done.written.split("\n")[:-1]
            self.assertLessEqual({*answers}, {"t ok"})
            found = self.book.accounts()
            self.assertTrue(found.items() >= standing.items(), "another book")
            self.assertKept(count + len(answers), names, found.keys() - standing.keys())
            count = len(found) - len(standing)
            if turn % 20 == 0:
                self.assertSound(self.book)
