"""A shim refuses each request for memory of a run in turn, or a sample of them: the run ends with
its own status, and the book keeps answered changes."""

import re
from collections.abc import Callable

from tests.credkeep.books import DONE, RECORD, SERVE, Book, BookTest, Change, lined
from tests.helpers import Ended, requests_of, without_request
from tests.samples import is_whole

NAMES = ["a", "b"]
# A status, and whether all was done.
STATUSES = [(0, True), (3, False), (3, True), (5, False), (5, True)]


class RefusedMemoryTest(BookTest):
    def setUp(self) -> None:
        super().setUp()
        (self.room / "base").mkdir()
        self.book = self.begun(name="base/users.db")

    def refuse_each(
        self, words: list[str], given: str, judge: Callable[[Ended, list[str]], None]
    ) -> list[Ended]:
        """The ends of the command. The judge sees the names that are there afterwards."""
        with self.copied() as book:
            requests = requests_of(book.command(*words), given, cwd=book.path.parent)
        self.assertGreater(len(requests), 20)
        change = Change({}, words, {}, given)
        return self.stopped(without_request, requests, change, Book.names, judge)

    def test_new_accounts(self) -> None:
        """Of the accounts that a service adds to a larger book, the book keeps the answered ones,
        and at most the next. An account that was refused memory isn't in the book."""
        large = [f"n{at}" for at in range(300)]
        given = lined(f"{it}:" for it in large)
        self.assertEqual(self.book("import", "--quiet", given=given), DONE)
        lines = lined(f"t account {it}" for it in NAMES)

        def judge(done: Ended, names: list[str]) -> None:
            answers = done.written.splitlines()
            self.assertLessEqual({*answers}, {"t ok", "t bad 4 memory"})
            self.assertIn((done.status, len(answers) == len(NAMES)), STATUSES)
            kept = {name for name, answer in zip(NAMES, answers) if answer == "t ok"}
            added = {*names} - {*large}
            self.assertIn(added, (kept, {*kept, *NAMES[len(answers) :][:1]}))

        found = self.refuse_each([*SERVE, "--at-once", "1"], lines, judge)
        self.assertSeen({3, 5}, {it.status for it in found})
        self.assertSeen(["t bad 4 memory\nt ok\n"], [it.written for it in found])

    def test_imports(self) -> None:
        """All of an import is stored, or none."""
        self.book.add("ann")

        def judge(done: Ended, names: list[str]) -> None:
            self.assertIn(names, (["ann"], ["a", "ann", "b", "c"]))
            self.assertIn((done.status, len(names) == 4), STATUSES)

        found = self.refuse_each(["import"], f"a:{RECORD}\nb:\nc:{RECORD}\n", judge)
        self.assertSeen({3, 5}, {it.status for it in found})

    def test_services(self) -> None:
        """A line is answered once, or the service ends; a thread that was refused its memory may be
        missing."""
        self.book.answers("a account ann", "a enrol ann -")
        given = "b verify ann -\nc show ann\nd change ann - -\ne login bob -\n"
        answer = re.compile(r"[b-e] (yes|no|noaccount|replaced|bad 4 memory|\$argon2id\S*)")

        def judge(done: Ended, names: list[str]) -> None:
            lines = done.written.splitlines()
            self.assertEqual([it for it in lines if not answer.fullmatch(it)], [])
            self.assertEqual(len({it.split()[0] for it in lines}), len(lines))
            self.assertIn(done.status, (0, 1, 2, 3, 5))
            self.assertTrue(done.status != 0 or len(lines) == 4)
            self.assertEqual(names, ["ann"])

        words = [*SERVE, "--at-once", "2"]
        statuses = {it.status for it in self.refuse_each(words, given, judge)}
        self.assertSeen({0}, statuses)
        self.assertTrue(len(statuses) > 1 or not is_whole())
