"""The costs of an answer: threads, hashes, instructions, and syncs of the disk."""

import resource
from collections.abc import Iterable
from typing import Any

from tests.credkeep.books import CHEAP, RECORD, SALT, SERVE, BookTest, altered, imported, says
from tests.credkeep.doors import Operation
from tests.helpers import counts, each, instructions, limited, need
from tests.samples import sample

# Four lanes.
COSTS = "$argon2id$v=19$m=1024,t=4,p=4"


class ThreadsTest(BookTest):
    @each(
        ("add", COSTS, "old\n", "enrolled"),
        ("check", None, "old\n", "yes"),
        ("change", COSTS, "old\nnew\n", "replaced"),
        ("upgrade", COSTS.replace("t=4", "t=3"), "new\n", "upgraded"),
        ("reset", COSTS, "old\n", "replaced"),
        ("remove", None, "old\n", "removed"),
    )
    def test_workers_of_a_command(self, command: str, costs: Any, given: str, answer: str) -> None:
        """A command on one account hashes a record of four lanes on four threads, the caller's
        among them or not."""
        words = ["--setting", costs] if costs else []
        done, found = counts(self.book.command(command, "ann", *words), given)
        self.assertEqual(done, says(answer))
        self.assertIn(found["THREADS"], (3, 4))

    @each(1, 3)
    def test_workers_of_tagged_lines(self, count: int) -> None:
        """A service hashes on as many threads as it serves lines at once; one more thread reads."""
        command = self.book.command(*SERVE, "--at-once", str(count))
        done, found = counts(command, "t verify nobody -\n")
        self.assertEqual(done, (0, "t noaccount\n", ""))
        self.assertEqual(found["THREADS"], count + 1)


class SyncsTest(BookTest):
    def syncs(self, words: Iterable[str], line: str, count: int, answer: str) -> int:
        """The syncs of the disk for so many new accounts, each with its line."""
        given = "".join(line.format(at) for at in range(count))
        done, found = counts(self.begun().command(*words), given)
        self.assertEqual(done, (0, answer, ""))
        return found["SYNCS"]

    def test_syncs_of_changes(self) -> None:
        """A change is answered after two syncs at least: of the log, and of the mark that the log
        is whole."""
        few, many = (
            self.syncs(SERVE, "t account n{}\n", count, "t ok\n" * count) for count in (10, 30)
        )
        self.assertGreaterEqual(many - few, 40)

    def test_syncs_of_an_import(self) -> None:
        """An import syncs as often for a thousand lines as for ten."""
        few, many = (
            self.syncs(["import"], "n{}:\n", count, imported(count)) for count in (10, 1000)
        )
        self.assertEqual(many, few)

    def test_syncs_of_a_reading(self) -> None:
        """A command that only reads syncs while it opens the file and its log, and not after
        that."""
        self.book.add("ann", "first")
        for words, given in (
            ("show ann", ""),
            ("show ann --record", ""),
            ("list", ""),
            ("export", ""),
            ("check ann", "first\n"),
            ("check ann", "other\n"),
            ("import --dry-run", "bob:\n"),
            (" ".join(SERVE), "t show ann\nt verify ann b3RoZXI\n"),
        ):
            with self.subTest(words=words):
                _, found = counts(self.book.command(*words.split()), given)
                self.assertEqual(found["SYNCS"], 4 + 2 * 6)
        self.assertEqual(self.book("check", "ann", given="first"), says("yes"))


class HashesTest(BookTest):
    def test_no_hash_in_vain(self) -> None:
        """A command that is answered without looking at a password computes no record: there would
        be no memory. A wrong password costs what a right one does."""
        self.book.add("ann", "first")
        small = limited(resource.RLIMIT_AS, 1_000_000_000)
        costly = ("--setting", "$argon2id$v=19$m=2000000,t=1,p=1")
        for words, given, ended in (
            ("add ann", "first", (4, "exists\n")),
            ("reset zoe", "first", (4, "noaccount\n")),
            ("change zoe", "first\nx\n", (4, "noaccount\n")),
            ("upgrade zoe", "first", (4, "noaccount\n")),
            # And this is what would come of it.
            ("change ann", "wrong\nx\n", (3, "")),
            ("upgrade ann", "wrong\n", (3, "")),
            ("reset ann", "first", (3, "")),
            ("add zoe", "first", (3, "")),
        ):
            with self.subTest(words=words, given=given):
                done = self.book(*words.split(), *costly, given=given, preexec_fn=small)
                self.assertEqual(done[:2], ended)
        self.assertEqual(self.book.names(), ["ann"])

    def test_hashes_of_a_line(self) -> None:
        """A tagged line takes as many hashes for a name that the book lacks, and for an account
        without a record, as for a wrong password, and a wrong password as many as a right one: one,
        and one more for a new record. No time tells them apart."""
        need("valgrind")
        costs = "$argon2id$v=19$m=1024,t=2,p=1"
        self.book.add("ann", "one", f"{costs}${SALT}")
        record = self.book.accounts()["ann"]

        def work(text: str) -> int:
            book, line = self.begun({"ann": record, "bob": ""}), Operation.of(text).line()
            command = book.command("serve", "--tagged", "--at-once", "1", "--setting", costs)
            done, count = instructions(command, f"t {line}\n")
            self.assertEqual(done.status, 0, done)
            return count

        other = f"{costs.replace('argon2id', 'argon2i')}${SALT}"
        none = work("show ann")
        one = work("verify ann one") - none
        verbs = ("verify", "login", "upgrade", "remove", "reset")
        rows = [
            *((f"{verb} {{}} two", {"ann": 1, "bob": 1, "cat": 1}) for verb in verbs),
            ("change {} two one", {"ann": 2, "bob": 2, "cat": 2}),
            (f"upgrade {{}} two {other}", {"ann": 2, "bob": 2, "cat": 2}),
            ("enrol {} two", {"ann": 0, "bob": 1, "cat": 1}),
            ("login {} one", {"ann": 1}),
            ("upgrade {} one", {"ann": 1}),
            ("change {} one two", {"ann": 2}),
            (f"upgrade {{}} one {other}", {"ann": 2}),
        ]
        for line, hashes in sample(rows):
            with self.subTest(line=line, hashes=hashes):
                found = {it: round((work(line.format(it)) - none) / one) for it in hashes}
                self.assertEqual(found, hashes)

    def test_equal_work(self) -> None:
        """A check takes the same number of instructions whichever byte of the tag differs, so that
        no time shows how far two tags agree."""
        need("valgrind")
        rows = [("check", "password"), ("change", "password\nnew\n"), ("remove", "password\n")]
        for command, given in sample(rows):
            with self.subTest(command=command, given=given):
                least: dict[int, int] = {}
                # a busy machine may add some, and takes none away
                for byte in (0, 1, 15, 30, 31) * 3:
                    book = self.begun({"ann": altered(RECORD, byte)})
                    words = ["--setting", CHEAP] if command == "change" else []
                    done, count = instructions(book.command(command, *words, "ann"), given)
                    self.assertEqual(done[:2], says("no" if command == "check" else "wrong")[:2])
                    least[byte] = min(count, least.get(byte, count))
                    if len(least) == 5 and len({*least.values()}) == 1:
                        break
                self.assertEqual(len({*least.values()}), 1, f"{command}: {least} instructions")
