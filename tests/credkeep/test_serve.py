"""A service: how long it answers, why it ends, and its answers without memory."""

import resource
import time

from tests.credkeep.books import DONE, SALT, SERVE, TAG, BookTest, lined
from tests.helpers import Ended, need_native

# The memory of a service where memory is short, in bytes, and a setting that needs more.
SHORT_MEMORY = 700_000_000
COSTLY = f"$argon2id$v=19$m=1000000,t=1,p=1${SALT}"
MODEST = f"$argon2id$v=19$m=64,t=1,p=1${SALT}"

NO_MEMORY = [
    ("account ann", "ok"),
    ("account bob", "ok"),
    (f"load ann {COSTLY}${TAG}", "ok"),
    ("verify ann cHc", "bad 4 memory"),
    ("show ann", f"{COSTLY}${TAG}"),
    # Each other operation that hashes, at the record and for a new one.
    ("login ann cHc", "bad 4 memory"),
    ("remove ann cHc", "bad 4 memory"),
    (f"change ann cHc cXc {MODEST}", "bad 4 memory"),
    (f"upgrade ann cHc {MODEST}", "bad 4 memory"),
    (f"enrol bob cHc {COSTLY}", "bad 4 memory"),
    (f"reset bob cHc {COSTLY}", "bad 4 memory"),
    ("show bob", "none"),
    # Lines that need no such hash are answered.
    ("verify bob cHc", "absent"),
    (f"enrol ann cHc {COSTLY}", "exists"),
    # Lines that hash with less memory go on.
    (f"load ann {MODEST}${TAG}", "ok"),
    ("verify ann cHc", "no"),
    (f"enrol bob cHc {MODEST}", "enrolled"),
]


class LinesTest(BookTest):
    def test_cut_inputs(self) -> None:
        """An input that ends at each byte ends a service in order: each whole line is answered
        once; one that is cut is refused, without its tag, which may be cut too, and nothing is
        done for it."""
        text = lined(f"t {line}" for line in ("show ann", "account bo", "account cat"))
        for cut in range(len(text)):
            book = self.begun({"ann": ""})
            *whole, rest = text[:cut].split("\n")
            done = book(*SERVE, given=text[:cut])
            wanted = ["t none", "t ok"][: len(whole)]
            if rest:
                wanted.append("* bad 11 line")
            with self.subTest(cut=cut):
                self.assertEqual(sorted(done.written.splitlines()), sorted(wanted))
                self.assertEqual(done._replace(written=""), DONE)
                has_added = len(whole) >= 2  # the line `account bo` is whole
                self.assertEqual(book.names(), ["ann", "bo"] if has_added else ["ann"])
        self.assertEqual(self.book(*SERVE, given="x" * 5000), Ended(0, "* bad 11 line\n"))

    def test_slow_reader(self) -> None:
        """A client that doesn't read its answers holds the service back, and gets them all in the
        end. Nothing ends a service but its input."""
        count = 1_000_000
        with self.book.tagged() as service:
            feeder = service.feed(lined(f"t{at} show nobody" for at in range(count)))
            time.sleep(0.5)
            self.assertIsNone(service.process.poll())
            written = service.stdout.read().decode().splitlines()
            feeder.join()
            self.assertEqual(service.process.wait(), 0)
        self.assertTrue(sorted(written) == sorted(f"t{it} bad 5 noaccount" for it in range(count)))

    def test_closed_output(self) -> None:
        """If nobody reads the answers the service ends with status 2, though its input is still
        open, and keeps the line's change."""
        with self.book.tagged() as service:
            self.assertEqual(service.ask("t account ann"), "t ok")
            service.stdout.close()
            service.send("t account bob\n")
            self.assertEqual(service.process.wait(), 2)
            self.assertEqual(service.stderr.read().decode(), "credkeep: writing failed\n")
        self.assertEqual(self.book.names(), ["ann", "bob"])


class MemoryTest(BookTest):
    def setUp(self) -> None:
        need_native()
        super().setUp()

    def short_of_memory(self) -> None:
        """Bounds the memory of the process, until it is allowed more."""
        most = resource.getrlimit(resource.RLIMIT_AS)[1]
        resource.setrlimit(resource.RLIMIT_AS, (SHORT_MEMORY, most))

    def test_without_memory(self) -> None:
        """A line for whose hash there is no memory is refused, and changes nothing."""
        with self.book.tagged("--at-once", "1", preexec_fn=self.short_of_memory) as service:
            found = [service.ask(f"t {line}") for line, _ in NO_MEMORY]
            self.assertEqual(service.end(), DONE)
        self.assertEqual([*zip(NO_MEMORY, found)], [(row, f"t {row[1]}") for row in NO_MEMORY])
        self.assertSound(self.book)

    def test_memory_comes_back(self) -> None:
        """Once there is memory, a line that was refused is answered."""
        with self.book.tagged("--at-once", "1", preexec_fn=self.short_of_memory) as service:
            for line, answer in NO_MEMORY[:4]:
                self.assertEqual(service.ask(f"t {line}"), f"t {answer}")
            pid = service.process.pid
            most = resource.prlimit(pid, resource.RLIMIT_AS)[1]
            resource.prlimit(pid, resource.RLIMIT_AS, (most, most))
            self.assertEqual(service.ask("t verify ann cHc"), "t no")
            self.assertEqual(service.end(), DONE)
