"""A service of tagged lines: its answers, also when memory, threads or the file fail."""

import os
import pathlib
import re
import resource
import signal
from typing import Any

from tests.credkeep.books import DONE, RECORD, SALT, SERVE, Book, BookTest, commits_in, lined
from tests.credkeep.doors import in_base64
from tests.helpers import each, limited, longest, need_native, small_files

ONE = in_base64("one")

# Lines with the tags of their answers.
TAGS = [
    ("", "* bad 11 line"),
    (" show ann", "* bad 11 line"),
    ("A show ann", "* bad 11 line"),
    ("t" * 21 + " show ann", "* bad 11 line"),
    ("t" * 20 + " show ann", "t" * 20 + " bad 5 noaccount"),
    ("show ann", "show bad 11 line"),
    ("t", "t bad 11 line"),
    ("t show " + "x" * 1018, "* bad 16 long"),
    ("t show " + "x" * 1017, "t bad 3 name"),
]


class LinesTest(BookTest):
    def test_tags(self) -> None:
        """The refusals of a line without a tag, and of a line that is too long, have no tag."""
        found = self.book.answers(*(line for line, _ in TAGS))
        self.assertEqual([*zip((line for line, _ in TAGS), found)], TAGS)
        given = b"\x00\xff\n" * 3 + b"x" * 5_000_000 + b"\nt show ann\n"
        with self.book.tagged() as service:
            written, faults = service.process.communicate(given, timeout=longest())
        answers = b"* bad 11 line\n" * 3 + b"* bad 16 long\nt bad 5 noaccount\n"
        self.assertEqual((service.process.returncode, written, faults), (0, answers, b""))

    def test_lists_in_pages(self) -> None:
        """Pages of a list have all names in the order of their bytes, and no record."""
        many = [f"n{at}" for at in range(1200)]
        names = sorted(["-", ".", "a", "z" * 32, "a-", "a.b", "a_b", *many])
        self.begun({name: RECORD for name in names})
        last = "z" * 32
        self.assertRows(
            lambda line: self.book.answers(f"t list {line}")[0].split(),
            [
                ("- 1000", ["t", "names", *names[:1000]]),
                (f"{names[999]} 1000", ["t", "names", *names[999:]]),
                ("n 2", ["t", "names", *[name for name in names if name >= "n"][:2]]),
                (f"{last} 1", ["t", "names", last]),
            ],
        )

    def test_disabled_with_its_line(self) -> None:
        """`disable NAME show` answers the line that it takes away, which `import --update` puts
        back."""
        book = self.begun({"ann": RECORD})
        found = book.answers("t disable ann show", "t disable ann show", "t disable bob show")
        self.assertEqual(found, [f"t ann:{RECORD}", "t absent", "t noaccount"])
        self.assertEqual(book("import", "--update", given=f"ann:{RECORD}\n").status, 0)
        self.assertEqual(book.answers("t show ann", "t disable ann"), [f"t {RECORD}", "t disabled"])


class HashesTest(BookTest):
    def enrolled(self, memory: int) -> str:
        """The setting of so many KiB with which ann has the password one; bob has no record."""
        setting = f"$argon2id$v=19$m={memory},t=1,p=1${SALT}"
        self.begun({"bob": ""}).add("ann", "one", setting)
        return setting

    def assertServed(self, rows: list[tuple[str, str]], *words: str) -> None:
        """Lines that are sent at once are answered so, each once and in any order."""
        with self.book.tagged(*words) as service:
            done = service.end(lined(f"t{at} {line}" for at, (line, _) in enumerate(rows)))
        wanted = sorted(f"t{at} {it}" for at, (_, it) in enumerate(rows))
        self.assertEqual((done.status, sorted(done.written.splitlines())), (0, wanted))

    def test_memory_of_a_record(self) -> None:
        """A record that asks for more than all memory is refused; one that asks for more than is
        free waits."""
        dear = self.enrolled(4096)
        self.book.answers(f"t enrol bob {ONE}")
        rows = [(f"verify {name} {ONE}", "yes") for name in ["bob", "ann", "ann"] * 10]
        self.assertServed(rows, "--at-once", "4", "--memory", "4M")
        refused = [f"verify ann {ONE}", f"login ann {ONE}", f"change bob {ONE} - {dear}"]
        for line in (*refused, f"verify bob {ONE}"):
            with self.subTest(line=line):
                answer = "bad 4 memory" if line in refused else "yes"
                self.assertServed([(line, answer)], "--memory", "4095")

    def test_memory_of_starved_lines(self) -> None:
        """Lines that are refused memory take none from those behind them."""
        self.enrolled(1024)
        huge = f"enrol bob - $argon2id$v=19$m=1025,t=1,p=1${SALT}"
        rows = [(f"verify ann {ONE}", "yes"), (huge, "bad 4 memory")] * 200
        self.assertServed(rows, "--at-once", "4", "--memory", "1M")

    def peak_of(self, memory: str) -> tuple[int, int]:
        """The KiB beyond the first that a service needs at most, and in the end, while eight
        threads judge 32 right passwords at a record of 36 MiB."""
        need_native()
        # Otherwise the C library keeps for each thread what it freed.
        options = {"env": {**os.environ, "MALLOC_MMAP_THRESHOLD_": "131072"}}
        with self.book.tagged("--at-once", "8", "--memory", memory, **options) as service:
            service.ask("w verify nobody -")
            path = pathlib.Path(f"/proc/{service.process.pid}/status")
            sizes = lambda: dict(re.findall(r"(Vm\w+):\s+(\d+) kB", path.read_text()))
            before = int(sizes()["VmRSS"])
            service.send(lined(f"t{at} verify ann {ONE}" for at in range(32)))
            found = {service.answer() for _ in range(32)}
            self.assertEqual(found, {f"t{at} yes" for at in range(32)})
            after = sizes()
            self.assertEqual(service.end(), DONE)
        return int(after["VmHWM"]) - before, int(after["VmRSS"]) - before

    def test_memory_of_all_hashes(self) -> None:
        """All hashes together take no more than --memory. The memory is freed afterwards: a thread
        keeps no more than a hash of the service's own costs needs."""
        self.enrolled(36_864)
        for memory, least, most in (("36M", 1, 1), ("72M", 2, 2), ("2G", 3, 8)):
            with self.subTest(memory=memory):
                peak, left = self.peak_of(memory)
                # Sixteen MiB are for all else.
                self.assertGreater(peak, (least - 1) * 36_864 + 16_384)
                self.assertLess(peak, most * 36_864 + 16_384)
                self.assertLess(left, 16_384)

    def answer_beside(self, changes: int, passes: int) -> str:
        """The answer to a line whose record is changed so often, each time while the line is hashed
        with so many passes; nothing if a change came too late for that."""
        records = [f"$argon2id$v=19$m=65536,t={passes},p=1${SALT}${it * 43}" for it in "AE"]
        with self.begun({"ann": records[1]}).tagged("--at-once", "1") as service:
            service.send("v verify ann -\n")
            for turn in range(changes):
                said, ought = [service.ask(f"c load ann {records[turn % 2]}")], ["c ok"]
                if turn + 1 < changes:  # hashed behind the line, which is hashed again behind it
                    said.append(service.ask("m verify nobody -"))
                    ought.append("m noaccount")
                if "v no" in said:
                    return ""
                self.assertEqual(said, ought)
            answer = service.answer()
            self.assertEqual(service.end(), DONE)
            return answer

    @each((7, "v no"), (8, "v bad 14 busy"))
    def test_lines_that_give_up(self, changes: int, ought: str) -> None:
        """A line whose record is another each time that it is hashed is given up as busy, after
        eight changes and not before."""
        answers = (self.answer_beside(changes, passes) for passes in (6, 24, 96, 384))
        self.assertEqual(next(filter(None, answers), "late"), ought)

    def test_memory_runs_out(self) -> None:
        """A line for which the system refuses memory has that answer, and the next one is
        served."""
        huge = "$argon2id$v=19$m=1048576,t=1,p=1$AAAAAAAAAAA"
        self.enrolled(8)
        little = limited(resource.RLIMIT_AS, 600_000 * 1024)
        with self.book.tagged("--at-once", "2", preexec_fn=little) as service:
            self.assertEqual(service.ask(f"b enrol bob - {huge}"), "b bad 4 memory")
            self.assertEqual(service.ask(f"c verify ann {ONE}"), "c yes")
            self.assertEqual(service.end(), DONE)

    def test_threads_that_cannot_start(self) -> None:
        """If the system starts too few threads, the service reports it; with enough threads it
        serves. Root has no such limit, so a user without other processes runs it."""
        self.enrolled(8)
        options: dict[str, Any] = {}
        if os.getuid() == 0:
            options = {"user": 61_234, "group": 61_234, "extra_groups": []}
            for path in (self.room, self.book.path):
                os.chown(path, 61_234, 61_234)
            self.book.log.unlink(missing_ok=True)
        ends = set()
        for most in range(1, 9):
            limit = limited(resource.RLIMIT_NPROC, most)
            with self.book.tagged("--at-once", "4", preexec_fn=limit, **options) as service:
                done = service.end(f"b verify ann {ONE}\n")
            self.assertIn(done[:2], [(0, "b yes\n"), (3, "")], done)
            ends.add(done.status)
        if options:
            self.assertEqual(ends, {0, 3})


ACCOUNTS = [f"n{at}" for at in range(1000)]


class TurnsTest(BookTest):
    def test_turns_of_accounts(self) -> None:
        """A thousand accounts ask again and again, and each is let in, in its turn: its answer
        comes within a round of where its line did. Some have records that take all memory."""
        cheap, costly = (self.record_of(memory) for memory in (8, 1024))
        self.begun({name: costly if name.endswith("7") else cheap for name in ACCOUNTS})
        lines = [f"verify {name} {ONE}" for name in ACCOUNTS] * 4
        with self.book.tagged("--at-once", "4", "--memory", "1M") as service:
            done = service.end(lined(f"t{at} {line}" for at, line in enumerate(lines)))
        self.assertEqual((done.status, done.faults), (0, ""))
        told = [re.fullmatch(r"t(\d+) yes", line) for line in done.written.splitlines()]
        came = [int(found[1]) if found else -1 for found in told]
        self.assertEqual(sorted(came), [*range(len(lines))])
        late = max(abs(place - at) for place, at in enumerate(came))
        self.assertLess(late, len(ACCOUNTS))

    def record_of(self, memory: int) -> str:
        """A record of so many KiB of the password one."""
        book = self.begun()
        book.add("a", "one", f"$argon2id$v=19$m={memory},t=1,p=1${SALT}")
        return book.accounts()["a"]


MEMBERS = [f"n{at}" for at in range(64)]


class GroupsTest(BookTest):
    """Changes that are stored together."""

    def setUp(self) -> None:
        super().setUp()
        self.begun({name: "" for name in MEMBERS})

    def lines(self, turn: int) -> str:
        """A line for each member that gives it a record, or takes its record away, all to be sent
        at once."""
        verb = "remove" if turn % 2 else "enrol"
        return lined(f"t{at} {verb} {name} -" for at, name in enumerate(MEMBERS))

    def assertAnswered(self, turn: int, answers: list[str]) -> set[str]:
        """The members whose lines of this turn have these answers, each that of a change."""
        word = "removed" if turn % 2 else "enrolled"
        found = [re.fullmatch(rf"t(\d+) {word}", it) for it in answers]
        names = {MEMBERS[int(it[1])] for it in found if it}
        self.assertEqual(len(names), len(answers), answers)
        return names

    def enrolled(self, book: Book) -> set[str]:
        """The members that have a record."""
        return {name for name, record in book.accounts().items() if record}

    def test_changes_together(self) -> None:
        """Changes that wait together are one transaction; each is answered, and kept after a
        kill."""
        with self.book.tagged() as service:
            for turn in range(5):
                service.send(self.lines(turn))
                done = self.assertAnswered(turn, [service.answer() for _ in MEMBERS])
                self.assertEqual(done, {*MEMBERS})
            made = len(commits_in(self.book.log.read_bytes()))
            service.kill()
            self.assertEqual(service.process.returncode, -signal.SIGKILL)
        self.assertTrue(0 < made < 5 * len(MEMBERS), f"{made} transactions")
        self.assertEqual(self.enrolled(self.book), {*MEMBERS})
        self.assertSound(self.book)

    def test_disk_full_in_a_group(self) -> None:
        """A file that can't grow ends the service, and no line after that is answered. Of changes
        that are stored together those that were answered are kept, and the others are named, and
        kept all or none."""
        standing: set[str] = set()
        with self.book.tagged(**small_files(100_000)) as service:
            for turn in range(1000):
                service.send(self.lines(turn))
                answers = [service.answer() for _ in MEMBERS]
                done = self.assertAnswered(turn, [answer for answer in answers if answer])
                standing = standing - done if turn % 2 else standing | done
                if len(done) < len(MEMBERS):
                    break
            self.assertEqual(service.process.wait(), 5)
            faults = service.stderr.read().decode()
        named = r"; the changes? of ([a-z0-9 ]+) may be kept or not(, all or none of them)?\n"
        told = re.fullmatch(f"credkeep: the database failed: .*{named}", faults)
        assert told, faults
        lost = set(told[1].split())
        self.assertTrue(lost.isdisjoint(done) and lost <= {*MEMBERS}, f"{lost} of {done}")
        kept = standing - lost if turn % 2 else standing | lost
        self.assertIn(self.enrolled(self.book), (standing, kept))
        self.assertSound(self.book)

    @each(0, 1, 20, 300)
    def test_writer_fails_in_a_group(self, left: int) -> None:
        """If the answers of a group can't be written whole, the written ones are of changes that
        are kept."""
        book, out = self.begun({name: "" for name in MEMBERS}), self.room / "answers"
        out.write_bytes(b"." * (100_000 - left))
        with out.open("ab") as answers:
            options: dict[str, Any] = {"stdout": answers, **small_files(100_000)}
            done = book(*SERVE, given=self.lines(0), **options)
        written = out.read_text()[100_000 - left :]
        self.assertEqual((done.status, len(written)), (2, left))
        whole = self.assertAnswered(0, written.split("\n")[:-1])
        self.assertLessEqual(whole, self.enrolled(book))
        self.assertSound(book)
