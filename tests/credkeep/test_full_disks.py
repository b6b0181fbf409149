"""Full disks, and files that can't grow: the book keeps answered changes, and a message names the
failed one."""

from tests.credkeep.books import RECORD, SERVE, Accounts, Book, BookTest, lined
from tests.helpers import Ended, need_root, small_disk, small_files

# How many accounts a service is to add, far more than there is room for.
COUNT = 4000
LINES = lined(f"t account new{at}" for at in range(COUNT))


class LostTest(BookTest):
    def on_full_disk(self, size: int) -> tuple[Ended, Book]:
        """The end of a service on a copy of the book whose disk has so many bytes, and the copy."""
        need_root()
        with small_disk(self.room / "small", f"size={size}") as folder:
            book, left = Book(folder / "users.db"), self.file("left.db")
            self.book.move_to(book)
            done = book(*SERVE, given=LINES)
            book.move_to(left)
        return done, left

    def assertLost(self, done: Ended, book: Book, before: Accounts) -> None:
        """The message names the failed change, and the book has every change before it."""
        answered = done.written.count("ok\n")
        self.assertEqual((done.status, done.written), (5, "t ok\n" * answered), done.faults)
        self.assertTrue(0 < answered < COUNT, f"{answered} answered")
        lost = f"; the change of new{answered} may be kept or not"
        self.assertRegex(done.faults, rf"\Acredkeep: the database failed: .*{lost}\n")
        kept = {**before, **{f"new{at}": "" for at in range(answered)}}
        found = book.accounts()
        self.assertTrue(found in (kept, {**kept, f"new{answered}": ""}), "another book")
        self.assertSound(book)


class DisksTest(LostTest):
    def test_lost_change(self) -> None:
        self.assertLost(self.book(*SERVE, given=LINES, **small_files(100_000)), self.book, {})

    def test_full_disk(self) -> None:
        self.assertLost(*self.on_full_disk(256 * 1024), {})

    def test_imports(self) -> None:
        """The message names the import, and the book keeps all or none of it. The message has the
        system's refusal: no clause says which error a lost import names."""
        self.book.add("ann")
        lines = lined(f"n{at}:{RECORD}" for at in range(COUNT))
        done = self.book("import", given=lines, **small_files(100_000))
        lost = f"; the {COUNT} new accounts may be kept or not, all or none of them"
        self.assertFails(done, 5)
        first = done.faults.splitlines()[0]
        self.assertEqual(first, f"credkeep: the database failed: disk I/O error{lost}")
        self.assertEqual(self.book.names(), ["ann"])
