"""Each operation on an account, with each of its answers, which are the same at each door."""

from tests.credkeep.books import RECORD, SALT, TAG, BookTest, fails
from tests.credkeep.doors import DOORS, Tagged, perform
from tests.helpers import Ended
from tests.operations import OPERATIONS

# Faulty lines, and the fault that answers each.
FAULTS = [
    ("frob ann", "11 line"),
    ("show", "11 line"),
    ("show ann ann", "11 line"),
    ("show  ann", "11 line"),
    ("show ann ", "11 line"),
    ("show Ann", "3 name"),
    ("account " + "x" * 33, "3 name"),
    ("verify ann !", "13 password"),
    ("verify ann " + "A" * 343, "13 password"),
    (f"enrol ann - $argon2id$v=16$m=8,t=1,p=1${SALT}", "3 version"),
    (f"enrol ann - $argon2id$v=19$m=7,t=1,p=1${SALT}", "5 range"),
    ("load ann x", "1 shape"),
    *((f"list - {count}", "5 range") for count in ("0", "1001", "010", "x")),
    ("list Ann 10", "3 name"),
    ("rename cat Ann", "3 name"),
    ("disable Cat show", "3 name"),
    *((line, "11 line") for line in ("list -", "delete cat cat", "rename cat", "disable")),
    *((line, "11 line") for line in ("disable cat cat", "disable cat show show")),
    ("begin 1 verify ann -", "11 line"),
]

# Settings and records that ask for 64 KiB, and for more.
WITHIN, ABOVE = (f"$argon2id$v=19$m={kib},t=1,p=1${SALT}" for kib in (64, 65))
# scrypt asks for 128 * 2^ln * r * p bytes: 64 KiB, and two times as much.
FLAT, TWICE = (f"$scrypt$ln=6,r=8,p={p}${SALT}" for p in (1, 2))
COSTLY = "bad 18 costly"

# With a bound of 64 KiB and without one. The book has ann's record already.
BOUNDED = [
    (f"load bob {WITHIN}${TAG}", "ok", "ok"),
    (f"load bob {ABOVE}${TAG}", COSTLY, "ok"),
    (f"load bob {TWICE}${TAG}", COSTLY, "ok"),
    (f"load bob $scrypt$ln=1,r=255,p=2${SALT}${TAG}", COSTLY, "ok"),
    (f"load zed {ABOVE}${TAG}", COSTLY, "bad 5 noaccount"),
    (f"load bob {FLAT}${TAG}", "ok", "ok"),
    (f"enrol bob one {ABOVE}", COSTLY, "exists"),
    (f"change ann two one {ABOVE}", COSTLY, "wrong"),
    (f"upgrade ann two {TWICE}", COSTLY, "wrong"),
    (f"reset bob one {ABOVE}", COSTLY, "replaced"),
    (f"reset bob one {WITHIN}", "replaced", "replaced"),
    ("login ann one", "yes", "yes"),
    ("change ann one one", "replaced", "replaced"),
]

# The same of work: 64 KiB are gone over three times, and four times; and scrypt's 96 KiB twice.
THRICE, MORE = (f"$argon2id$v=19$m=64,t={t},p=1${SALT}" for t in (3, 4))
MIXED, REPEATED = (f"$scrypt$ln=8,r=3,p={p}${SALT}" for p in (1, 2))
BOUNDED_WORK = [
    (f"load bob {THRICE}${TAG}", "ok", "ok"),
    (f"load bob {MORE}${TAG}", COSTLY, "ok"),
    (f"load bob {MIXED}${TAG}", "ok", "ok"),
    (f"load bob {REPEATED}${TAG}", COSTLY, "ok"),
    (f"load bob $argon2id$v=19$m=8,t=4294967295,p=1${SALT}${TAG}", COSTLY, COSTLY),
    (f"upgrade ann one {THRICE}", "upgraded", "upgraded"),
]
# The words of a bound, the table, and whether the bound is too high to matter.
BOUNDS = [
    (("--most-memory", "64"), BOUNDED, False),
    (("--most-memory", "64K"), BOUNDED, False),
    (("--most-memory", "1M"), BOUNDED, True),
    ((), BOUNDED, True),
    (("--most-work", "192"), BOUNDED_WORK, False),
    (("--most-work", "1M", "--most-memory", "1M"), BOUNDED_WORK, True),
]


class OperationsTest(BookTest):
    def test_operations(self) -> None:
        for name, door in DOORS.items():
            with self.subTest(door=name):
                book = self.begun()
                perform(self, book, door, OPERATIONS)
                found = book.accounts()
                self.assertEqual((list(found), found["cat"]), (["cat", "dan"], RECORD))
                self.assertTrue(found["dan"].startswith("$scrypt$ln=4,r=8,p=1$"), found)
                self.assertSound(book)

    def test_faults(self) -> None:
        """The answer to a faulty line is its fault, and the line has no effect."""
        found = self.book.answers(*(f"t {line}" for line, _ in FAULTS))
        self.assertEqual([*zip(FAULTS, found)], [(it, f"t bad {it[1]}") for it in FAULTS])
        self.assertEqual(self.book.names(), [])

    def test_bounds(self) -> None:
        """A record or setting in a line is refused if it asks for more than --most-memory or
        --most-work; those of the book and of the service aren't."""
        for words, table, is_high in BOUNDS:
            with self.subTest(words=words):
                book = self.begun({"ann": "", "bob": ""})
                Tagged().perform(self, book, [(f"enrol ann one {ABOVE}", "enrolled")])
                rows = []
                for line, with_bound, without in table:
                    rows.append((line, without if is_high else with_bound))
                Tagged(*words).perform(self, book, rows)
                self.assertSound(book)

    def test_bounds_of_costs(self) -> None:
        """A service's own costs are within its bound, or it doesn't start."""
        book, tagged = self.begun({"bob": ""}), ("serve", "--tagged")
        own = (*tagged, "--setting", WITHIN.rpartition("$")[0])
        done = book(*own, "--most-memory", "64", given="t show bob\n")
        self.assertEqual(done, Ended(0, "t none\n"))
        why = "--setting: its hash needs more than --most-memory or --most-work allows (18 costly)"
        for words in (
            (*own, "--most-memory", "63"),
            (*own, "--most-work", "63"),
            (*tagged, "--most-memory", "65535"),
        ):
            with self.subTest(words=words):
                self.assertEqual(book(*words, given="t account cat\n"), fails(1, why))
        self.assertEqual(book.names(), ["bob"])
