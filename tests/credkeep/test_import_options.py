"""Lines of an import, their faults, and its options, alone and together."""

import itertools
import json
from collections.abc import Iterable

from tests.credkeep.books import OTHER, RECORD, SALT, SCRYPT, TAG, Accounts, fails, imported
from tests.credkeep.books import lined, lines_of
from tests.credkeep.test_import import ImportTest, named_lines, other_texts
from tests.helpers import Ended

# Each bad line with its fault. The book has ann, and a line before these names new.
BAD_LINES = [
    ("bob", "11 line"),
    ("Bob:", "3 name"),
    (":", "3 name"),
    (f"b@c.org:{RECORD}", "3 name"),
    ("bcrypt:$2y$05$abc", "2 scheme"),
    ("ssha:{SSHA}abc", "1 shape"),
    ("braces:{ARGON2ID}", "1 shape"),
    (f"costs:$argon2id$v=19$m=256,t=2${SALT}$AAAAAAAA", "4 params"),
    ("costs:$argon2id$v=19$m=256,t=2", "4 params"),
    (f"range:$argon2id$v=19$m=1,t=2,p=1${SALT}$AAAAAAAA", "5 range"),
    ("salt:$argon2id$v=19$m=256,t=2,p=1$!$AAAAAAAA", "6 salt"),
    (f"tag:$argon2id$v=19$m=256,t=2,p=1${SALT}$!", "7 tag"),
    (f"return:{RECORD}\rx:", "7 tag"),
    (f"long:{RECORD}{'A' * 512}", "9 toolong"),
    ("ann:", "1 exists"),
    (f"new:{OTHER}", "1 exists"),
    (f"locked:!{RECORD}", "17 locked"),
    ("starred:*", "17 locked"),
    (" ", "11 line"),
]

# Lines as htpasswd, Dovecot and Django write them, and their records.
FORMS = [
    (f"htpasswd:{RECORD}", RECORD),
    (f"dovecot:{{ARGON2ID}}{RECORD}:1000:1000::/home/dovecot::", RECORD),
    (f"dovecot.i:{{ARGON2I}}{OTHER}", OTHER),
    (f"django:argon2{RECORD}", RECORD),
    (f"fields:{RECORD}:x", RECORD),
    ("none::1000", ""),
    ("empty:", ""),
    (f"shell:{RECORD}:1000:1000::/home/shell:/usr/sbin/nologin:", RECORD),
    (f"quota:{{ARGON2ID}}{RECORD}:1000:1000::/home/q::userdb_quota_rule=*:storage=1G", RECORD),
]

# The lines of an update, and how many of its names were there.
UPDATES: list[tuple[Accounts, int]] = [
    ({"ann": OTHER}, 1),
    ({"ann": RECORD}, 1),
    ({"ann": ""}, 1),
    ({"bob": RECORD}, 1),
    ({"eve": SCRYPT}, 0),
    ({"eve": SCRYPT, "cat": "", "bob": OTHER, "a": ""}, 2),
    ({}, 0),
]
# Records behind a lock, or a mark.
LOCKED = (
    f"!{RECORD}",
    f"*{RECORD}",
    f"~{RECORD}",
    f"!~{RECORD}",
    "~",
    "!",
    "*",
    "!!",
    "*LK*",
    "!$6$salt$abc",
    "*:19000:0:99999:7:::",
)
# Fields behind a record by which Dovecot lets its user in nowhere, or not from everywhere.
BARRED = (
    ":1000:1000::/home/eve::nologin",
    ":1000:1000::/home/eve::nologin=y reason=moved",
    ":1000:1000::/home/eve::userdb_mail=maildir:~/mail nologin",
    ":1000:1000::/home/eve::allow_nets=127.0.0.1,::1",
    ":1000:1000::/home/eve::proxy allow_real_nets=local",
    "::::::noauthenticate",
)
# Accounts with their marks, as an export writes them, and marks that none writes.
KEPT = {"eve": f"!{RECORD}", "fay": f"~{OTHER}", "gus": f"!~{SCRYPT}", "hal": "!", "ivy": RECORD}
UNKNOWN = ("!!", f"~!{RECORD}", f"!~~{RECORD}", "! ")
# Records that take eight passes over their memory, nine, and as many as there can be.
WORK = [f"$argon2id$v=19$m=8,t={t},p=1${SALT}${TAG}" for t in (8, 9, 4294967295)]

BEFORE = {"ann": RECORD, "bob": "", "cat": OTHER, "dan": RECORD}
BAD = lined([f"new:{RECORD}", *(it for it, _ in BAD_LINES), f"last:{OTHER}", "# x", "none:"])
BAD_NAMED = {at: why for at, (_, why) in enumerate(BAD_LINES, 2)}
TWICE = f"ann:{OTHER}\neve:\nann:\neve:{RECORD}\n"
TWICE_NAMED = {3: "1 exists", 4: "1 exists"}
NO_RECORDS = f"Eve:!\neve:{{ARGON2ID}}!{RECORD}\n"
WORKED = {f"n{at}": it for at, it in enumerate(WORK)}
TWO_WORKED = {"n0": WORK[0], "n1": WORK[1]}
COSTLY = {2: "18 costly", 3: "18 costly"}
# Records of 256 KiB, of 257, and of scrypt's 512; and lines of which the second and the fifth ask
# for more than there may be.
SCRYPT_512 = f"$scrypt$ln=8,r=8,p=2${SALT}${TAG}"
WITHIN, ABOVE = (f"$argon2id$v=19$m={it},t=1,p=1${SALT}${TAG}" for it in (256, 257))
LIMITED, HOW_OVER = "--disable-locked --most-memory 256K", ("--update", "--skip-existing")
MIXED = f"eve:{WITHIN}\nfay:{ABOVE}\ngus:\n# {ABOVE}\nhal:{SCRYPT_512}:x\nivy:!{ABOVE}\n"
TAKEN = {"eve": WITHIN, "gus": "", "ivy": ""}

# Options, lines, the counts that are told or none if nothing is changed, the lines that are named
# as bad, and what the book before has otherwise afterwards.
IMPORTS: list[tuple[str, str, tuple[int, ...] | None, dict[int, str], Accounts]] = [
    # Empty lines and those that begin with # are passed over, and counted in the numbers of the
    # others. The last line may have no end.
    ("", "\n# made by hand\n#\n#ann:x\neve:\n\n\n", (1,), {}, {"eve": ""}),
    ("", "\n# x\neve\n\n #\nfay:", None, {3: "11 line", 5: "11 line"}, {}),
    *(("", lines, (0,), {}, {}) for lines in ("", "#\n\n", "# the last line has no end")),
    ("", lined(it for it, _ in FORMS), (9,), {}, {it.split(":")[0]: new for it, new in FORMS}),
    # Each bad line is named with its fault, and nothing is changed, or the others are taken in.
    ("", BAD, None, BAD_NAMED, {}),
    ("--skip-bad", BAD, (3, 0, 0, 19), BAD_NAMED, {"new": RECORD, "last": OTHER, "none": ""}),
    ("--skip-bad", "x\ny\n", (0, 0, 0, 2), {1: "11 line", 2: "11 line"}, {}),
    # Accounts that are there stay. A name that comes twice among the lines isn't there.
    ("--skip-existing", f"ann:\neve:{RECORD}\nbob:{OTHER}\nann:\n", (1, 0, 3), {}, {"eve": RECORD}),
    ("--skip-existing", "ann:\neve:\neve:\n", None, {3: "1 exists"}, {}),
    ("--skip-existing", "ann:\nx\n", None, {2: "11 line"}, {}),
    # An account that is there gets the record of its line, or none.
    *(("--update", lines_of(it), (len(it) - there, there), {}, it) for it, there in UPDATES),
    ("--update", TWICE, None, TWICE_NAMED, {}),
    ("--update --skip-bad", TWICE, (1, 1, 0, 2), TWICE_NAMED, {"ann": OTHER, "eve": ""}),
    # A record behind ! or * is a fault of its own; by choice its account has no record.
    *(("", f"eve:{it}\n", None, {1: "17 locked"}, {}) for it in LOCKED),
    *(("--disable-locked", f"eve:{it}\n", (1,), {}, {"eve": ""}) for it in LOCKED),
    # So is a field of Dovecot's that bars the user, whatever the record.
    *(("", f"eve:{RECORD}{it}\n", None, {1: "17 locked"}, {}) for it in BARRED),
    *(("--disable-locked", f"eve:{RECORD}{it}\n", (1,), {}, {"eve": ""}) for it in BARRED),
    ("--update", f"ann:{OTHER}{BARRED[0]}\n", None, {1: "17 locked"}, {}),
    ("--disable-locked --update", f"ann:{OTHER}{BARRED[0]}\n", (0, 1), {}, {"ann": ""}),
    ("", f"eve:{BARRED[0]}\n", None, {1: "17 locked"}, {}),
    ("--disable-locked", NO_RECORDS, None, {1: "3 name", 2: "1 shape"}, {}),
    ("--disable-locked", f"ann:!{RECORD}\n", None, {1: "1 exists"}, {}),
    ("--disable-locked --skip-existing", f"ann:!{RECORD}\n", (0, 0, 1), {}, {}),
    ("--disable-locked --update", f"ann:!{RECORD}\n", (0, 1), {}, {"ann": ""}),
    # By choice an account has its record behind ! or ~, and is locked, or must change it.
    ("--keep-locked", lines_of(KEPT), (5,), {}, KEPT),
    (
        "--keep-locked --update",
        f"ann:!{OTHER}\nbob:~\n",
        (0, 2),
        {},
        {"ann": f"!{OTHER}", "bob": "~"},
    ),
    ("--keep-locked", f"ann:!{OTHER}\n", None, {1: "1 exists"}, {}),
    ("--keep-locked --skip-existing", f"ann:!{OTHER}\n", (0, 0, 1), {}, {}),
    *(("--keep-locked", f"eve:{it}\n", None, {1: "1 shape"}, {}) for it in UNKNOWN),
    ("--keep-locked", "eve:!$6$salt$abc\n", None, {1: "2 scheme"}, {}),
    ("--keep-locked --most-memory 256K", f"eve:!{ABOVE}\n", None, {1: "18 costly"}, {}),
    # But * is no record, and a field that bars the user is no mark.
    *(("--keep-locked", f"eve:*{it}\n", None, {1: "17 locked"}, {}) for it in ("", RECORD)),
    *(("--keep-locked", f"eve:!{RECORD}{it}\n", None, {1: "17 locked"}, {}) for it in BARRED),
    # A record that takes more passes over its memory than that is bad.
    ("--skip-bad --most-work 64", lines_of(WORKED), (1, 0, 0, 2), COSTLY, {"n0": WORK[0]}),
    ("--skip-bad --most-work 4G", lines_of(WORKED), (2, 0, 0, 1), {3: "18 costly"}, TWO_WORKED),
    # So is one that asks for more memory: its account keeps what it has.
    (LIMITED, MIXED, None, {2: "18 costly", 5: "18 costly"}, {}),
    (f"{LIMITED} --skip-bad", MIXED, (3, 0, 0, 2), {2: "18 costly", 5: "18 costly"}, TAKEN),
    (f"{LIMITED} --update", f"ann:{ABOVE}\ncat:{WITHIN}\n", None, {1: "18 costly"}, {}),
    *((f"{LIMITED} {it}", f"ann:{ABOVE}\n", None, {1: "18 costly"}, {}) for it in HOW_OVER),
    # Without a bound both are taken in, and so are they with one that is as high.
    ("--update", f"ann:{ABOVE}\ncat:{WITHIN}\n", (0, 2), {}, {"ann": ABOVE, "cat": WITHIN}),
    ("--most-memory 1M", f"eve:{SCRYPT_512}\n", (1,), {}, {"eve": SCRYPT_512}),
]


EXCLUDE_EACH_OTHER = ({"--update", "--skip-existing"}, {"--disable-locked", "--keep-locked"})


def may_be_given(options: Iterable[str]) -> bool:
    return not any(both <= {*options} for both in EXCLUDE_EACH_OTHER)


class OptionsTest(ImportTest):
    def test_imports(self) -> None:
        for options, lines, counts, named, changed in IMPORTS:
            for end in ("\n", "\r\n"):
                with self.subTest(options=options, lines=lines, end=end):
                    book = self.begun(BEFORE)
                    done = book("import", *options.split(), given=lines.replace("\n", end))
                    wanted = Ended(6) if counts is None else Ended(0, imported(*counts))
                    self.assertNames(done, wanted, named)
                    self.assertEqual(book.accounts(), dict(sorted({**BEFORE, **changed}.items())))
                    self.assertSound(book)

    def test_counts(self) -> None:
        """In JSON the counts are numbers by name. --quiet hides them, and bad lines are still
        named. A message reports an answer that can't be written, and its change is stored."""
        lines = f"ann:{OTHER}\nx\nfay:\n"
        for option, counts in (
            ("--update", {"added": 1, "updated": 1, "there": 0, "bad": 1}),
            ("--skip-existing", {"added": 1, "updated": 0, "there": 1, "bad": 1}),
        ):
            with self.subTest(option=option, counts=counts):
                for words, told in (([], imported(*counts.values())), (["--quiet"], "")):
                    done = self.begun(BEFORE)("import", "--skip-bad", option, *words, given=lines)
                    self.assertNames(done, Ended(0, told), {2: "11 line"})
                done = self.begun(BEFORE)("import", "--skip-bad", "--json", option, given=lines)
                self.assertEqual(json.loads(done.written), counts)
        with open("/dev/full", "wb") as full:
            done = self.book("import", given="eve:\n", stdout=full)
        self.assertEqual(done, fails(2, "writing failed"))
        self.assertIn("eve", self.book.names())

    def test_costly_lines(self) -> None:
        """The message for a line whose record asks for more than --most-memory allows."""
        why = "its record asks for more than --most-memory or --most-work (18 costly)"
        done = self.book("import", "--most-memory", "256K", given=f"ann:{ABOVE}\n")
        self.assertEqual(done, Ended(6, "", f"credkeep: line 1: {why}\n"))

    def test_dry_runs(self) -> None:
        """With every choice of options a dry run reports what the import would do, and changes no
        byte of the file."""
        before, good = {"ann": RECORD, "bob": ""}, f"ann:\nbob:{RECORD}\ncat:\n"
        bad = f"ann:{OTHER}\n\nbad\ncat:{RECORD}\ncat:\ndan:!x\n# end\n"
        choices = ("--skip-bad", "--disable-locked", "--keep-locked", "--update", "--skip-existing")
        every = []
        for count in range(4):
            every += [it for it in itertools.combinations(choices, count) if may_be_given(it)]
        for given, options in itertools.product((good, bad), every):
            with self.subTest(given=given, options=options):
                book = self.begun(before)
                whole = book.path.read_bytes()
                dry = book("import", "--dry-run", *options, given=given)
                self.assertTrue(book.path.read_bytes() == whole, "the file has changed")
                self.assertLogIsEmpty(book)
                made = book("import", *options, given=given)
                text = "" if made.status else "a dry run: nothing was changed\n"
                self.assertNames(dry, made._replace(faults=text), named_lines(made))
                self.assertEqual(other_texts(made), "")
                if made.status:
                    self.assertEqual(book.accounts(), before)
