"""The command over whole tables: imports, exports, lists, reports, and its lines of JSON."""

import json
import os
import pathlib
import threading
import tracemalloc
import uuid
from unittest import mock

import engines
from support import FOREIGN, HIGH, RECORD, TWO, Base, Commands, each
from rigzumal import parts
from rigzumal.accounts import PerThread, Sqlite, _import

SAME = "v=19 m=64,t=1,p=1"
ANOTHER = "another record, which stays"


class Imports(Commands):
    def test_batches(self):
        """Batches are atomic, whatever the line ends, and need few statements, however many lines
        they have."""
        self.enterContext(mock.patch.multiple(_import, BATCH=400, SHARE=200, FEW=150))
        self.insert({f"user{it}@x": None for it in range(300)})
        lines = [f"user{number}@x {RECORD}" for number in range(1200)]
        share, mixed = "SELECT INSERT SELECT", "SELECT INSERT UPDATE SELECT"
        first = f"BEGIN INSERT ROLLBACK BEGIN SELECT UPDATE UPDATE SELECT {mixed} COMMIT"
        with self.statements(f"{first} {' '.join([f'BEGIN {share} {share} COMMIT'] * 2)}"):
            self.assert_answers((f"import {self.file(*lines)}", "", "1200 added, 0 there already"))
        others = self.file(*(f"b{it}" for it in lines[:600]))
        with self.statements("BEGIN INSERT SELECT INSERT SELECT COMMIT BEGIN INSERT SELECT COMMIT"):
            self.assert_answers((f"import {others}", "", "600 added, 0 there already"))
        lines[7] = lines[901] = f"user7@x {TWO}"
        more = (f"new {RECORD}", f"new {TWO}", f"new {RECORD}")
        said, error = self.streams("import", self.file(*lines, *more, end="\r\n"), status=4)
        self.assertEqual(said, f"1 added, 1199 there already, 3 with {ANOTHER}\n")
        places = ((8, "user7@x"), (902, "user7@x"), (1202, "new"))
        named = "".join(f"rigzumal: line {at}: {it} has {ANOTHER}\n" for at, it in places)
        self.assertEqual(error, named)
        self.assert_answers(("check user7@x", "one", "yes"))

    def test_a_batch_is_held_at_a_time(self):
        """The command holds one batch in memory, however long the file or the exported table is."""
        self.enterContext(mock.patch.multiple(_import, BATCH=500, SHARE=250))
        file = self.file(*(f"user{it:05} {RECORD}" for it in range(10_000)))
        size = os.path.getsize(file)
        tracemalloc.start()
        self.addCleanup(tracemalloc.stop)
        self.streams("import", file)
        self.assertLess(tracemalloc.get_traced_memory()[1], size / 2)
        tracemalloc.reset_peak()
        rows = _import.Rows(PerThread(self.connect), Sqlite("accounts", "name", "record"))
        self.assertEqual(sum(1 for _ in rows.every()), 10_000)
        self.assertLess(tracemalloc.get_traced_memory()[1], size / 2)

    def test_a_pipe(self):
        """The command reads a pipe once, and its stored lines twice."""
        name = f"{self.server.path}.pipe"
        os.mkfifo(name)
        lines = "".join(f"user{it} {RECORD}\n" for it in range(3000))
        write = pathlib.Path(name).write_text
        # as a daemon, so that no command that fails before it reads keeps the test from ending
        writer = threading.Thread(target=write, args=(lines,), daemon=True)
        writer.start()
        self.assert_answers((f"import {name}", "", "3000 added, 0 there already"))
        writer.join()

    def test_a_file_that_is_shortened_meanwhile(self):
        """If the file is shortened meanwhile, the error says so, with the number of added
        accounts."""
        self.enterContext(mock.patch.multiple(_import, BATCH=500, SHARE=250))
        file = self.file(*(f"user{it:05} {RECORD}" for it in range(1200)))
        put, size = _import.Import.put, os.path.getsize(file)

        def puts(importing, batch):
            os.truncate(file, size // 2)
            return put(importing, batch)

        with mock.patch.object(_import.Import, "put", puts):
            said, error = self.streams("import", file, status=6)
        self.assertEqual(said, "")
        self.assertRegex(error, r"had 1200 lines, and now has \d+|line \d+:")

    def test_names_that_come_twice(self):
        """The first record of each name counts, even in a table that has none of the names."""
        lines = (f"ann {RECORD}", f"b\u00e9 {TWO}", f"ann {TWO}", f"b\u00e9 {TWO}", f"cid {TWO}")
        said, error = self.streams("import", self.file(*lines), status=4)
        self.assertEqual(said, f"3 added, 1 there already, 1 with {ANOTHER}\n")
        self.assertEqual(error, f"rigzumal: line 3: ann has {ANOTHER}\n")
        self.assertEqual(self.rows(), {"ann": RECORD, "b\u00e9": TWO, "cid": TWO})

    def test_one_that_fails(self):
        """A failing batch is undone, the batches before it stay, and the error names the lines."""
        self.enterContext(mock.patch.object(_import, "BATCH", 500))
        self.conn.execute(
            "CREATE TRIGGER tr BEFORE INSERT ON accounts WHEN NEW.name = 'user700'"
            " BEGIN SELECT RAISE(ABORT, 'not this one'); END"
        )
        file = self.file(*(f"user{it} {RECORD}" for it in range(1200)))
        said, error = self.streams("import", file, status=5)
        self.assertEqual(said, "")
        named = "rigzumal: stopped at the account user700\n"
        self.assertIn(f"{named}rigzumal: the lines from 501 on may be missing\n", error)
        self.assertIn("not this one", error)
        self.assertEqual(len(self.rows()), 500)

    def test_a_long_one_shows_how_far_it_is(self):
        self.enterContext(mock.patch.object(_import, "BATCH", 500))
        file = self.file(*(f"user{it} {RECORD}" for it in range(1200)))
        said, shown = self.streams("import", file, shows=True)
        self.assertEqual(said, "1200 added, 0 there already\n")
        self.assertIn("500 of 1200", shown)
        self.assertIn(f"[{'#' * 40}] 1200 of 1200", shown)

    @each(0, 1, 499, 500, 501, 1001)
    def test_a_bad_line_anywhere_imports_nothing(self, at):
        """The command reads all lines, past every batch, before it adds the first."""
        good = [f"user{number} {RECORD}" for number in range(1001)]
        file = self.file(*good[:at], "ann garbage", *good[at:])
        self.assertIn(f"line {at + 1}:", self.run_command("import", file, status=6))
        self.assertEqual(self.rows(), {})

    @each(
        ("ann", ""),
        (f"ann {RECORD} ", ""),  # the record is behind the last blank: it is none
        *((it, "the line is not UTF-8") for it in (f"\udcff {RECORD}", f"ann {RECORD}\udcff")),
        (f"be\0n {RECORD}", "the column can't hold this name"),
        (f"be\rn {RECORD}", 'a line is "NAME RECORD"'),  # a line's end, as of old Macs
        *((f"ann {RECORD}{it}", "") for it in ("\0", "\u00e9", "\ufeff", "\x7f", "$" * 500)),
        (RECORD, 'a line is "NAME RECORD"'),
        ("ann $2b$12$R9h/cIPz0gi.URNNX3kh2O", "the record's scheme is 2b, and "),
        ("ann pbkdf2_sha256$260000$abc$def", "the record's scheme is pbkdf2_sha256"),
        ("ann argon2$argon2id$v=19$m=8,t=1$c$d", "the record's scheme is argon2, and "),
        ("ann $6$rounds=5000$salt$hash", "the record's scheme is 6, and "),
        ("ann hunter2", ""),
        ("ann $hunter2", ""),
        ("ann hunter2$x$y", ""),
        ("ann $argon2id$v=19$m=hunter2", ""),
    )
    def test_what_is_wrong_with_a_line(self, bad, said):
        """A check and an import report the same fault of a record, and neither shows the record."""
        found = self.run_command("import", self.file(f"user0 {RECORD}", bad), status=6)
        self.assertIn(f"line 2: {said}", found)
        self.assertEqual(self.rows(), {})
        if said.startswith("the record's") or "hunter2" in bad:
            self.insert({"ann": bad[4:]})
            found += self.run_command("check", "ann", given="x", status=5)
            self.assertEqual(found.count(said), 2 if said else found.count(said))
            self.conn.execute("DELETE FROM accounts")
        self.assertNotIn("hunter2", found)

    def test_names_with_spaces(self):
        """Names with spaces may be intended, or be a field of another file format: the import lists
        them."""
        file = self.file(f"ann {RECORD}", f"ben lee {RECORD}", f"cid x {RECORD}")
        said, error = self.streams("import", file)
        self.assertEqual(said, "3 added, 0 there already\n")
        self.assertEqual(error, "rigzumal: line 2: 'ben lee' has a space; names with a space: 2\n")

    def test_records_of_other_schemes_are_taken_if_asked_for(self):
        taken = {"ann": FOREIGN, "bob": RECORD, "cid": "x" * 512}
        file = self.file(*(f"{name} {record}" for name, record in taken.items()))
        for count in ("3 added, 0", "0 added, 3"):
            self.assert_answers((f"import --foreign {file}", "", f"{count} there already"))
        self.assertEqual(self.rows(), taken)
        for bad in ("x" * 513, "a\u00e9", "a\0b", "a\tb", "a\x7f", ""):
            file = self.file(f"eve {RECORD}", f"dan {bad}")
            self.assertIn("line 2:", self.run_command("import", "--foreign", file, status=6))
        self.assertEqual(self.rows(), taken)


class Exports(Commands):
    def test_an_export_is_an_import(self):
        """An export has all accounts with a record; the command reports each account that it
        omits."""
        rows = {"ann": RECORD, "b\u00e9 two": TWO, "cid": FOREIGN}
        self.insert({**rows, "none": None})
        said, error = self.streams("export")
        self.assertEqual((len(said.splitlines()), error), (3, ""))
        self.conn.execute("DELETE FROM accounts")
        self.run_command("import", "--foreign", self.file(*said.splitlines()))
        self.assertEqual(self.rows(), rows)
        odd = {"a\nroot": RECORD, " x": RECORD, "x ": RECORD, "dan": "a b", "eve": "a\nb"}
        odd[""] = RECORD
        self.insert(odd)
        found, error = self.streams("export", status=5)
        self.assertEqual((found, error.split()[1]), (said, str(len(odd))))
        found = [json.loads(it) for it in self.run_command("--json", "export").splitlines()]
        self.assertEqual({it["name"]: it["record"] for it in found}, {**rows, **odd})

    def test_a_name_that_is_another_line(self):
        """`disable --show` removes no record of a name that looks like another line, except with
        --json."""
        self.insert({"a\nroot": RECORD})
        _, error = self.streams("disable", "--show", "a\nroot", status=6)
        self.assertIn("add --json", error)
        self.assertEqual(self.rows(), {"a\nroot": RECORD})
        said = self.run_command("--json", "disable", "--show", "a\nroot")
        self.assertEqual(json.loads(said)["record"], RECORD)

    def test_what_was_disabled_comes_back(self):
        self.assert_answers(("add ann", "one", "enrolled"))
        kept = self.run_command("disable", "--show", "ann").rstrip("\n")
        self.assert_answers(
            ("check ann", "one", "no record"),
            (f"import {self.file(kept)}", "", "1 added, 0 there already"),
            ("check ann", "one", "yes"),
        )


class Json(Commands):
    """The answers as JSON, with the statuses of the plain ones."""

    def told(self, words, given="", status=0):
        said, _ = self.streams("--json", *words.split(), given=given, status=status)
        return [json.loads(it) for it in said.splitlines()]

    def test_answers(self):
        file = self.file(f"ann {RECORD}", f"b\u00e9 {RECORD}", f"cid {FOREIGN}")
        counts = {"added": 3, "there": 0, "another": 0}
        self.assertEqual(self.told(f"import --foreign {file}"), [counts])
        counts = {"added": 0, "there": 0, "another": 1}
        self.assertEqual(self.told(f"import {self.file(f'ann {TWO}')}", status=4), [counts])
        for words, given, reply in (
            ("add dan", "one", "enrolled"),
            ("check dan", "one", "yes"),
            ("check eve", "x", "noaccount"),
            ("change dan", "one\ntwo", "replaced"),
        ):
            status = 4 if reply == "noaccount" else 0
            self.assertEqual(self.told(words, given, status), [{"reply": reply}])
        (kept,) = self.told("disable --show dan")
        self.assertEqual((kept["reply"], parts(kept["record"]).memory), ("disabled", 64))
        for words, reply in (("rename dan dot", "renamed"), ("delete dot", "deleted")):
            self.assertEqual(self.told(words), [{"reply": reply}])

    def test_lists_and_faults(self):
        self.insert({"ann": RECORD, "b\u00e9": RECORD, "cid": FOREIGN, "eve": None})
        costs = {"costs": f"$argon2id${SAME.replace(' ', '$')}"}
        listed = [{"name": it, **costs} for it in ("ann", "b\u00e9")]
        listed += [{"name": "cid", "costs": None, "foreign": True}, {"name": "eve", "costs": None}]
        self.assertEqual(self.told("list"), listed)
        self.conn.execute("DROP TABLE accounts")
        self.assertEqual(self.told("init"), [])
        self.conn.execute("DROP TABLE accounts")
        self.conn.execute("CREATE TABLE accounts (name TEXT, record)")
        found = [(it["severity"], it["code"]) for it in self.told("examine", status=5)]
        self.assertIn(("error", "key-not-unique"), found)

    def test_a_report_counts_what_a_login_makes_of_records(self):
        of_i = f"$argon2i${SAME.replace(' ', '$')}$c29tZXNhbHQ$AAAAAA"
        records = [RECORD, RECORD, RECORD, HIGH.hash("x"), of_i, FOREIGN]
        records += ["pbkdf2_sha256$1000$x$y", "hunter2", "$argon2id$v=19$m=64", None]
        self.insert({f"user{number}": record for number, record in enumerate(records)})
        lines = [
            ("current", 1, "argon2id", "v=19 m=128,t=1,p=1"),
            ("current", 1, "argon2i", SAME),
            ("rehash", 3, "argon2id", SAME),
            *(("foreign", 1, it, "") for it in ("2y", "pbkdf2_sha256")),
            ("unreadable", 2, "", ""),
            ("absent", 1, "", ""),
        ]
        # An upgrade goes to higher costs of one scheme alone.
        dear = ("report", "--memory", "128K")
        said = self.run_command(*dear).splitlines()
        wanted = [f"{count} {state} {scheme} {costs}" for state, count, scheme, costs in lines]
        self.assertCountEqual([line.split() for line in said], [line.split() for line in wanted])
        names = ("state", "count", "scheme", "costs")
        self.assertCountEqual(self.told(" ".join(dear)), [dict(zip(names, row)) for row in lines])
        about, kind, *said = self.run_command(*dear, "--prometheus").splitlines()
        self.assertEqual((about[:7], kind), ("# HELP ", "# TYPE rigzumal_accounts gauge"))
        wanted = [
            f'rigzumal_accounts{{state="{state}",scheme="{scheme}",costs="{costs}"}} {count}'
            for state, count, scheme, costs in lines
        ]
        self.assertCountEqual(said, wanted)
        self.assertNotIn("hunter2", "".join(said))


class OnPostgres(engines.OnPostgres, Base):
    """Rows are read as they are sent, and a large batch is copied."""

    def test_rows_are_read_as_they_are_sent(self):
        """After the first row the statement isn't at its end, so nothing stores all rows."""
        self.execute("INSERT INTO users SELECT 'user' || it FROM generate_series(1, 9) AS it")
        made = []

        def connect():
            made.append(self.connect())
            return made[-1]

        rows = _import.Rows(PerThread(connect), self.dialect).every()
        self.assertEqual(next(rows)[0], "ann")
        self.assertEqual(made[0].info.transaction_status.name, "ACTIVE")
        self.assertEqual([*rows], [(f"user{it}", None) for it in range(1, 10)])

    # Ordinary names, and names that nobody should have. One is in the table without a record, one
    # with this record, and one with another.
    NAMES = (
        "ann",
        "b\\e",
        "ca\u00e9",
        "d'an",
        'e"d',
        "f\tl",
        "g%s",
        "h\\N",
        "\\.",
        "there",
        "none",
        "other",
    )

    def imported(self, connect, lines, **sizes):
        """The outcomes of these lines in batches of this size, and the records afterwards."""
        self.create()
        for name, record in (("there", RECORD), ("none", None), ("other", TWO)):
            self.put(record, name)
        importing = _import.Import(self.accounts(), self.dialect, PerThread(connect))
        with mock.patch.multiple(_import, **sizes):
            words = importing.put(lines)
        importing.pool.close()
        return words, self.execute("SELECT name, record FROM users ORDER BY name"), importing.copies

    def test_a_large_batch_is_copied(self):
        """A large batch is copied, with the same outcomes as line by line, even for repeated
        names."""
        lines = [(name, record) for record in (RECORD, TWO, RECORD) for name in self.NAMES]
        wanted, stands, _ = self.imported(self.connect, lines, SHARE=1000)
        self.assertEqual(wanted[:12], ["added"] * 9 + ["there", "added", "another"])
        given = [*lines, *((f"user{it}", RECORD) for it in range(500))]
        with self.statements("BEGIN CREATE CREATE WITH SELECT COMMIT"):
            words, found, is_copied = self.imported(self.connect, given, SHARE=30)
        self.assertTrue(is_copied)
        self.assertEqual(words, wanted + ["added"] * 500)
        self.assertEqual([it for it in found if not it[0].startswith("user")], stands)
        self.assertEqual(len(found), len(stands) + 500)

    @each((int, 7, "bigint"), (bytes, b"\0\xff", "bytea"), (uuid.UUID, uuid.UUID(int=7), "uuid"))
    def test_keys_that_are_copied(self, kind, key, column):
        self.dialect = self.another_dialect(key_type=kind)
        self.table("varchar(512)", column)
        words = _import.Import(self.accounts(), self.dialect, PerThread(self.connect))
        with mock.patch.object(_import, "SHARE", 1):
            self.assertEqual(words.put([(key, RECORD), (key, TWO)]), ["added", "another"])
        self.assertTrue(words.copies)
        self.assertEqual(self.execute("SELECT name, record FROM users"), [(key, RECORD)])

    @each("number", "name", "made", "came", "put")
    def test_columns_of_any_name_are_copied(self, name):
        """The table's columns may have the same names as those of the tables that a copy uses."""
        self.dialect = self.another_dialect(key=name)
        self.execute("DROP TABLE users")
        self.execute(f"CREATE TABLE users ({name} text PRIMARY KEY, record text, more int)")
        words = _import.Import(self.accounts(), self.dialect, PerThread(self.connect))
        with mock.patch.object(_import, "SHARE", 1):
            self.assertEqual(words.put([("ann", RECORD), ("ann", TWO)]), ["added", "another"])
        self.assertTrue(words.copies)

    def test_what_can_not_be_copied(self):
        """A role may not create temporary tables, or a trigger writes another record: the copy is
        undone, and the statements for all engines follow."""
        lines = [(f"user{it}", RECORD) for it in range(40)]
        connect = self.of_role("SELECT, INSERT, UPDATE")
        self.execute("REVOKE TEMPORARY ON DATABASE postgres FROM PUBLIC")
        self.addCleanup(self.execute, "GRANT TEMPORARY ON DATABASE postgres TO PUBLIC")
        importing = _import.Import(self.accounts(), self.dialect, PerThread(connect))
        with mock.patch.object(_import, "SHARE", 30):
            self.assertEqual(importing.put(lines), ["added"] * 40)
            self.assertFalse(importing.copies)
            self.execute("DELETE FROM users")
            self.trigger(
                "IF NEW.name = ''user7'' THEN NEW.record = upper(NEW.record); END IF; RETURN NEW;",
                "CREATE TRIGGER tr BEFORE INSERT ON users",
            )
            importing = _import.Import(self.accounts(), self.dialect, PerThread(self.connect))
            self.assertEqual(importing.put(lines), ["added"] * 40)
            self.assertFalse(importing.copies)
        self.assertEqual(self.execute("SELECT DISTINCT record FROM users"), [(RECORD,)])
