"""The findings of `examine`, for one faulty table, role or setting at a time."""

import contextlib
from unittest import mock

import engines
import support
from support import CHECK_FAILED, each
from rigzumal.accounts import PerThread, Reply
from rigzumal.accounts.types import Kind

CASE, BLANKS = "differ in case", "differ by blanks at the end"
ACCENTS, CUT = "differ by accents", "record-type: record is {}: a record has up to 152 bytes"
SHORTER = "record-length: record is {}: another program's record has up to 512 bytes"
LATIN = "key-not-unicode: no account can have a name outside of {}"
NOT_UNIQUE = "no unique index of its own: operations refuse a name that two rows have"
SLOW, PUT = "key-not-indexed: name has no index", "no record can be written: "
# Indexes under which equal keys alone are equal; and those under which others may be too, or equal
# keys may differ.
OF_ONE_CASE = ("lower(name)", "upper(name)", "LOWER ( name )")
OF_MORE = ("lower(record)", "lower(name || record)", "coalesce(record, lower(name))")
SHORT = "CHECK (length(record) < 60)"
KEY, RECORD, INDEX = "name VARCHAR(90)", "record VARCHAR(512)", "CREATE UNIQUE INDEX i ON users"
TEXTS, TEXT_KEY = "name TEXT, record TEXT", "name TEXT PRIMARY KEY, record TEXT"
OTHER_INDEXES = ("name, record", "record, name", "record")
# Tables of any engine, by their columns and further statements, with the findings for each: an
# index of the key alone and of all rows, and a column that holds a record.
TABLES = (
    (f"{KEY}, {RECORD}", NOT_UNIQUE),
    *((f"{KEY}, {RECORD}, UNIQUE ({it})", NOT_UNIQUE) for it in OTHER_INDEXES),
    (f"{KEY}, {RECORD}, mail INT, PRIMARY KEY (name, mail)", NOT_UNIQUE),
    (f"{KEY}, {RECORD}; {INDEX} (name)",),
    (f"{KEY} PRIMARY KEY, {RECORD} NOT NULL", "NOT NULL: no account can be without"),
    (f"{KEY} PRIMARY KEY, {RECORD} CHECK (record LIKE '$argon2%')",),
)


class Said:
    """`examine` finds these faults, and nothing else: in an engine's own `tables`, and with the
    `settings` of a connection, which are statements."""

    table_of = "CREATE TABLE users ({})"

    def assert_faults(self, words, accounts=None):
        faults = (accounts or self.accounts()).examine()
        self.assertEqual(len(faults), len(words), faults)
        for word in words:
            self.assertIn(word, "; ".join(f"{it.code}: {it}" for it in faults))

    def test_tables(self):
        """`examine` finds the faults of each table, whose rows stay unchanged."""
        refused = f"{KEY} PRIMARY KEY, {RECORD} {SHORT}", PUT + self.refused
        for sql, *words in (*TABLES, refused, *self.tables):
            with self.subTest(sql=sql):
                self.execute("DROP TABLE IF EXISTS users")
                columns, *more = sql.split("; ")
                for one in (self.table_of.format(columns), *more):
                    self.execute(one)
                rows = self.execute("SELECT * FROM users")
                self.assertEqual(len(rows), sql.count("INSERT"))
                self.assert_faults(words)
                self.assertEqual(self.execute("SELECT * FROM users"), rows)

    def test_settings(self):
        for sql, *words in self.settings:
            with self.subTest(sql=sql):
                self.assert_faults(words, self.accounts(connect=self.setting(sql)))


SQLITE_REFUSES, MAIL = f"IntegrityError {CHECK_FAILED}".rstrip(), "mail TEXT NOT NULL"
ROW = "INSERT INTO users VALUES ('ann', {})"
SQLITE_TABLES = (
    (TEXT_KEY,),
    ("name TEXT COLLATE NOCASE PRIMARY KEY, record TEXT", CASE),
    ("name TEXT COLLATE RTRIM PRIMARY KEY, record TEXT", BLANKS),
    (f"name TEXT COLLATE NOCASE, record TEXT; {INDEX} (name COLLATE BINARY)", CASE),
    (f"{TEXTS}; {INDEX} (name) WHERE record IS NULL", NOT_UNIQUE),
    (f"{TEXTS}; {INDEX} (name, lower(record))", NOT_UNIQUE),
    *((f"{TEXTS}; {INDEX} ({it})", SLOW) for it in OF_ONE_CASE),
    *((f"{TEXTS}; {INDEX} ({it})", NOT_UNIQUE) for it in OF_MORE),
    (f"{TEXTS}; {INDEX} (NAME)",),
    # Rows that the trial can't add: it uses an existing row.
    (f"{TEXT_KEY}, {MAIL}",),
    (f"{TEXT_KEY} {SHORT}, b UNIQUE; {ROW.format('NULL, 1')}", PUT + SQLITE_REFUSES),
    (f"{TEXT_KEY} {SHORT}, {MAIL}; {ROW.format('NULL, 2')}", PUT + SQLITE_REFUSES),
    (f"{TEXT_KEY}, {MAIL}; {ROW.format('3, 4')}",),
)
POWER, BUSY = "not-durable: synchronous is below FULL", "busy-timeout: the busy timeout"


class OnSqlite(Said, engines.OnSqlite, support.Base):
    refused, tables = SQLITE_REFUSES, SQLITE_TABLES
    settings = (
        *((f"PRAGMA synchronous = {it}", POWER) for it in (0, 1)),
        *((f"PRAGMA busy_timeout = {it}", BUSY) for it in (0, 999)),
        *((f"PRAGMA {it}",) for it in ("synchronous = 3", "busy_timeout = 1000")),
        ("PRAGMA query_only = 1", f"{PUT}OperationalError"),
    )

    def test_schemas_and_spellings(self):
        """`examine` finds the same table as a statement."""
        self.execute("CREATE TRIGGER tr AFTER UPDATE ON users BEGIN SELECT 1; END")
        self.give("one")
        spellings = {"table": "Users", "key": "NAME", "record": "Record"}
        for names in ({"table": "main.users"}, spellings):
            accounts = self.accounts(dialect=self.another_dialect(**names))
            self.assert_faults(["trigger tr"], accounts)
            self.assertIs(accounts.verify("ann", "one"), Reply.YES)

    @each(
        ("name TEXT, record TEXT", "key-not-unique", True),
        ("name INTEGER PRIMARY KEY, record TEXT", "key-type", True),
        ("login TEXT PRIMARY KEY, record TEXT", "no-column", True),
        ("name TEXT PRIMARY KEY, record TEXT CHECK (record = 'x')", "no-update", True),
        ("name TEXT PRIMARY KEY, record TEXT NOT NULL", "record-not-null", None),
        ("name TEXT COLLATE NOCASE PRIMARY KEY, record TEXT", "names-folded", False),
        ("name TEXT COLLATE RTRIM PRIMARY KEY, record TEXT", "names-folded", True),
    )
    def test_what_is_an_error_and_what_a_warning(self, columns, code, is_error):
        """Each code's severity; the samples stop only at errors."""
        self.execute("DROP TABLE users")
        self.execute(self.table_of.format(columns))
        (fault,) = self.accounts().examine()
        (of_remove,) = self.accounts().examine(Kind.REMOVE)
        self.assertEqual(of_remove.is_error, is_error in (True, None))
        self.assertEqual((fault.code, fault.is_error), (code, bool(is_error)))
        self.assertEqual(fault.severity.value, "error" if is_error else "warning")
        self.assertEqual(str(fault), fault.text)

    @each(
        ("TEXT", int, "name is TEXT, and keys are int"),
        *((it, str, f"name is {it}, and keys are str") for it in ("INTEGER", "DECIMAL(9)")),
        *((it, int, "") for it in ("BIGINT", "DECIMAL(9)", "BLOB")),
        *((it, str, "") for it in ("TEXT", "BLOB", "")),
        *((it, bytes, "") for it in ("VARCHAR(9)", "TEXT COLLATE NOCASE")),
    )
    def test_types_of_keys(self, column, kind, words):
        self.table(key=column)
        said = self.said(self.accounts(dialect=self.another_dialect(key_type=kind)))
        self.assertEqual(said[: len(words)] if words else said, words)

    def test_uncommitted_reads(self):
        self.server.path = f"file:{self.server.path}?cache=shared"
        connect = self.setting("PRAGMA read_uncommitted = 1", uri=True)
        said = ["read-uncommitted: read_uncommitted is on"]
        self.assert_faults(said, self.accounts(connect=connect))

    def test_journals(self):
        for mode in ("delete", "truncate", "persist", "memory", "off"):
            self.conn.execute(f"PRAGMA journal_mode = {mode}")
            with self.subTest(mode=mode):
                accounts = self.accounts(connect=self.setting(f"PRAGMA journal_mode = {mode}"))
                self.assert_faults(["no-wal: journal_mode isn't WAL"], accounts)
                accounts._connections.primary.close()

    def test_it_leaves_no_transaction_open(self):
        conn = self.another()
        accounts, missing = self.kept(conn=conn), ["no column users.name", "no column users.record"]
        for sql, words in (("SELECT 1", []), ("DROP TABLE users", missing)):
            self.conn.execute(sql)
            self.assert_faults(words, accounts)
            self.assertFalse(conn.in_transaction)


def lengths(varchar):
    """Tables of a server, whose type this is, with columns of records that are too short."""
    table = "name VARCHAR(150) PRIMARY KEY, record {}"
    cut, shorter = (it.format(varchar + "({})") for it in (CUT, SHORTER))
    return (
        (table.format("VARCHAR(60)"), cut.format(60), PUT),
        *((table.format(f"VARCHAR({it})"), cut.format(it)) for it in (96, 128, 151)),
        *((table.format(f"VARCHAR({it})"), shorter.format(it)) for it in (152, 255, 511)),
        *((table.format(it),) for it in ("VARCHAR(512)", "TEXT")),
    )


class OnServer(Said):
    """The common tests of both servers' tables."""

    def assert_no_account(self, accounts, text, **more):
        """A login at an unknown name answers NO_ACCOUNT, after a hash."""
        with self.hashes(1):
            self.assertIs(accounts.login(text, "x", **more), Reply.NO_ACCOUNT)
        self.assertIs(accounts.reset(text, "x"), Reply.NO_ACCOUNT)

    @each(
        *(("", rows, it, PUT) for rows in (0, 1) for it in ("SELECT", "SELECT, INSERT")),
        *(("", it, "SELECT, UPDATE") for it in (0, 1)),
        ("", 1, "SELECT, INSERT, UPDATE"),
        (", mail INT NOT NULL", 1, "SELECT", PUT),
        (", mail INT NOT NULL", 1, "SELECT, INSERT, UPDATE"),
    )
    def test_roles(self, row):
        """An empty table doesn't show a role's rights; the server does."""
        more, rows, grants, *words = row
        self.execute("DROP TABLE IF EXISTS users")
        table = f"name VARCHAR(150) PRIMARY KEY, record VARCHAR(512){more}"
        self.execute(self.table_of.format(table))
        for _ in range(rows):
            self.execute(f"INSERT INTO users VALUES ('ann', NULL{', 1' if more else ''})")
        self.assert_faults(words, self.accounts(connect=self.of_role(grants)))

    def test_views(self):
        self.execute("CREATE VIEW people AS SELECT * FROM users")
        self.addCleanup(self.execute, "DROP VIEW people")
        accounts = self.accounts(dialect=self.another_dialect(table="people"))
        self.assert_faults([NOT_UNIQUE, "not-a-table: people is no table"], accounts)

    def test_names_of_tables_and_columns(self):
        """`examine` finds the same table as a statement."""
        ours = "table_name = 'users' AND table_schema IN ('public', 'store')"
        here = self.execute(f"SELECT table_schema FROM information_schema.tables WHERE {ours}")
        for names, *words in (
            ({"table": f"{here[0][0]}.users"},),
            ({"table": "nowhere"}, "no column nowhere.name", "no column nowhere.record"),
            ({"table": "nowhere.users"}, "no column", "no column"),
            ({"record": "password"}, "no column users.password"),
        ):
            with self.subTest(names=names):
                self.assert_faults(words, self.accounts(dialect=self.another_dialect(**names)))
        numbers = self.accounts(dialect=self.another_dialect(key_type=int))
        self.assertIn("and keys are int", self.said(numbers))

    def test_a_replica(self):
        """A replica that refuses, one that is down, and one without a fault."""
        for grants, *words in (("SELECT",), ("UPDATE", "replica-refuses: skipping the replica")):
            replica = PerThread(self.of_role(grants))
            self.addCleanup(replica.close)
            self.assert_faults(words, self.accounts(replica=replica))
        away = PerThread(mock.Mock(side_effect=ConnectionRefusedError("nobody there")))
        said = "replica-away: skipping the replica: ConnectionRefusedError"
        self.assert_faults([f"{said}: nobody there"], self.accounts(replica=away))


NOTHING, COMMITS = "CREATE RULE r AS ON UPDATE TO users DO INSTEAD NOTHING", "synchronous_commit"
UNSAFE = f"not-durable: {COMMITS} is"
INVALID = "UPDATE pg_index SET indisvalid = false WHERE indexrelid = 'i'::regclass"
# The trial has shown the effect of a trigger before the write.
BEFORE = (
    f"{engines.BEFORE_UPDATE} FOR EACH ROW EXECUTE FUNCTION suppress_redundant_updates_trigger()"
)
POSTGRES_TABLES = (
    *lengths("character varying"),
    ("name char(20) PRIMARY KEY, record text", BLANKS),
    *((f"name {it} PRIMARY KEY, record text", CASE) for it in ("citext", "text COLLATE ci")),
    ("name text COLLATE ai PRIMARY KEY, record text", ACCENTS),
    *((f"name {it} PRIMARY KEY, record text",) for it in ("name", "short")),
    (f"{TEXTS}; {INDEX} (name) WHERE record IS NULL", NOT_UNIQUE),
    *((f"{TEXTS}; {INDEX} ({it})", SLOW) for it in OF_ONE_CASE),
    *((f"{TEXTS}; {INDEX} (({it}))", NOT_UNIQUE) for it in OF_MORE),
    (f"name varchar(90), record text; {INDEX} (lower(name))", SLOW),
    (f"{TEXTS}, EXCLUDE (name WITH =)",),
    (f"{TEXTS}, EXCLUDE (name WITH =) WHERE (record = 'x')", NOT_UNIQUE),
    (f"{TEXTS}, EXCLUDE (record WITH =)", NOT_UNIQUE),
    (f"{TEXTS}; {INDEX} (name) INCLUDE (record)",),
    # The index is invalid, as after CREATE UNIQUE INDEX CONCURRENTLY found a key twice.
    (f"{TEXTS}; {INDEX} (name); {INVALID}", NOT_UNIQUE),
    (
        "name text PRIMARY KEY, record char(300)",
        "character(300)",
        "from the one that the UPDATE wrote",
    ),
    ("name text PRIMARY KEY, record bytea", "record is bytea, not text", "the record is not text"),
    ("name text PRIMARY KEY, record citext",),
    ("name other.ci PRIMARY KEY, record other.ci", CASE),
    ("name text PRIMARY KEY, record short", SHORTER.format("character varying(200)")),
    ("name text PRIMARY KEY, record bound", "NOT NULL"),
    (f"{TEXT_KEY}; ALTER TABLE users ADD {SHORT} NOT VALID", f"{PUT}CheckViolation 23514"),
    (f"{TEXT_KEY}; {NOTHING}", f"{PUT}FeatureNotSupported"),
    (f"{TEXT_KEY}; {BEFORE}",),
    (f"{TEXT_KEY}; ALTER TABLE users SET UNLOGGED", "not-durable: users is unlogged"),
    (f"{TEXT_KEY}; ALTER TABLE users ENABLE ROW LEVEL SECURITY", "row-security: row security"),
)


class OnPostgres(OnServer, engines.OnPostgres, support.Base):
    refused, tables = "CheckViolation 23514", POSTGRES_TABLES
    settings = (
        *((f"SET {COMMITS} = {it}",) for it in ("remote_apply", "on")),
        *((f"SET {COMMITS} = {it}", f"{UNSAFE} {it}") for it in ("off", "local", "remote_write")),
    )

    def test_tables(self):
        self.execute(
            "CREATE SCHEMA IF NOT EXISTS other; DROP DOMAIN IF EXISTS short, bound, other.ci;"
            " CREATE DOMAIN short AS varchar(200); CREATE DOMAIN bound AS text NOT NULL;"
            " CREATE DOMAIN other.ci AS citext CHECK (length(VALUE) < 513);"
            " CREATE COLLATION IF NOT EXISTS ai"
            " (provider = icu, locale = 'und-u-ks-level1-kc-true', deterministic = false)"
        )
        super().test_tables()

    def test_heirs(self):
        self.execute("CREATE TABLE heirs () INHERITS (users)")
        self.addCleanup(self.execute, "DROP TABLE heirs")
        self.assert_faults(["key-not-unique: no index of users holds"])

    def test_encodings(self):
        """No account can have a name that a database's encoding lacks, and a login with it costs a
        hash; texts aren't bytes."""
        given = "TEMPLATE template0 LC_COLLATE 'C' LC_CTYPE 'C' ENCODING"
        as_bytes = "encoding: client_encoding is SQL_ASCII: the driver returns text as bytes"
        others = ((it, LATIN.format(it)) for it in ("LATIN1", "EUC_JP"))
        for encoding, *words in (("UTF8",), *others, ("SQL_ASCII", as_bytes)):
            name = f"en{encoding.lower()}"
            self.execute(f"CREATE DATABASE {name} {given} '{encoding}'")
            self.addCleanup(self.execute, f"DROP DATABASE {name} WITH (FORCE)")
            for more in ({}, {"client_encoding": "UTF8"}):
                connect = self.setting(dbname=name, **more)
                with contextlib.closing(connect()) as conn, self.subTest(encoding=encoding):
                    self.execute("DROP TABLE IF EXISTS users", conn=conn)
                    self.execute(self.dialect.create(), conn=conn)
                    accounts = self.accounts(connect=connect)
                    is_ascii = encoding == "SQL_ASCII"
                    unicode = [LATIN.format(encoding)] if is_ascii else words
                    self.assert_faults(unicode if more else words, accounts)
                    for text in ("an\U0001f600", "\u0436ora", "\u0e01"):
                        self.assert_no_account(accounts, text)

    @each("fsync", "full_page_writes")
    def test_settings_of_the_server(self, name):
        self.server.set(**{name: "off"})
        try:
            self.assert_faults([f"not-durable: {name} is off"])
        finally:
            self.server.set(**{name: "on"})
        self.assert_faults([])


COLLATED = "name VARCHAR(90) CHARACTER SET {} COLLATE {} PRIMARY KEY, record TEXT"
ENGINE = f"{KEY} PRIMARY KEY, {RECORD}; ALTER TABLE users ENGINE={{}}; {ROW.format(1)}"
ENGINES = ("MyISAM", "Aria", "MEMORY")
MARIADB_TABLES = (
    *lengths("varchar"),
    *(
        (COLLATED.format(it.partition("_")[0], it), *words)
        for it, *words in (
            ("utf8mb4_bin", BLANKS),
            ("utf8mb4_general_ci", CASE, BLANKS, ACCENTS),
            ("utf8mb4_unicode_ci", CASE, BLANKS, ACCENTS),
            ("utf8mb4_unicode_nopad_ci", CASE, ACCENTS),
            ("utf8mb4_nopad_bin",),
            ("latin1_swedish_ci", LATIN.format("latin1"), CASE, BLANKS, ACCENTS),
            ("ascii_bin", LATIN.format("ascii"), BLANKS),
            *((f"{it}_nopad_bin", LATIN.format(it)) for it in ("latin1", "ascii", "utf8mb3")),
        )
    ),
    (f"{KEY}, record TEXT, UNIQUE (name(5))",),
    (f"{KEY}, record TEXT, UNIQUE (name(5), record(5))", NOT_UNIQUE),
    (f"{KEY}, record TEXT, KEY (name)", NOT_UNIQUE),
    (f"{KEY} PRIMARY KEY, record TINYTEXT", SHORTER.format("tinytext(255)")),
    (f"{KEY} PRIMARY KEY, record CHAR(255)", SHORTER.format("char(255)")),
    (f"{KEY} PRIMARY KEY, record TEXT CHARACTER SET ucs2", "is in ucs2"),
    # The trial doesn't run where the engine can't undo it.
    *((ENGINE.format(it), f"no-transactions: users is of {it}") for it in ENGINES),
    (f"{KEY} PRIMARY KEY, record VARBINARY(512)", "is varbinary, not text", "bytes"),
)


class OnMariaDB(OnServer, engines.OnMariaDB, support.Base):
    table_of = "CREATE TABLE users ({}) CHARACTER SET utf8mb4 COLLATE utf8mb4_nopad_bin"
    refused, tables = "OperationalError 4025", MARIADB_TABLES

    def test_keys_that_are_padded(self):
        """A BINARY(16) holds the bytes of a UUID; a wider column pads them, which no row shows."""
        for size, rows in ((16, 0), (20, 0), (20, 1)):
            self.table("TEXT", f"BINARY({size})")
            for _ in range(rows):
                self.execute(self.dialect.insert, bytes(20))
            dialect = self.another_dialect(key_type=bytes)
            self.assert_faults([], self.accounts(dialect=dialect))
        self.table("TEXT", "UUID")
        self.assert_faults([])

    def test_names_that_a_character_set_lacks(self):
        """No account can have a name that a character set lacks, and a login with it costs a hash;
        a connection's set may lack the name too."""
        key = "VARCHAR(90) CHARACTER SET {} COLLATE {}"
        tables = [(it, it, "utf8mb4") for it in ("latin1", "ascii", "utf8mb3")]
        connections = [(it, "utf8mb4", it) for it in ("latin1", "utf8")]
        for lacking, charset, connection in (*tables, *connections):
            self.table("TEXT", key.format(charset, f"{charset}_nopad_bin"))
            accounts = self.accounts(connect=self.setting(charset=connection))
            with self.subTest(charset=charset, connection=connection):
                self.assertIn(f"a name outside of {lacking}", self.said(accounts))
                for more in ({}, {"also": lambda conn, reply: None}):
                    self.assert_no_account(accounts, "an\U0001f600", **more)

    def test_settings(self):
        name = "innodb_flush_log_at_trx_commit"
        self.addCleanup(self.server.as_root, f"SET GLOBAL {name} = 1")
        for value in (0, 2, 1):
            self.server.as_root(f"SET GLOBAL {name} = {value}")
            with self.subTest(value=value):
                self.assert_faults([] if value == 1 else [f"{name} is {value}"])
