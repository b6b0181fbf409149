"""An engine's statements, its transactions, the meaning of its errors, and its faults."""

from __future__ import annotations

import enum
import itertools
import re
from collections.abc import Collection, Container, Iterable, Iterator, Mapping
from collections.abc import Sequence
from typing import Any, ClassVar, Final, NamedTuple, Optional

from rigzumal.accounts._session import Result, Session
from rigzumal.accounts.dialects._faults import FOLDED, Fault, Findings, error, warning
from rigzumal.accounts.types import Copy, Key, StoreFault

LONGEST_RECORD: Final = 512  # bytes
LONGEST_WRITTEN: Final = 152  # bytes of a record of accounts, with the longest salt
NOT_NULL: Final = "record-not-null"
CRASH_LOSES: Final = "a crash loses acknowledged changes"
POWER_CUT_LOSES: Final = "a power cut loses acknowledged changes"
ANOTHER_RECORD: Final = "the row's record differs from the one that the UPDATE wrote"
NO_TRANSACTION: Final = "no transaction is open on the connection"
LEFT_OPEN: Final = (
    "a transaction is open on the connection: after any exception, the pool must close the"
    " connection, or roll it back"
)
_BIGINT: Final = 2**63
Line = tuple[Key, str]
"""An account with its record."""
_IN_NO_COLUMN: Final = re.compile("[\0\ud800-\udfff]")


class Verdict(enum.Enum):
    """The meaning of a driver's error that occurred before the program sent COMMIT."""

    AGAIN = "the server rolled the transaction back: try again"
    ELSEWHERE = "the server accepts no changes now: try another server, or try later"
    LOST = "this connection is broken; another may work"
    REFUSED = "the server rejects the statement, and would reject it again"


def is_of_driver(raised: BaseException) -> bool:
    """Whether the driver or the network raised the error, instead of the program."""
    if isinstance(raised, OSError):
        return True
    return any(kind.__name__ == "Error" for kind in type(raised).__mro__)


def other_driver(conn: Any, wanted: str) -> StoreFault:
    """Returns the StoreFault for a connection that another driver opened."""
    found = type(conn).__module__.partition(".")[0]
    more = ": pass of_engine(engine)" if found == "sqlalchemy" else ""
    return StoreFault(f"the driver is {found} instead of {wanted}{more}")


class Mode(NamedTuple):
    """The mode of a connection."""

    is_autocommit: bool
    has_transaction: bool
    has_failed: bool = False  # whether the caller swallowed an error in the transaction


class Dialect:
    """The statements for one table, and the properties of an engine.

    A dialect contains the names of the service's own table and columns, but no connection. Each
    statement compares the record byte by byte, and treats NULL as equal to NULL.

    Args:
        table: the table's name, preceded by its schema if that isn't on the search path.
        key: the column that names an account, and is unique.
        record: the column of the records, which may be NULL.
        key_type: the Python type of the key column: str, int or bytes; on PostgreSQL also
            uuid.UUID.

    Attributes:
        key, record: the columns, in the form for statements.
        select: the statement that reads the record of a key.
        locked: the same statement, with the UPDATE's lock on the row until the transaction ends. A
            weaker lock, which two logins can hold, deadlocks if both then update the row.
        update: writes a record if the row has the copy; its values are record, key, copy.
        at_once: writes a whole change, and commits or undoes the change; empty if the engine has no
            such statement.
        insert: adds the account of a key, without a record.
        every: reads all keys and records.
        returns: whether the UPDATE returns the record that it wrote.
        drivers: the modules whose errors are the driver's; if empty, each `Error` of the
            DB-API is one.
        execute_options: keywords of the driver's `execute`.
    """

    mark, quote = "%s", '"'
    begin, commit_sql = "START TRANSACTION", "COMMIT"
    key_types: ClassVar[tuple[type, ...]] = (str, int, bytes)
    key_sql, bytes_sql = "VARCHAR(255)", "VARBINARY(255)"
    returns = False
    drivers: ClassVar[tuple[str, ...]] = ()
    execute_options: ClassVar[Mapping[str, Any]] = {}
    # The comparison; the clause that locks a row until the transaction's end; and the clause of an
    # INSERT that leaves an existing row as it is.
    _same, _lock, _unless_exists = "", "", " ON CONFLICT DO NOTHING"

    def __init__(self, table: str, key: str, record: str, key_type: type = str) -> None:
        if key_type not in self.key_types:
            names = ", ".join(it.__name__ for it in self.key_types)
            found = getattr(key_type, "__name__", repr(key_type))
            raise TypeError(f"keys here are of {names}, not {found}")
        self.table_name, self.key_name, self.record_name = table, key, record
        self.key_type = key_type
        self.table = ".".join(map(self.quoted, table.split(".")))
        self.key, self.record = self.quoted(key), self.quoted(record)
        of_key = f"WHERE {self.key} = {self.mark}"
        same = self._same.format(record=self.record, mark=self.mark)
        self.select = f"SELECT {self.record} FROM {self.table} {of_key}"
        self.locked = self.select + self._lock
        self.update = f"UPDATE {self.table} SET {self.record} = {self.mark} {of_key} AND {same}"
        if self.returns:
            self.update += f" RETURNING {self.record}"
        self.at_once = self._at_once()
        self.insert = f"INSERT INTO {self.table} ({self.key}) VALUES ({self.mark})"
        columns = f"{self.key}, {self.record}"
        self.every = self.alone(f"SELECT {columns} FROM {self.table} ORDER BY {self.key}")

    def _at_once(self) -> str:
        return ""

    # ---- statements of many rows, each with its values

    def adding(self, lines: Sequence[Line]) -> Sequence[Any]:
        """Adds accounts with their records, except accounts that exist."""
        rows = ", ".join([f"({self.mark}, {self.mark})"] * len(lines))
        sql = f"INSERT INTO {self.table} ({self.key}, {self.record}) VALUES {rows}"
        return (sql + self._unless_exists.format(key=self.key), *itertools.chain(*lines))

    def enrolling(self, lines: Sequence[Line]) -> Sequence[Any]:
        """Writes records into rows without a record."""
        cases = f" WHEN {self.mark} THEN {self.mark}" * len(lines)
        keys = ", ".join([self.mark] * len(lines))
        sql = f"UPDATE {self.table} SET {self.record} = CASE {self.key}{cases} END"
        sql += f" WHERE {self.key} IN ({keys}) AND {self.record} IS NULL"
        return (sql, *itertools.chain(*lines), *(key for key, _ in lines))

    def standing(self, keys: Sequence[Key]) -> Sequence[Any]:
        """Reads keys and records of the rows with these keys."""
        marks = ", ".join([self.mark] * len(keys))
        sql = f"SELECT {self.key}, {self.record} FROM {self.table} WHERE {self.key} IN ({marks})"
        return (sql, *keys)

    async def add_all(self, session: Session, lines: Sequence[Line]) -> Optional[list[str]]:
        """Adds many accounts in the engine's own way, in an open transaction, if it has such a way.

        Returns "added", "there" or "another" for each, or None if the engine has no such way.
        """
        return None

    def rows_of(self, conn: Any, sql: str) -> Iterator[tuple[Any, ...]]:
        """Yields the rows of a statement without values, one at a time as the server sends them: a
        table may be large."""
        cursor = conn.cursor()
        cursor.execute(sql)
        yield from iter(cursor.fetchone, None)
        cursor.close()

    # ---- names

    def quoted(self, name: str) -> str:
        """Quotes the name of a table or a column for a statement."""
        doubled = name.replace(self.quote, self.quote * 2)
        if self.mark == "%s":
            doubled = doubled.replace("%", "%%")
        return f"{self.quote}{doubled}{self.quote}"

    def alone(self, sql: str) -> str:
        """Returns a statement without values, in a form in which no driver searches for
        placeholders."""
        return sql.replace("%%", "%") if self.mark == "%s" else sql

    def check_key(self, key: object) -> None:
        """Raises TypeError for a key whose type differs from the column's.

        MariaDB's `name = 0` finds every name that begins with no digit.
        """
        if type(key) is not self.key_type:
            wanted = self.key_type.__name__
            raise TypeError(f"a key must be {wanted}, not {type(key).__name__}")

    def can_stand(self, key: object) -> bool:
        """Whether a column can store the key; otherwise no such account exists."""
        if isinstance(key, str):
            return key.isprintable() or not _IN_NO_COLUMN.search(key)
        return not isinstance(key, int) or -_BIGINT <= key < _BIGINT

    def check_new_key(self, key: object) -> None:
        """Raises ValueError for a name that only existing accounts may have."""
        if not isinstance(key, str):
            return
        bare = key.strip()
        if not bare:
            raise ValueError("the name is empty")
        if key != bare:
            raise ValueError("the name begins or ends with a blank")
        if key[0] == "\ufeff":
            raise ValueError("the name begins with a byte order mark")

    # ---- connections

    def mode(self, conn: Any) -> Mode:
        """Returns the mode of a connection. Raises StoreFault if another driver opened the
        connection, and ConnectionError if it is closed."""
        raise NotImplementedError

    def fresh(self, conn: Any) -> None:
        """Refuses a connection that isn't in autocommit or has a transaction open."""
        mode = self.mode(conn)
        if not mode.is_autocommit:
            raise StoreFault("the pool's connections must be in autocommit")
        if mode.has_transaction:
            raise StoreFault(LEFT_OPEN)

    async def within(self, session: Session) -> None:
        """Refuses a caller's connection in autocommit, and a transaction with a wrong isolation
        level."""
        mode = self.mode(session.conn)
        if mode.is_autocommit and not mode.has_transaction:
            raise StoreFault(NO_TRANSACTION)

    async def prepare(self, session: Session) -> None:
        """Prepares a session before its first use: the settings on which operations rely."""

    # ---- statements

    async def start(self, session: Session) -> None:
        """Begins a transaction."""
        await session.execute(self.begin)

    async def put(self, session: Session, after: Copy, key: Key, copy: Copy) -> Result:
        """Writes a record if the row has the copy; also writes an equal record."""
        return await session.execute(self.update, after, key, copy)

    async def put_at_once(self, session: Session, after: Copy, key: Key, copy: Copy) -> int:
        """Writes a record in one statement that commits. Returns the number of affected rows."""
        raise NotImplementedError

    async def commit(self, session: Session) -> None:
        """Commits the transaction, and raises an exception if the change may be lost."""
        await session.execute(self.commit_sql)

    async def hold(self, session: Session) -> None:
        """Marks an open transaction before a caller's hook, for `is_held`."""

    async def is_held(self, session: Session) -> bool:
        """Whether the open transaction is the marked one: a hook may begin another."""
        return True

    async def settle(self, session: Session) -> None:
        """Checks the constraints that COMMIT would check, in a trial, which never commits."""

    async def undo(self, session: Session) -> None:
        """Rolls back an open transaction."""
        await session.execute("ROLLBACK")

    # ---- errors

    def verdict(self, raised: BaseException) -> Verdict:
        """Returns the meaning of a driver's error that occurred before the program sent COMMIT."""
        raise NotImplementedError

    def refuses_connection(self, raised: BaseException) -> bool:
        """Whether a server, by an error without a number, refused a connection and will again."""
        return False

    def is_drivers(self, raised: BaseException) -> bool:
        """Whether the driver raised the error, instead of the caller's code."""
        if not self.drivers:
            return is_of_driver(raised) and not isinstance(raised, OSError)
        return type(raised).__module__.partition(".")[0] in self.drivers

    def lacks_key(self, raised: BaseException, key: Key) -> bool:
        """Whether the column's character set lacks the key: then no such account exists."""
        return isinstance(raised, UnicodeEncodeError)

    def gave_up(self, raised: BaseException) -> bool:
        """Whether the answer to a COMMIT says that the server undid the change."""
        return self.verdict(raised) is Verdict.AGAIN

    def refuses_at_once(self, raised: BaseException) -> bool:
        """Whether the server undid the statement: a transaction may then succeed, or show the
        reason."""
        return False

    def only_reads(self, conn: Any) -> bool:
        """Whether the settings of a connection, and of the next one, forbid changes."""
        return False

    def number(self, raised: BaseException) -> str:
        """Returns the server's number of an error, whose text may quote the refused row."""
        return ""

    def missing_name(self, raised: BaseException) -> str:
        """Returns the server's message if a table, a column or a right is missing. Otherwise the
        text is empty, since other messages may quote a row."""
        return ""

    # ---- tables

    def create(self) -> str:
        """Returns the statement that creates a table without faults."""
        kinds = {str: self.key_sql, int: "BIGINT", bytes: self.bytes_sql}
        key = f"{self.key} {kinds.get(self.key_type, 'UUID')} NOT NULL PRIMARY KEY"
        record = f"{self.record} VARCHAR({LONGEST_RECORD})"
        return self.alone(f"CREATE TABLE {self.table} ({key}, {record})")

    async def examine(self, session: Session) -> Findings:
        """Returns the faults that the catalogue and the settings show."""
        raise NotImplementedError

    # ---- faults that a table of any engine may have

    def missing(self, found: Container[str]) -> list[Fault]:
        """Returns a fault for each column that the table lacks."""
        return [
            error("no-column", f"no column {self.table_name}.{name}")
            for name in (self.key_name, self.record_name)
            if name not in found
        ]

    def common_faults(self, nullable: bool, unique: Collection[str]) -> Iterator[Fault]:
        """Yields the faults that a table in any engine may have.

        `unique` has the expression of each unique index with one part: "" for the key itself.
        """
        if not nullable:
            text = f"{self.record_name} is NOT NULL: no account can be without a record"
            yield warning(NOT_NULL, f"{text}, so each `remove` fails")
        if "" in unique:
            return
        if any(self._is_of_one_case(it) for it in unique):
            text = f"{self.key_name} has no index: each lookup reads the whole table"
            yield warning("key-not-indexed", text)
        else:
            text = f"{self.key_name} has no unique index of its own"
            said = "operations refuse a name that two rows have"
            yield error("key-not-unique", f"{text}: {said}")

    def _is_of_one_case(self, indexed: str) -> bool:
        """Whether an index is of lower(key) or upper(key), which also allows one row for each
        key."""
        name = rf"\(?[\"`\[]?{re.escape(self.key_name)}[\"`\]]?\)?"
        form = rf"(^|ON[^()]*\()(lower|upper)\({name}(::text)?\)\)?$"
        return bool(re.search(form, "".join(indexed.split()), re.I))

    def after_triggers(self, rows: Iterable[Sequence[object]]) -> Iterator[Fault]:
        """Reports triggers that run after the write: a trial shows the effect of other triggers."""
        for (name,) in rows:
            text = f"the trigger {name} may change a record after its UPDATE"
            yield warning("after-trigger", text)

    def key_faults(self, kind: str, fits: bool) -> Iterator[Fault]:
        """Reports a column with keys of another type."""
        if not fits:
            wanted = self.key_type.__name__
            yield error("key-type", f"{self.key_name} is {kind}, and keys are {wanted}")

    def record_fault(self, text: str) -> Fault:
        """Reports a column that can't store a record unchanged."""
        return error("record-type", f"{self.record_name} is {text}")

    def length_faults(self, kind: str, length: int) -> Iterator[Fault]:
        """Reports a column that is too short for records of accounts, or of other programs."""
        if length < LONGEST_WRITTEN:
            yield self.record_fault(f"{kind}: a record has up to {LONGEST_WRITTEN} bytes")
        elif length < LONGEST_RECORD:
            text = f"another program's record has up to {LONGEST_RECORD} bytes"
            yield warning("record-length", f"{self.record_name} is {kind}: {text}")

    def alphabet_faults(self, charset: str, unicode: Container[str]) -> Iterator[Fault]:
        """Reports a character set that can't represent all names."""
        if self.key_type is str and charset not in unicode:
            text = f"no account can have a name outside of {charset}"
            yield warning("key-not-unicode", text)

    async def folded_names(self, session: Session) -> list[Fault]:
        """Reports names that the key column treats as one account, but a limiter as two.

        The column of a union has the collation of its first part, so the test needs no row.
        """
        faults: list[Fault] = []
        none = f"SELECT {self.key} FROM {self.table} WHERE 1 = 0"
        for found, how, name in FOLDED if self.key_type is str else ():
            sample = f"({none} UNION ALL SELECT 'rigzumal') AS sample"
            sql = f"SELECT {self.key} = '{name}' FROM {sample}"
            try:
                ((is_same,),) = (await session.execute(self.alone(sql))).rows
            except Exception:
                continue  # a column in ASCII holds no accents
            if is_same:
                text = f"{self.key_name} confuses names that differ {how}"
                faults.append(found("names-folded", text))
        return faults
