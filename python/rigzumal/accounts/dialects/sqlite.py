"""SQLite, with sqlite3 (for asyncio, with aiosqlite)."""

from __future__ import annotations

import os
import sqlite3
from collections.abc import Iterator
from typing import Any, Final

from rigzumal.accounts._session import Session
from rigzumal.accounts.types import StoreFault
from rigzumal.accounts.dialects._dialect import NO_TRANSACTION, POWER_CUT_LOSES, Dialect
from rigzumal.accounts.dialects._dialect import Mode, Verdict, other_driver
from rigzumal.accounts.dialects._faults import Fault, Findings, error, not_durable
from rigzumal.accounts.dialects._faults import warning


_BUSY: Final = (5, 6)  # SQLITE_BUSY, SQLITE_LOCKED
_FULL: Final = (13,)  # SQLITE_FULL
_LOOKED_AT: Final = 1000  # rows in which to look for records that aren't text
_NEEDED: Final = 8 << 20  # bytes: first the log grows, to 1,000 pages of 4 KiB, and then the file


class Sqlite(Dialect):
    """SQLite with sqlite3. Each connection needs a busy timeout of some seconds."""

    mark = "?"
    quote = "`"  # SQLite reads a word in double quotes as a text if no column has that name
    drivers = ("sqlite3", "aiosqlite")
    # Not deferred: SQLite refuses at once, without waiting, a transaction that has read and then
    # writes, if another has written since.
    begin = "BEGIN IMMEDIATE"
    key_sql = "TEXT"
    _same = "{record} COLLATE BINARY IS {mark}"

    def mode(self, conn: Any) -> Mode:
        # SQLAlchemy's own connections have a method of this name.
        has_transaction = getattr(conn, "in_transaction", None)
        if not isinstance(has_transaction, bool):
            raise other_driver(conn, "sqlite3")
        # Python 3.12 and later have the attribute; -1 means the older way.
        autocommit = getattr(conn, "autocommit", -1)
        if autocommit == -1:
            autocommit = conn.isolation_level is None
        return Mode(autocommit is True, has_transaction)

    def fresh(self, conn: Any) -> None:
        # For sqlite3's own connections this is enough, and each login runs it.
        is_own = type(conn) is sqlite3.Connection
        if not is_own or conn.in_transaction or conn.isolation_level is not None:
            super().fresh(conn)

    async def within(self, session: Session) -> None:
        # Even outside autocommit, no transaction is open before the first change.
        if not self.mode(session.conn).has_transaction:
            raise StoreFault(NO_TRANSACTION)

    async def undo(self, session: Session) -> None:
        if session.conn.in_transaction:
            await session.execute("ROLLBACK")

    def verdict(self, raised: BaseException) -> Verdict:
        if not isinstance(raised, sqlite3.OperationalError):
            return Verdict.REFUSED
        is_busy = _is_of(raised, _BUSY, "locked")
        return Verdict.AGAIN if is_busy else Verdict.REFUSED

    def gave_up(self, raised: BaseException) -> bool:
        # SQLite judges a deferred constraint, and finds a full disk, at COMMIT. SQLite writes the
        # mark of the commit last, so the mark is missing then.
        is_full = _is_of(raised, _FULL, "is full")
        return super().gave_up(raised) or isinstance(raised, sqlite3.IntegrityError) or is_full

    def number(self, raised: BaseException) -> str:
        return str(getattr(raised, "sqlite_errorname", ""))

    def missing_name(self, raised: BaseException) -> str:
        text = str(raised)
        return text if text.startswith(("no such table: ", "no such column: ")) else ""

    async def examine(self, session: Session) -> Findings:
        schema, _, table = self.table_name.rpartition(".")
        in_schema = (schema,) if schema else ()
        mark = ", ?" if schema else ""  # for the schema
        info = f"pragma_table_xinfo(?{mark})"  # with generated columns
        columns_of = f'SELECT name, type, "notnull", pk FROM {info}'
        found = await session.execute(columns_of, table, *in_schema)
        # SQLite ignores the case of column names.
        spelled = {name.lower(): name for name in (self.record_name, self.key_name)}
        columns = {spelled.get(row[0].lower(), row[0]): row[1:] for row in found.rows}
        missing = self.missing(columns)
        if missing:
            return Findings(missing, is_usable=False)
        kind, _, _ = columns[self.key_name]
        nullable = not columns[self.record_name][1]
        master = f"{self.quoted(schema or 'main')}.sqlite_master"
        sql = _UNIQUE.format(master=master, of=mark)
        found = await session.execute(sql, table, *in_schema, *in_schema)
        key = self.key_name.lower()
        unique = ["" if column == key else text for column, text in found.rows]
        if [name for name, (_, _, is_primary) in columns.items() if is_primary] == [self.key_name]:
            unique.append("")  # INTEGER PRIMARY KEY has no index
        faults = [*self._type_faults(kind)]
        faults += self.common_faults(nullable, unique)
        view = f"SELECT 1 FROM {master} WHERE type = 'view' AND lower(name) = lower(?)"
        if (await session.execute(view, table)).rows:
            faults.append(error("not-a-table", f"{self.table_name} is no table"))
        for (found_type,) in (await session.execute(self._others())).rows:
            faults.append(self.record_fault(f"a {found_type} in some row, not text"))
        triggers = await session.execute(
            f"SELECT name FROM {master} WHERE type = 'trigger'"
            " AND lower(tbl_name) = lower(?) AND upper(sql) LIKE '%AFTER%'",
            table,
        )
        faults += self.after_triggers(triggers.rows)
        seen = {}
        for name in _PRAGMAS:
            ((value,),) = (await session.execute(f"PRAGMA {name}")).rows
            seen[name] = value
        faults += [*of_connection(seen), *await self.folded_names(session)]
        listed = (await session.execute("PRAGMA database_list")).rows
        for _, name, path in listed:
            if name.lower() == (schema or "main").lower():
                faults += of_disk(path)
        return Findings(faults)

    def _others(self) -> str:
        """Builds a query that finds records other than text in the first rows. SQLite allows such
        records in a column of any type."""
        rows = f"SELECT typeof({self.record}) AS type FROM {self.table} LIMIT {_LOOKED_AT}"
        return f"SELECT DISTINCT type FROM ({rows}) WHERE type NOT IN ('text', 'null')"

    def _type_faults(self, declared: str) -> Iterator[Fault]:
        """Reports a column whose type makes SQLite compare '07' as 7, or 7 as '7'."""
        words = declared.upper()
        holds: type = float
        if "INT" in words:
            holds = int
        elif any(it in words for it in ("CHAR", "CLOB", "TEXT")):
            holds = str
        elif not words or "BLOB" in words:
            holds = bytes
        fits = {str: (str, bytes), int: (int, float, bytes)}
        yield from self.key_faults(declared, holds in fits.get(self.key_type, (holds,)))


def _is_of(raised: BaseException, codes: tuple[int, ...], text: str) -> bool:
    """Whether an error has one of these codes; before Python 3.11, only the text shows the code."""
    code = getattr(raised, "sqlite_errorcode", None)
    return text in str(raised) if code is None else code & 0xFF in codes


# The indexes of all rows with one part; a part that is an expression has no name.
_UNIQUE: Final = (
    "SELECT lower(x.name), coalesce(m.sql, '-') FROM pragma_index_list(?{of}) AS i"
    " JOIN pragma_index_xinfo(i.name{of}) AS x ON x.key = 1"
    " LEFT JOIN {master} AS m ON m.name = i.name"
    ' WHERE i."unique" AND NOT i.partial GROUP BY i.name HAVING count(*) = 1'
)
_PRAGMAS: Final = ("synchronous", "busy_timeout", "journal_mode", "read_uncommitted")


def of_disk(path: str) -> Iterator[Fault]:
    """Reports a full disk, which the trial doesn't detect in WAL mode: there only COMMIT writes.

    SQLite reports neither a user's quota nor the disk of a database in memory.
    """
    try:
        found = os.statvfs(path)
    except OSError:
        return
    free = found.f_bavail * found.f_frsize
    if found.f_blocks and free < _NEEDED:
        yield warning("disk-full", f"the disk has {free >> 10} KiB free: changes may fail")


def of_connection(seen: dict[str, Any]) -> Iterator[Fault]:
    """Yields the faults that a SQLite connection's pragmas show."""
    if seen["synchronous"] < 2:
        yield not_durable(f"synchronous is below FULL: {POWER_CUT_LOSES}")
    if seen["busy_timeout"] < 1000:
        yield warning("busy-timeout", "the busy timeout is below a second")
    if seen["journal_mode"] != "wal":
        yield warning("no-wal", "journal_mode isn't WAL: logins fail while another client writes")
    if seen["read_uncommitted"]:
        text = "read_uncommitted is on: operations would read uncommitted records"
        yield error("read-uncommitted", text)
