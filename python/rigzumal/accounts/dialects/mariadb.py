"""MariaDB and MySQL, with PyMySQL."""

from __future__ import annotations

import socket
import weakref
from collections.abc import Iterator
from typing import Any, Final, Optional

from rigzumal.accounts._session import Result, Session
from rigzumal.accounts.types import Copy, Key, StoreFault
from rigzumal.accounts.dialects._dialect import ANOTHER_RECORD, CRASH_LOSES
from rigzumal.accounts.dialects._dialect import POWER_CUT_LOSES, Dialect, Mode, Verdict
from rigzumal.accounts.dialects._dialect import other_driver
from rigzumal.accounts.dialects._faults import Fault, Findings, error, not_durable
from rigzumal.accounts.dialects._faults import warning

UNCOMMITTED: Final = "READ UNCOMMITTED: operations would read uncommitted records"
NOBODYS_RECORD: Final = f"$argon2id$v=19$m=8,t=1,p=1$bm9ib2R5J3M${'A' * 43}"
"""A placeholder for "no record", only within a transaction."""

# 1213: a deadlock, or Galera's certification failed; 1205: the wait for a lock was too long; 1020:
# the row has changed since it was read; 3024: MySQL's max_execution_time.
_AGAIN: Final = frozenset({1213, 1205, 1020, 3024})
_TIME_IS_OVER: Final = 1969  # max_statement_time: after a COMMIT this error proves nothing
_NOTHING_DONE: Final = 1205
_NO_SAVEPOINT: Final = 1305
# 1290, 1836: the server is read only; 1040, 1203: too many clients, or too many of this user.
_ELSEWHERE: Final = frozenset({1290, 1836, 1040, 1203})
# 0 and 2xxx: the connection broke; 4031: it was idle for too long; 1047: a Galera node outside of
# the majority; 1053, 1317, 1927: the server stops, or somebody killed the thread.
_LOST: Final = {0, 2002, 2003, 2006, 2013, 2055, 4031, 1047, 1053, 1317, 1927}
_BROKEN: Final = (ConnectionError, TimeoutError, socket.timeout)
# Errors of a COMMIT that may be in the log all the same: 1180, 1181: an error during COMMIT or
# ROLLBACK; 1021, 1026, 1030: a full disk, an error of writing, an error of the engine.
_UNKNOWN: Final = frozenset({1021, 1026, 1030, 1180, 1181, _TIME_IS_OVER})

# No such table or column, and no right to it.
_MISSING: Final = (1146, 1054, 1142, 1143)
_UNICODE: Final = ("utf8mb4", "utf16", "utf16le", "utf32")
# A text that the server can't compare with the column: its characters aren't in the column's set.
_LACKS: Final = (1267, 3988)


class StatementTimeout(OSError):
    """max_statement_time ended the statement, and the server undid it."""


class MariaDB(Dialect):
    """MariaDB with PyMySQL.

    With a column's collation, 'a' = 'A' and 'a' = 'a ' may be true, so statements compare bytes.
    The server doesn't count rows that an UPDATE leaves unchanged, unless the client requests
    FOUND_ROWS. Since each record has a fresh salt, the count is right in both cases.
    """

    quote = "`"
    key_sql = "VARCHAR(255) CHARACTER SET utf8mb4 COLLATE utf8mb4_nopad_bin"
    drivers = ("pymysql",)
    # Under REPEATABLE READ, the default, a plain SELECT reads the state at the first read of the
    # caller's transaction.
    _lock = " FOR UPDATE"
    # INSERT IGNORE would store a truncated record.
    _unless_exists = " ON DUPLICATE KEY UPDATE {key} = {key}"
    _same = "CAST({record} AS BINARY) <=> CAST({mark} AS BINARY)"

    def __init__(self, table: str, key: str, record: str, key_type: type = str) -> None:
        super().__init__(table, key, record, key_type)
        self._prepared: weakref.WeakSet[Any] = weakref.WeakSet()

    def mode(self, conn: Any) -> Mode:
        if not hasattr(conn, "server_status"):
            raise other_driver(conn, "PyMySQL")
        if not conn.open:
            raise ConnectionError("the connection is closed")
        if not getattr(conn, "use_unicode", True):
            raise StoreFault("use_unicode is False: the driver returns text as bytes")
        is_open = bool(conn.server_status & 1)  # SERVER_STATUS_IN_TRANS
        return Mode(conn.get_autocommit(), has_transaction=is_open)

    async def prepare(self, session: Session) -> None:
        if session.conn in self._prepared:
            return
        found = await session.execute("SHOW SESSION VARIABLES LIKE 't%isolation'")
        if any(level.upper().startswith("READ-UNC") for _, level in found.rows):
            raise StoreFault(UNCOMMITTED)
        self._prepared.add(session.conn)

    def _at_once(self) -> str:
        # The transaction of several statements, as one statement that the server runs.
        look = f"SELECT {self.record} INTO stands FROM {self.table} WHERE {self.key} = %s"
        is_put = "CAST(stands AS BINARY) <=> CAST(%s AS BINARY)"
        return (
            "BEGIN NOT ATOMIC DECLARE touched INT; DECLARE stands LONGTEXT;"
            " DECLARE EXIT HANDLER FOR SQLEXCEPTION BEGIN ROLLBACK; RESIGNAL; END;"
            f" START TRANSACTION; {self.update}; SET touched = ROW_COUNT();"
            f" IF touched = 1 THEN {look};"
            f" IF NOT {is_put} THEN SET touched = -1; END IF; END IF;"
            " IF touched = 1 THEN COMMIT; ELSE ROLLBACK; END IF;"
            " SELECT touched; END"
        )

    async def put_at_once(self, session: Session, after: Copy, key: Key, copy: Copy) -> int:
        values = (after, key, copy, key, after)
        try:
            ((touched,),) = (await session.execute(self.at_once, *values)).rows
            return int(touched)
        except Exception as raised:
            if _number(raised) != _TIME_IS_OVER:
                raise
        # The statement may have ended before the COMMIT, within it, or just after it.
        await self.undo(session)
        stands = (await session.execute(self.select, key)).rows
        if stands == [(copy,)]:
            raise StatementTimeout(_NOTHING_DONE, "max_statement_time is over")
        if stands == [(after,)]:
            return 1
        fault = "max_statement_time ended the statement, but the row has another record"
        raise ConnectionError(fault)

    def refuses_at_once(self, raised: BaseException) -> bool:
        if _number(raised) == 1064:
            self.at_once = ""  # MySQL has no such statement
            return True
        return self.gave_up(raised) and self.verdict(raised) is Verdict.REFUSED

    async def put(self, session: Session, after: Copy, key: Key, copy: Copy) -> Result:
        if after != copy:
            return await super().put(session, after, key, copy)
        # An UPDATE to an equal value writes nothing, and its COMMIT waits for no disk.
        other = None if copy is not None else NOBODYS_RECORD
        result = await session.execute(self.update, other, key, copy)
        if result.affected != 1:
            return result
        result = await session.execute(self.update, copy, key, other)
        if result.affected != 1:
            # The caller rolls back: at this point the row holds nobody's record.
            raise StoreFault(ANOTHER_RECORD)
        return result

    async def hold(self, session: Session) -> None:
        # A hook's BEGIN commits the open transaction, which removes the savepoint.
        await session.execute("SAVEPOINT rigzumal_also")

    async def is_held(self, session: Session) -> bool:
        try:
            await session.execute("RELEASE SAVEPOINT rigzumal_also")
        except Exception as raised:
            if _number(raised) != _NO_SAVEPOINT:
                raise
            return False
        return True

    def rows_of(self, conn: Any, sql: str) -> Iterator[tuple[Any, ...]]:
        from pymysql.cursors import SSCursor  # the default reads all rows first

        with conn.cursor(SSCursor) as cursor:
            cursor.execute(sql)
            yield from iter(cursor.fetchone, None)

    def verdict(self, raised: BaseException) -> Verdict:
        number = _number(raised)
        if number in _AGAIN or number == _TIME_IS_OVER:
            return Verdict.AGAIN
        if number in _ELSEWHERE:
            return Verdict.ELSEWHERE
        if number in _LOST or isinstance(raised, _BROKEN):
            return Verdict.LOST
        return Verdict.REFUSED

    def lacks_key(self, raised: BaseException, key: Key) -> bool:
        return super().lacks_key(raised, key) or _number(raised) in _LACKS

    def gave_up(self, raised: BaseException) -> bool:
        # After an error at COMMIT the server has rolled back, except after these.
        number = _number(raised)
        if number is None or number in _UNKNOWN:
            return False
        return self.verdict(raised) is not Verdict.LOST

    def number(self, raised: BaseException) -> str:
        return str(_number(raised) or "")

    def missing_name(self, raised: BaseException) -> str:
        is_missing = _number(raised) in _MISSING and len(raised.args) > 1
        return str(raised.args[1]) if is_missing else ""

    async def examine(self, session: Session) -> Findings:
        schema, _, table = self.table_name.rpartition(".")
        found = await session.execute(_COLUMNS, schema, table)
        columns = {name: more for name, *more in found.rows}
        missing = self.missing(columns)
        if missing:
            return Findings(missing, is_usable=False)
        unique = await session.execute(_UNIQUE, schema, table, self.key_name)
        kind, length, charset, nullable = columns[self.record_name]
        faults = [*self.common_faults(nullable == "YES", [text for (text,) in unique.rows])]
        kind_of_key, _, charset_of_key, _ = columns[self.key_name]
        faults += self._type_faults(kind_of_key, kind, length, charset)
        ((engine,),) = (await session.execute(_ENGINE, schema, table)).rows
        if engine is None:
            faults.append(error("not-a-table", f"{table} is no table"))
        elif engine != "InnoDB":
            text = f"{table} is of {engine}, which has no transactions"
            said = "a failed change, or the rows of a hook, may remain"
            faults.append(error("no-transactions", f"{text}: {said}"))
        rows = (await session.execute("SHOW SESSION VARIABLES")).rows
        seen = {name: value for name, value in rows}
        charsets = [charset_of_key]
        if seen["character_set_client"] != charset_of_key:
            charsets.append(seen["character_set_client"])
        for name in charsets:
            faults += self.alphabet_faults(name or "utf8mb4", _UNICODE)
        faults += [*of_server(seen), *await self.folded_names(session)]
        return Findings(faults, engine == "InnoDB", shown_early(seen))

    def _type_faults(
        self, key: str, kind: str, length: Optional[int], charset: Optional[str]
    ) -> Iterator[Fault]:
        texts = ("char", "varchar", "tinytext", "text", "mediumtext", "longtext")
        if kind not in texts:
            yield self.record_fault(f"{kind}, not text")
        else:
            yield from self.length_faults(f"{kind}({length})", length or 0)
        if charset and charset not in ("ascii", "latin1", "utf8mb3", "utf8mb4", "utf8"):
            yield self.record_fault(f"in {charset}, whose bytes aren't those of ASCII")
        kinds = {
            str: ("char", "varchar", "text", "uuid", "enum"),
            int: ("tinyint", "smallint", "mediumint", "int", "bigint"),
            bytes: ("binary", "varbinary", "blob"),
        }
        yield from self.key_faults(key, key in kinds[self.key_type])


class MySQL(MariaDB):
    """MySQL with PyMySQL: like MariaDB, but without compound statements outside of a routine."""

    key_sql = "VARCHAR(255) CHARACTER SET utf8mb4 COLLATE utf8mb4_0900_bin"

    def _at_once(self) -> str:
        return ""


def shown_early(seen: dict[str, str]) -> tuple[Fault, ...]:
    """Without a binary log InnoDB shows a commit before its own log is on the disk."""
    if "ON" in (seen.get("log_bin"), seen.get("wsrep_on")):
        return ()
    text = "log_bin is OFF: a crash may undo a change that a login has used"
    return (warning("shown-early", text),)


def of_server(seen: dict[str, str]) -> Iterator[Fault]:
    """Yields the faults of a MariaDB session."""
    if "STRICT_" not in seen["sql_mode"]:
        yield warning("not-strict", "sql_mode isn't strict: the server truncates long values")
    level = seen.get("tx_isolation") or seen.get("transaction_isolation", "")
    if level == "READ-UNCOMMITTED":
        yield error("read-uncommitted", UNCOMMITTED)
    for name in ("innodb_flush_log_at_trx_commit", "innodb_doublewrite"):
        if seen.get(name, "1") not in ("1", "ON"):
            yield not_durable(f"{name} is {seen[name]}: {CRASH_LOSES}")
    # With a binary log, the server rolls back a transaction that isn't in it after a power cut.
    if seen.get("log_bin") == "ON" and seen.get("sync_binlog") != "1":
        yield not_durable(f"sync_binlog is {seen.get('sync_binlog')}: {POWER_CUT_LOSES}")
    if seen.get("wsrep_on") == "ON" and not int(seen["wsrep_sync_wait"]) & 1:
        text = "wsrep_sync_wait lacks bit 1: a node may read outdated records"
        yield error("no-sync-wait", text)


def _number(raised: BaseException) -> Optional[int]:
    first = raised.args[0] if raised.args else None
    return first if isinstance(first, int) else None


_OF: Final = "table_schema = COALESCE(NULLIF(%s, ''), DATABASE()) AND table_name = %s"
_COLUMNS: Final = (
    "SELECT column_name, data_type, character_maximum_length, character_set_name,"
    f" is_nullable FROM information_schema.columns WHERE {_OF}"
)
# If the first letters are unique, the whole names are.
_UNIQUE: Final = (
    f"SELECT '' FROM information_schema.statistics WHERE {_OF} AND non_unique = 0"
    " GROUP BY index_name HAVING COUNT(*) = 1 AND MAX(column_name) = %s"
)
_ENGINE: Final = f"SELECT engine FROM information_schema.tables WHERE {_OF}"
