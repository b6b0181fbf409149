"""PostgreSQL, and servers with its protocol, with psycopg 3."""

from __future__ import annotations

import re
import uuid
from collections.abc import Iterator, Sequence
from typing import Any, Final

from rigzumal.accounts._session import Result, Session
from rigzumal.accounts.dialects._dialect import ANOTHER_RECORD, CRASH_LOSES, Dialect
from rigzumal.accounts.dialects._dialect import Line, Mode, Verdict, other_driver
from rigzumal.accounts.dialects._faults import Fault, Findings, error, not_durable
from rigzumal.accounts.dialects._faults import warning
from rigzumal.accounts.types import Copy, Key, StoreFault

# 40001: a serialization failure; 40P01: a deadlock; 55P03: lock_timeout; 57014: statement_timeout.
_AGAIN: Final = frozenset({"40001", "40P01", "55P03", "57014"})
# 25006: a standby, or a session that only reads; 53300: the server has too many clients.
_ELSEWHERE: Final = frozenset({"25006", "53300"})
# 08: the connection broke; 57P0x: the server stops, has crashed or starts; 25P03: the transaction
# was idle for too long. The statement sent before such an error may have taken effect.
_LOST: Final = ("08", "57P0", "25P03")
_UNKNOWN: Final = "40003"  # the server doesn't know the statement's outcome
_LACKS: Final = ("22P05", "22021")  # characters that the server's encoding doesn't have
# What the server, or PgBouncer, says of a name or a password that it will refuse again.
_REFUSES: Final = re.compile(
    r"\" does not exist|authentication failed|no pg_hba\.conf entry|not permitted to log in"
    r"|permission denied|no such (database|user)"
)
# A text that a type refuses; and the server's function that reads an enum's names.
_NO_VALUE: Final = "22P02"
_READS_ENUM: Final = "enum_in"
_QUOTES: Final = "\"'\u00ab\u00bb\u201c\u201d\u201e\u00a0 "  # in translated messages
# The server's own function that warns of a cancelled wait; the server translates the message.
_WAIT_FOR_STANDBY: Final = "SyncRepWaitForLSN"
_COPY: Final = "COPY rigzumal_came (number, name, made) FROM STDIN"
# No such table, column or schema, and no right to it.
_MISSING: Final = ("42P01", "42703", "3F000", "42501")
STATEMENT_MODE: Final = (
    "PgBouncer's pool_mode is statement, which has no transactions: set it to transaction"
    " or session"
)


class Postgres(Dialect):
    """PostgreSQL with psycopg 3, blocking or asynchronous.

    The UPDATE returns the record that it wrote, so that no second read is necessary; RETURNING
    doesn't show the effect of an AFTER trigger.
    """

    # A fixed level, whatever the session's default is: under READ COMMITTED, an UPDATE that waited
    # for a row checks its condition again. READ WRITE would write into a database that its
    # administrator has set to read only.
    begin = "BEGIN ISOLATION LEVEL READ COMMITTED"
    key_types = (str, int, bytes, uuid.UUID)
    key_sql = "TEXT"
    bytes_sql = "BYTEA"
    returns = True
    drivers = ("psycopg",)
    # PgBouncer may send the next statement to a session that hasn't prepared it.
    execute_options = {"prepare": False}
    # With this lock, other tables' rows may still refer to the account.
    _lock = " FOR NO KEY UPDATE"
    _same = '{record}::text COLLATE "C" IS NOT DISTINCT FROM {mark}::text'

    def mode(self, conn: Any) -> Mode:
        # SQLAlchemy's own connections have a different `info`.
        is_psycopgs = hasattr(getattr(conn, "info", None), "transaction_status")
        if not (is_psycopgs and hasattr(conn, "prepare_threshold")):
            raise other_driver(conn, "psycopg 3")
        status = conn.info.transaction_status
        if status == 4:  # UNKNOWN
            raise ConnectionError("the connection is closed")
        # 0: IDLE; 3: INERROR
        return Mode(conn.autocommit, status != 0, has_failed=status == 3)

    async def within(self, session: Session) -> None:
        await super().within(session)
        # A change whose snapshot is older than a session's row doesn't see that row, and can't end
        # it.
        found = await session.execute("SHOW transaction_isolation")
        if found.rows == [("repeatable read",)]:
            fault = "the transaction is REPEATABLE READ"
            raise StoreFault(f"{fault}: use READ COMMITTED or SERIALIZABLE")

    async def start(self, session: Session) -> None:
        try:
            return await super().start(session)
        except Exception as raised:
            if "statement pooling mode" not in str(raised):
                raise
        raise StoreFault(STATEMENT_MODE)

    def _at_once(self) -> str:
        # If the row has another value than the statement wrote, the statement divides by zero, and
        # the server undoes it.
        same = f'{self.record}::text COLLATE "C" = %s::text'
        size = f"octet_length({self.record}) = octet_length(%s::text)"
        update = self.update.rpartition(" RETURNING ")[0]
        one = f"(SELECT count(*) FROM {self.table} WHERE {self.key} = %s) = 1"
        # If a trigger has set the record to NULL, neither comparison is true or false.
        is_put = f"COALESCE({same} AND {size}, false)"
        return f"{update} AND {one} RETURNING 1 / {is_put}::int"

    async def put_at_once(self, session: Session, after: Copy, key: Key, copy: Copy) -> int:
        values = (after, key, copy, key, after, after)
        return (await self._committed(session, self.at_once, *values)).affected

    def refuses_at_once(self, raised: BaseException) -> bool:
        # 42 and 0A: the server refuses the statement; 22012: the row has another value than the
        # statement wrote.
        state = self.number(raised)
        return state[:2] in ("42", "0A") or state == "22012"

    def only_reads(self, conn: Any) -> bool:
        # From PostgreSQL 14 on, the server reports both settings with each connection.
        setting = conn.info.parameter_status
        is_frozen: bool = setting("default_transaction_read_only") == "on"
        return is_frozen and bool(setting("in_hot_standby") != "on")

    async def commit(self, session: Session) -> None:
        done = await self._committed(session, self.commit_sql)
        # COMMIT of a failed transaction answers ROLLBACK, and raises no exception.
        if done.status != "COMMIT":
            raise StoreFault(f"the server answered {done.status} to COMMIT")

    async def _committed(self, session: Session, sql: str, *values: object) -> Result:
        """Runs a statement that commits, and raises an exception if the standby may lack the
        change."""
        warnings: list[str] = []

        def handler(notice: Any) -> None:
            # Outside of its handler a notice is empty. A trigger may warn too.
            is_warning = notice.severity_nonlocalized == "WARNING"
            if is_warning and notice.source_function in (_WAIT_FOR_STANDBY, None, ""):
                warnings.append(notice.sqlstate or "")

        session.conn.add_notice_handler(handler)
        try:
            done = await session.execute(sql, *values)
        finally:
            session.conn.remove_notice_handler(handler)
        # After a cancelled wait for the standby, the server answers COMMIT, with a warning.
        if warnings:
            raise ConnectionError("committed on the primary, but perhaps not on the standby")
        return done

    async def add_all(self, session: Session, lines: Sequence[Line]) -> list[str]:
        """Adds the records of lines with COPY. Returns "added", "there" or "another" for each line.

        Raises an exception if the server stored a record other than the line's.
        """
        for sql in self._came:
            await session.execute(sql)
        with session.conn.cursor() as cursor, cursor.copy(_COPY) as copy:
            for number, line in enumerate(lines):
                copy.write_row((number, *line))
        await session.execute(self._put_all)
        words = ["added"] * len(lines)
        for number, was_put, is_same in (await session.execute(self._others)).rows:
            if was_put or is_same is None:
                raise StoreFault(ANOTHER_RECORD)
            words[number] = "there" if is_same else "another"
        return words

    @property
    def _came(self) -> tuple[str, str]:
        """Returns the statements that create temporary tables for the lines and for the stored
        ones."""
        columns = f"0 AS number, {self.key} AS name, {self.record}::text AS made"
        came = f"AS SELECT {columns} FROM {self.table} LIMIT 0"
        return (
            self.alone(f"CREATE TEMPORARY TABLE rigzumal_came ON COMMIT DROP {came}"),
            "CREATE TEMPORARY TABLE rigzumal_put (number int) ON COMMIT DROP",
        )

    @property
    def _put_all(self) -> str:
        """Builds the statement that stores each name's first record in a row without a record, in
        the order of the names."""
        came = "SELECT DISTINCT ON (name) * FROM rigzumal_came ORDER BY name, number"
        add = (
            f"INSERT INTO {self.table} ({self.key}, {self.record})"
            f" SELECT name, made FROM came ON CONFLICT DO NOTHING RETURNING {self.key} AS name"
        )
        enrol = (
            f"UPDATE {self.table} AS kept SET {self.record} = came.made FROM came"
            f" WHERE kept.{self.key} = came.name AND kept.{self.record} IS NULL"
            " RETURNING came.number"
        )
        found = "SELECT number FROM came JOIN added USING (name) UNION ALL SELECT * FROM enrolled"
        return self.alone(
            f"WITH came AS ({came}), added AS ({add}), enrolled AS ({enrol})"
            f" INSERT INTO rigzumal_put {found}"
        )

    @property
    def _others(self) -> str:
        """Builds the statement that finds unstored lines, and lines whose row has another
        record."""
        same = f'kept.{self.record}::text COLLATE "C" = came.made'
        joined = "rigzumal_came AS came LEFT JOIN rigzumal_put AS put USING (number)"
        return self.alone(
            f"SELECT came.number, put.number IS NOT NULL, {same} FROM {joined}"
            f" LEFT JOIN {self.table} AS kept ON kept.{self.key} = came.name"
            f" WHERE put.number IS NULL OR ({same}) IS NOT TRUE"
        )

    def rows_of(self, conn: Any, sql: str) -> Iterator[tuple[Any, ...]]:
        with conn.cursor() as cursor:
            yield from cursor.stream(sql)

    async def settle(self, session: Session) -> None:
        await session.execute("SET CONSTRAINTS ALL IMMEDIATE")

    def verdict(self, raised: BaseException) -> Verdict:
        state = self.number(raised)
        if state in _AGAIN:
            return Verdict.AGAIN
        if state in _ELSEWHERE:
            return Verdict.ELSEWHERE
        if state.startswith(_LOST) or isinstance(raised, ConnectionError):
            return Verdict.LOST
        names = {kind.__name__ for kind in type(raised).__mro__}
        is_broken = not state and names & {"OperationalError", "InterfaceError"}
        return Verdict.LOST if is_broken else Verdict.REFUSED

    def refuses_connection(self, raised: BaseException) -> bool:
        # Here psycopg has no state, only libpq's text. A server that starts or is full, or one that
        # translates its texts, is asked again.
        return not self.number(raised) and _REFUSES.search(str(raised)) is not None

    def lacks_key(self, raised: BaseException, key: Key) -> bool:
        if self.number(raised) == _NO_VALUE:
            # With a key of another type, only a policy of the rows, say, can cause this error,
            # perhaps for an enum of its own: the message ends with the refused text.
            diagnosis = getattr(raised, "diag", None)
            said = str(getattr(diagnosis, "message_primary", None)).rstrip(_QUOTES)
            is_key = isinstance(key, str) and said.endswith(key.rstrip(_QUOTES))
            return is_key and getattr(diagnosis, "source_function", None) == _READS_ENUM
        return super().lacks_key(raised, key) or self.number(raised) in _LACKS

    def gave_up(self, raised: BaseException) -> bool:
        # After an ERROR the server has rolled back. After FATAL and PANIC the server answers no
        # more, and its log may have the commit.
        state = self.number(raised)
        severity = getattr(getattr(raised, "diag", None), "severity_nonlocalized", None)
        if not state or state == _UNKNOWN or severity not in (None, "ERROR"):
            return False
        return self.verdict(raised) is not Verdict.LOST

    def number(self, raised: BaseException) -> str:
        return getattr(raised, "sqlstate", None) or ""

    def missing_name(self, raised: BaseException) -> str:
        if self.number(raised) not in _MISSING:
            return ""
        return str(getattr(getattr(raised, "diag", None), "message_primary", None) or "")

    async def examine(self, session: Session) -> Findings:
        table = self.table.replace("%%", "%")
        if session.conn.info.encoding == "ascii":
            text = "client_encoding is SQL_ASCII: the driver returns text as bytes"
            return Findings([error("encoding", text)], is_usable=False)
        found = await session.execute(_COLUMNS, table)
        columns = {name: more for name, *more in found.rows}
        missing = self.missing(columns)
        if missing:
            return Findings(missing, is_usable=False)
        unique = (await session.execute(_UNIQUE, self.key_name, table)).rows
        kind, bound = columns[self.record_name]
        faults = [*self.common_faults(not bound, [text for (text,) in unique])]
        faults += self._type_faults(columns[self.key_name][0], kind)
        triggers = await session.execute(_TRIGGERS, table)
        faults += self.after_triggers(triggers.rows)
        kinds = await session.execute(_TABLE, table)
        ((is_table, secured, sees_none, is_logged, has_heirs),) = kinds.rows
        if has_heirs:
            text = f"no index of {self.table_name} holds the keys of its child tables"
            faults.append(error("key-not-unique", text))
        if not is_table:
            faults.append(error("not-a-table", f"{self.table_name} is no table"))
        if not is_logged:
            text = f"{self.table_name} is unlogged: a crash empties it"
            faults.append(not_durable(text))
        if sees_none:
            text = "row security hides every row from this role, which has no policy"
            faults.append(error("row-security", text))
        elif secured:
            text = "row security may show fewer rows to an UPDATE than to a SELECT"
            faults.append(warning("row-security", text))
        for name, good in _DURABLE:
            ((value,),) = (await session.execute(f"SHOW {name}")).rows
            if value not in good:
                faults.append(not_durable(f"{name} is {value}: {CRASH_LOSES}"))
        ((encoding,),) = (await session.execute("SHOW server_encoding")).rows
        faults += self.alphabet_faults(encoding, ("UTF8",))
        faults += await self.folded_names(session)
        return Findings(faults, is_usable=is_table)

    def _type_faults(self, key: str, record: str) -> Iterator[Fault]:
        # The name of an extension's type begins with its schema, if that isn't on the search path.
        key = key.rpartition(".")[2]
        record = record.rpartition(".")[2]
        if record.startswith("character varying("):
            yield from self.length_faults(record, int(record[18:-1]))
        elif record not in ("text", "character varying", "citext"):
            yield self.record_fault(f"{record}, not text")
        kinds = {
            str: ("text", "character", "citext", "name", "enum"),
            int: ("bigint", "integer", "smallint", "numeric"),
            bytes: ("bytea",),
            uuid.UUID: ("uuid",),
        }
        yield from self.key_faults(key, key.startswith(kinds[self.key_type]))


# A column of a domain has the domain's base type, and the domain's NOT NULL.
_COLUMNS: Final = (
    "WITH RECURSIVE found AS (SELECT attname, atttypid AS kind, atttypmod AS size,"
    " attnotnull AS bound FROM pg_attribute"
    " WHERE attrelid = to_regclass(%s) AND attnum > 0 AND NOT attisdropped"
    " UNION ALL SELECT attname, typbasetype, greatest(size, typtypmod),"
    " bound OR typnotnull FROM found JOIN pg_type ON oid = kind WHERE typtype = 'd')"
    " SELECT attname, CASE typtype WHEN 'e' THEN 'enum' ELSE format_type(kind, size) END, bound"
    " FROM found JOIN pg_type ON oid = kind WHERE typtype <> 'd'"
)
# An AFTER trigger for each row: bit 0 is ROW, 1 BEFORE, 6 INSTEAD OF.
_TRIGGERS: Final = (
    "SELECT tgname FROM pg_trigger WHERE tgrelid = to_regclass(%s)"
    " AND NOT tgisinternal AND tgtype::int & 66 = 0"
)
_TABLE: Final = (
    "SELECT relkind IN ('r', 'p') AS is_table, relrowsecurity,"
    " row_security_active(c.oid) AND NOT EXISTS (SELECT FROM pg_policy, unnest(polroles) AS whose"
    " WHERE polrelid = c.oid AND polpermissive AND polcmd IN ('r', '*') AND"
    " CASE whose WHEN 0 THEN true ELSE pg_has_role(whose, 'USAGE') END) AS sees_none,"
    " relpersistence = 'p' AS is_logged, relkind = 'r' AND EXISTS"
    " (SELECT 1 FROM pg_inherits WHERE inhparent = c.oid) AS has_heirs"
    " FROM pg_class AS c WHERE oid = to_regclass(%s)"
)
# An EXCLUDE constraint with only = is as good as UNIQUE.
_UNIQUE: Final = (
    "SELECT CASE WHEN a.attnum = i.indkey[0] THEN ''"
    " ELSE pg_get_indexdef(i.indexrelid, 1, true) END"
    " FROM pg_index i JOIN pg_attribute a ON a.attrelid = i.indrelid AND a.attname = %s"
    " LEFT JOIN pg_constraint c ON c.conindid = i.indexrelid AND c.contype = 'x'"
    " LEFT JOIN pg_operator o ON o.oid = c.conexclop[1]"
    " WHERE i.indrelid = to_regclass(%s) AND i.indisvalid AND i.indpred IS NULL"
    " AND i.indnkeyatts = 1 AND (i.indisunique OR o.oprname = '=')"
)
_DURABLE: Final = (
    ("synchronous_commit", ("on", "remote_apply")),
    ("fsync", ("on",)),
    ("full_page_writes", ("on",)),
)
