"""Reads all rows of a table, and adds rows in batches, for the shell command."""

from __future__ import annotations

import contextlib
import itertools
import operator
import pathlib
import re
import shutil
import sys
import tempfile
import time
from collections import Counter
from collections.abc import Callable, Iterable, Iterator, Sequence
from dataclasses import dataclass
from typing import IO, Any, Final, Optional, Union

from rigzumal import InvalidRecordError, _library
from rigzumal._parts import none_of_ours
from rigzumal._commands import Refusal, Status, say
from rigzumal.accounts._accounts import Accounts
from rigzumal.accounts._session import Session, run
from rigzumal.accounts.dialects._dialect import ANOTHER_RECORD, Dialect, Line
from rigzumal.accounts.types import Key, Kind, Reply, Request, StoreFault, Ticket
from rigzumal.accounts.types import Worked
from rigzumal.accounts.pools import Pool

BATCH = 50_000  # lines of an import that one COMMIT stores
SHARE = 1000  # lines that one statement adds
FEW = 200  # lines that one statement puts into existing rows: it compares each key with all
_KEY: Final[Callable[[Line], Any]] = operator.itemgetter(0)
_NO_UTF8: Final = re.compile("[\udc80-\udcff]")


@dataclass(frozen=True)
class Rows:
    """The rows of a table."""

    pool: Pool
    dialect: Dialect

    def every(self) -> Iterator[tuple[Any, Optional[str]]]:
        """Yields each name with its record, in the order of the names, as the server sends them."""
        with self.pool() as conn:
            for name, record in self.dialect.rows_of(conn, self.dialect.every):
                yield name, record

    def delete(self, key: Key) -> bool:
        """Deletes the account with its row. Returns False if the account doesn't exist."""
        return self._changed("DELETE FROM {table} WHERE {key} = {mark}", key)

    def rename(self, key: Key, new: Key) -> bool:
        """Renames the account. Returns False if the account doesn't exist.

        Raises the driver's IntegrityError if another account has the name.
        """
        return self._changed("UPDATE {table} SET {key} = {mark} WHERE {key} = {mark}", new, key)

    def _changed(self, form: str, *values: Key) -> bool:
        """Runs a statement in its own transaction. Returns whether the statement changed a row."""
        dialect = self.dialect
        if not all(map(dialect.can_stand, values)):
            return False
        sql = form.format(table=dialect.table, key=dialect.key, mark=dialect.mark)
        with self.pool() as conn:
            session = Session(conn)
            run(dialect.start(session))
            affected = run(session.execute(sql, *values)).affected
            run(dialect.commit(session))
        return affected > 0


@dataclass
class Import:
    """Adds accounts with their records, one transaction for each batch."""

    accounts: Accounts
    dialect: Dialect
    pool: Pool
    takes_foreign: bool = False  # records of other schemes, for a hook to judge
    are_new: bool = True  # whether all names so far were new
    copies: bool = True  # whether the engine still accepts batches in its own way

    def take(self, file: pathlib.Path, key_of: Callable[[str], Key]) -> dict[str, int]:
        """Adds the accounts in lines "NAME RECORD", and counts the outcomes.

        The command reads all lines before it adds the first account, and raises Refusal for a bad
        line. Then it reads the lines again, batch by batch, and reports each account with another
        record on standard error.
        """
        with _read_twice(file) as lines:
            total = self._checked(self._records(lines, key_of))
            lines.seek(0)
            return self._taken(self._records(lines, key_of), total)

    def _checked(self, records: Iterable[Line]) -> int:
        """Returns the number of lines, and reports each name with a space, which may be a
        mistake."""
        total, spaced, first = 0, 0, ""
        for total, (key, _) in enumerate(records, 1):
            if isinstance(key, str) and " " in key:
                spaced += 1
                first = first or f"line {total}: {shown(key)!r} has a space"
        if spaced:
            say(f"{first}; names with a space: {spaced}")
        return total

    def _taken(self, records: Iterator[Line], total: int) -> dict[str, int]:
        """Adds the records of this many lines, batch by batch, and counts the outcomes."""
        begun, done, counts = time.monotonic(), 0, Counter[str]()
        while done < total:
            try:
                batch = [*itertools.islice(records, BATCH)]
                words = self.put(batch)
            except Exception:
                say(f"the lines from {done + 1} on may be missing")
                raise
            if not batch:
                raise Refusal(f"the file had {total} lines, and now has {done}")
            counts.update(words)
            for number, word in enumerate(words):
                if word == "another":
                    name = shown(batch[number][0])
                    say(f"line {done + number + 1}: {name} has another record, which stays")
            done += len(batch)
            _progress(done, total, begun)
        return {word: counts[word] for word in ("added", "there", "another")}

    def _records(self, lines: Iterable[str], key_of: Callable[[str], Key]) -> Iterator[Line]:
        """Yields the names and records of lines."""
        is_text, fault_of = self.dialect.key_type is str, _library.record_fault
        for number, line in enumerate(lines, 1):
            line = line.rstrip("\r\n")
            name, _, record = line.rpartition(" ")
            # Most names have no blank, and nothing else for which `_record` refuses one.
            is_plain = is_text and name and name.isprintable() and " " not in name
            if is_plain and record.isascii() and "\0" not in record:
                if fault_of(record.encode()) == _library.OK:
                    yield name, record
                    continue
            try:
                yield self._record(line, key_of)
            except Refusal as refusal:
                raise Refusal(f"line {number}: {refusal}") from None

    def _record(self, line: str, key_of: Callable[[str], Key]) -> Line:
        name, _, record = line.rpartition(" ")
        if not line.isascii() and _NO_UTF8.search(line):
            raise Refusal("the line is not UTF-8")
        if not name.strip():
            raise Refusal('a line is "NAME RECORD", with a space and no colon')
        key = key_of(name)
        try:
            _library.check_text(record)
        except InvalidRecordError as fault:
            # A column of ours holds 1 to 512 letters of ASCII without blanks.
            is_held = 0 < len(record) <= 512 and all("!" <= it <= "~" for it in record)
            if not (self.takes_foreign and is_held):
                raise Refusal(why(record, fault)) from None
        return key, record

    def put(self, batch: Sequence[Line]) -> list[str]:
        """Adds a batch in one transaction. Returns "added", "there" or "another" for each line."""
        with self.pool() as conn:
            session = Session(conn)
            run(self.dialect.start(session))
            words = self._by_copy(session, batch) or self._by_shares(session, batch)
            run(self.dialect.commit(session))
        return words

    def _by_copy(self, session: Session, batch: Sequence[Line]) -> Optional[list[str]]:
        """Writes a large batch in the engine's own way. Returns None if the engine has no such way,
        or refuses the batch."""
        if len(batch) <= SHARE or not self.copies:
            return None
        try:
            return run(self.dialect.add_all(session, batch))
        except Exception:
            # Perhaps the role may create no temporary table: statements for all engines follow.
            self.copies = False
            run(self.dialect.undo(session))
            run(self.dialect.start(session))
        return None

    def _by_shares(self, session: Session, batch: Sequence[Line]) -> list[str]:
        """Writes a batch with large statements: first as if all names were new, then without that
        assumption.

        If both attempts fail, the method writes line by line, which shows the account with the
        fault.
        """
        # In the order of the names, which is the index's: the server reads each of its pages once.
        lines = sorted(batch, key=_KEY)
        shares = [lines[it : it + SHARE] for it in range(0, len(lines), SHARE)]
        while True:
            try:
                said = (self._put_at_once(session, share) for share in shares)
                words = [*itertools.chain.from_iterable(said)]
                break
            except Exception:
                run(self.dialect.undo(session))
                run(self.dialect.start(session))
            if not self.are_new:
                return [self._named(session, *line) for line in batch]
            self.are_new = False
        return words if len({*words}) == 1 else _as_they_came(batch, words)

    def _put_at_once(self, session: Session, share: Sequence[Line]) -> list[str]:
        """Writes some lines with a few statements. Raises StoreFault if their rows have other
        records afterwards."""
        keys = [] if self.are_new else [key for key, _ in share]
        stands = dict(self._standing(session, keys))
        lines = [it for it in share if stands.get(it[0]) is None] if stands else share
        new = dict(lines)
        if len(new) < len(lines):
            new = dict(reversed(lines))  # among lines with one name, the first counts
        added = [it for it in new.items() if it[0] not in stands]
        enrolled = [it for it in new.items() if it[0] in stands] if stands else []
        if added:
            result = run(session.execute(*self.dialect.adding(added)))
            if self.are_new and result.affected != len(added):
                raise StoreFault(ANOTHER_RECORD)
        for start in range(0, len(enrolled), FEW):
            run(session.execute(*self.dialect.enrolling(enrolled[start : start + FEW])))
        # A trigger, a collation or another program may have come between.
        found = self._standing(session, [*new])
        if found != [*new.items()] and dict(found) != new:  # in another order perhaps
            raise StoreFault(ANOTHER_RECORD)
        if len(new) == len(share):
            return ["added"] * len(share)
        words = []
        for key, record in share:
            if key in new:
                words.append("added")
                stands[key] = new.pop(key)
            else:
                words.append("there" if stands[key] == record else "another")
        return words

    def _standing(self, session: Session, keys: Sequence[Key]) -> list[Any]:
        """Returns the rows of these keys, with their records or None."""
        if not keys:
            return []
        return run(session.execute(*self.dialect.standing(keys))).rows

    def _named(self, session: Session, key: Key, record: str) -> str:
        try:
            return self._put(session, key, record)
        except Exception:
            say(f"stopped at the account {shown(key)}")
            raise

    def _put(self, session: Session, key: Key, record: str) -> str:
        """Enrols an account in the open transaction, and adds the account if it doesn't exist."""
        if not run(session.execute(self.dialect.select, key)).rows:
            run(session.execute(self.dialect.insert, key))
        ticket = Ticket(Request(Kind.ENROL, key), None)
        worked = Worked(ticket, Reply.ENROLLED, record)
        answer = self.accounts.commit_in(session.conn, worked)
        if answer.reply is Reply.ENROLLED:
            return "added"
        if isinstance(answer.after, str):
            return "there" if answer.after == record else "another"
        kept = "no record of" if answer.after is None else "another name than"
        raise Refusal(f"the server stored {kept} {shown(key)}", Status.DATABASE)


def _as_they_came(batch: Sequence[Line], words: Sequence[str]) -> list[str]:
    """Returns the outcomes of a batch in the order of its lines, from the order of their names."""
    names: list[Any] = [name for name, _ in batch]
    places = sorted(range(len(batch)), key=names.__getitem__)
    ordered = [""] * len(batch)
    for place, word in zip(places, words):
        ordered[place] = word
    return ordered


@contextlib.contextmanager
def _read_twice(file: pathlib.Path) -> Iterator[IO[str]]:
    """Opens the lines of a file; a temporary file keeps a pipe's lines for the second reading."""
    given: dict[str, Any] = {"encoding": "utf-8", "errors": "surrogateescape"}
    with open(file, **given) as lines:
        if lines.seekable():
            yield lines
            return
        with tempfile.TemporaryFile("w+", **given) as copy:
            shutil.copyfileobj(lines, copy)
            copy.seek(0)
            yield copy


def line_of(name: object, record: Optional[str]) -> str:
    """Returns the line of an import, or "" if the account has no record or doesn't fit on a
    line."""
    text, line = str(name), f"{name} {record}"
    fits = text and record and line.isprintable() and " " not in record
    return line if fits and text == text.strip() else ""


def shown(name: object) -> str:
    """Returns a name in a form that is safe on a terminal, whatever characters its owner chose."""
    text = str(name)
    return text if text.isprintable() else ascii(text)


def why(record: object, fault: Union[InvalidRecordError, str]) -> str:
    """Returns the fault of a record, with the scheme of another program's record."""
    scheme = none_of_ours(record) if isinstance(record, str) else ""
    return f"{scheme}, and {fault}" if scheme else str(fault)


def _progress(done: int, total: int, begun: float) -> None:
    """Shows a progress bar on standard error, if that is a terminal and the import is long."""
    if not sys.stderr.isatty() or total <= BATCH:
        return
    took = time.monotonic() - begun
    left = took / done * (total - done)
    bar = "#" * (40 * done // total)
    end = "\n" if done == total else ""
    text = f"\r[{bar:40}] {done} of {total}, {left:.0f} s left "
    print(text, end=end, file=sys.stderr, flush=True)
