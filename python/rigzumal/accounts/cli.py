"""The shell command: python3 -m rigzumal accounts --database URL --table T
COMMAND.

At a terminal the command asks for a password; otherwise it reads the password
from standard input, without one newline at the end. `change` reads two lines:
the old password and the new one. The command refuses an empty password. The URL
may be in RIGZUMAL_DATABASE instead, so that no list of processes shows it.
Write these options before COMMAND or after it.

The exit statuses are those of credkeep: 0 success or yes, 1 a wrong argument, 2
reading or writing failed, 3 out of memory, 4 no, 5 the database failed or has a
fault, 6 refused input.
"""

from __future__ import annotations

import argparse
import contextlib
import functools
import json
import re
from collections.abc import Callable, Iterator, Sequence
from typing import Final, Optional

from rigzumal import InvalidRecordError, RigzumalError, opaque_string
from rigzumal._commands import Refusal, Status, ended, hint, say, status_of
from rigzumal.accounts._accounts import Accounts
from rigzumal.accounts._judgement import DAMAGED_HINT, FOREIGN_HINT
from rigzumal.accounts._import import Import, Rows, line_of, shown, why
from rigzumal.accounts._report import as_prometheus, costs_of, report
from rigzumal.accounts._session import Session, run
from rigzumal.accounts._words import accounts_hasher, old_and_new, parser
from rigzumal.accounts._words import password_of
from rigzumal.accounts.database import Database
from rigzumal.accounts.dialects import Dialect
from rigzumal.accounts.types import LONGEST_PASSWORD, NO_ROW, AccountsError, Copy, Key
from rigzumal.accounts.types import Kind, Reply, Request, Ticket, Worked
from rigzumal.accounts.pools import PerThread

DRIVERS = ("sqlite3", "psycopg", "pymysql")


def main(words: Optional[Sequence[str]] = None) -> int:
    """Runs the command, and returns its exit status."""
    texts = {name: act.__doc__ or "" for name, act in _COMMANDS.items()}
    args = parser(__doc__.partition("\n\n")[2], texts).parse_args(words)
    try:
        with contextlib.closing(_Command(args)) as command:
            return ended(lambda: _COMMANDS[args.command](command))
    except AccountsError as fault:
        say(str(fault).replace("see examine()", "see the command examine"))
    except ImportError as fault:
        say(f"the driver isn't installed: {fault}")
    except (RigzumalError, ValueError, TypeError) as fault:
        say(str(fault))
        return status_of(fault)
    except Exception as fault:
        if type(fault).__module__.partition(".")[0] not in DRIVERS:
            raise
        first, *_ = [*str(fault).strip().splitlines(), ""]  # another error may quote a row
        say(f"{type(fault).__name__}: {first}")
    return Status.DATABASE


@contextlib.contextmanager
def _password_judged() -> Iterator[None]:
    """Turns a ValueError of its block, which concerns the password, into a Refusal."""
    try:
        yield
    except RigzumalError:
        raise
    except ValueError as fault:
        raise Refusal(str(fault)) from None


class _Command:
    """The commands for one table: each returns its exit status."""

    def __init__(self, args: argparse.Namespace) -> None:
        self.args = args

    def close(self) -> None:
        """Closes the connection if one is open."""
        if "pool" in vars(self):
            self.pool.close()

    @functools.cached_property
    def database(self) -> Database:
        url = self.args.database
        if not url:
            fault = "no database: give --database URL, or set RIGZUMAL_DATABASE"
            raise Refusal(fault, Status.WORDS)
        database = Database(url)
        if database.is_missing and self.args.command != "init":
            fault = f"{url}: no such file; init creates one"
            raise Refusal(fault, Status.DATABASE)
        return database

    @functools.cached_property
    def pool(self) -> PerThread:
        return PerThread(self.database.connect)

    @functools.cached_property
    def dialect(self) -> Dialect:
        args, kind = self.args, int if self.args.numbers else str
        return self.database.dialect_kind()(args.table, args.key, args.record, kind)

    @functools.cached_property
    def accounts(self) -> Accounts:
        return Accounts(
            self.pool,
            self.dialect,
            accounts_hasher(self.args),
            confirm=self.args.confirm,
            prepare=opaque_string if self.args.opaque else None,
        )

    @property
    def rows(self) -> Rows:
        return Rows(self.pool, self.dialect)

    @property
    def name(self) -> Key:
        return self.key(self.args.name)

    def key(self, name: str) -> Key:
        if not self.args.numbers:
            return name
        if not re.fullmatch("-?[0-9]{1,19}", name):
            raise Refusal(f"{name!r} isn't a whole number", Status.WORDS)
        return int(name)

    def new_key(self, name: str) -> Key:
        """Returns a name as the key of a new account, or refuses the name."""
        key = self.key(name)
        if not self.dialect.can_stand(key):
            raise Refusal("the column can't hold this name", Status.WORDS)
        try:
            self.dialect.check_new_key(key)
        except ValueError as fault:
            raise Refusal(str(fault), Status.WORDS) from None
        return key

    def copy(self, key: Key) -> Copy:
        """Returns the row's record, None if the row has none, or NO_ROW if no row exists."""
        return self.accounts.begin(Request(Kind.VERIFY, key)).copy

    @contextlib.contextmanager
    def record_judged(self, key: Key) -> Iterator[None]:
        """Reports an InvalidRecordError in its block as a fault of the account's record."""
        try:
            yield
        except InvalidRecordError as fault:
            said = str(fault).removesuffix(FOREIGN_HINT).removesuffix(DAMAGED_HINT)
            raise Refusal(why(self.copy(key), said), Status.DATABASE) from None

    def say(self, reply: Reply, *good: Reply) -> int:
        """Prints a reply, and returns the status for no unless the reply is one of the good
        ones."""
        words = {Reply.NO_ACCOUNT: "no account", Reply.ABSENT: "no record"}
        self.write(words.get(reply, reply.value), reply=reply.value)
        return Status.DONE if reply in good else Status.NO

    def write(self, text: str, /, **fields: object) -> int:
        """Prints a line: the text, or the fields if --json is set."""
        print(json.dumps(fields, default=str) if self.args.json else text)
        return Status.DONE

    def init(self) -> int:
        """Create the table"""
        with self.pool() as conn:
            if self.database.kind == "sqlite":
                run(Session(conn).execute("PRAGMA journal_mode = WAL"))
            run(Session(conn).execute(self.dialect.create()))
        return self.examine()

    def add(self) -> int:
        """Add an account with a password"""
        accounts, key = self.accounts, self.new_key(self.args.name)
        password = password_of(is_new=True)
        if isinstance(self.copy(key), str):
            return self.say(Reply.EXISTS)
        with _password_judged():
            record = accounts.new_record(password)
        # One transaction adds the account and its record.
        (word,) = Import(accounts, self.dialect, self.pool).put([(key, record)])
        reply = Reply.ENROLLED if word == "added" else Reply.EXISTS
        return self.say(reply, Reply.ENROLLED)

    def check(self) -> int:
        """Print yes, or no with status 4"""
        accounts, key, password = self.accounts, self.name, password_of()
        with self.record_judged(key):
            reply = accounts.verify(key, password)
        if reply is Reply.NO and len(password) < LONGEST_PASSWORD:
            text = hint(password, lambda password: accounts.verify(key, password) is Reply.YES)
            if text:
                say(text)
        return self.say(reply, Reply.YES)

    def change(self) -> int:
        """Replace a password, after asking for the old one"""
        accounts, key, (old, new) = self.accounts, self.name, old_and_new()
        with _password_judged(), self.record_judged(key):
            reply = accounts.change(key, old, new)
        return self.say(reply, Reply.REPLACED)

    def reset(self) -> int:
        """Set a new password, without the old one"""
        if self.copy(self.name) is NO_ROW:
            return self.say(Reply.NO_ACCOUNT)
        password = password_of(is_new=True)
        with _password_judged():
            reply = self.accounts.reset(self.name, password)
        return self.say(reply, Reply.REPLACED, Reply.ENROLLED)

    def disable(self) -> int:
        """Remove an account's record: no password is right"""
        key = self.name
        copy = self.copy(key)
        while isinstance(copy, str):
            line = line_of(key, copy)
            if self.args.show and not (line or self.args.json):
                raise Refusal("the name or the record can't be written as a line: add --json")
            ticket = Ticket(Request(Kind.REMOVE, key), copy)
            answer = self.accounts.commit(Worked(ticket, Reply.REMOVED, None))
            if answer.reply is Reply.REMOVED:
                shown = {"record": copy} if self.args.show else {}
                return self.write(line if shown else "disabled", reply="disabled", **shown)
            copy = answer.after
        return self.say(Reply.NO_ACCOUNT if copy is NO_ROW else Reply.ABSENT)

    def delete(self) -> int:
        """Delete an account with its row"""
        if not self.rows.delete(self.name):
            return self.say(Reply.NO_ACCOUNT)
        return self.write("deleted", reply="deleted")

    def rename(self) -> int:
        """Give an account another name"""
        key, new = self.name, self.new_key(self.args.new)
        try:
            is_done = self.rows.rename(key, new)
        except Exception:
            if self.copy(new) is NO_ROW:
                raise
            return self.say(Reply.EXISTS)
        if not is_done:
            return self.say(Reply.NO_ACCOUNT)
        return self.write("renamed", reply="renamed")

    def take(self) -> int:
        """Add a file's new accounts, or none if a line is bad"""
        args = self.args
        importing = Import(self.accounts, self.dialect, self.pool, args.foreign)
        counts = importing.take(args.file, self.new_key)
        text = f"{counts['added']} added, {counts['there']} there already"
        another = counts["another"]
        if another:
            text += f", {another} with another record, which stays"
        self.write(text, **counts)
        return Status.NO if another else Status.DONE

    def export(self) -> int:
        """Print each account with its record, as lines for an import"""
        left_out = 0
        for name, record in self.rows.every():
            line = line_of(name, record)
            if line or self.args.json:
                self.write(line, name=name, record=record)
            elif record is not None:
                left_out += 1
        if left_out:
            say(f"{left_out} accounts don't fit on a line and are omitted: see --json")
        return Status.DATABASE if left_out else Status.DONE

    def show(self) -> int:
        """Print each account, and the costs of its record"""
        for name, record in self.rows.every():
            costs = costs_of(record or "")
            fields = {"name": name, "costs": costs}
            text = costs[1:].replace("$", " ") if costs else "no record"
            if record is not None and costs is None:
                text, fields["foreign"] = "another scheme", True
            self.write(f"{shown(name)} {text}", **fields)
        return Status.DONE

    def report(self) -> int:
        """Count records by the effect of a login, scheme and costs"""
        counts = report(self.rows.every(), self.accounts._judge.goes_up)
        if self.args.prometheus:
            print(*as_prometheus(counts), sep="\n")
            return Status.DONE
        for (state, scheme, costs), count in counts:
            text = f"{count:>9} {state.value:10} {scheme} {costs}".rstrip()
            self.write(text, state=state.value, scheme=scheme, costs=costs, count=count)
        return Status.DONE

    def examine(self) -> int:
        """Report faults of the table and the server"""
        faults = self.accounts.examine()
        for fault in faults:
            severity = fault.severity.value
            fields = {"severity": severity, "code": fault.code, "text": fault.text}
            self.write(f"{severity}: {fault}", **fields)
        is_error = any(it.is_error for it in faults)
        return Status.DATABASE if is_error else Status.DONE


# The first line of each text is its command's help.
_COMMANDS: Final[dict[str, Callable[[_Command], int]]] = {
    "init": _Command.init,
    "add": _Command.add,
    "check": _Command.check,
    "change": _Command.change,
    "reset": _Command.reset,
    "disable": _Command.disable,
    "delete": _Command.delete,
    "rename": _Command.rename,
    "import": _Command.take,
    "export": _Command.export,
    "list": _Command.show,
    "report": _Command.report,
    "examine": _Command.examine,
}
