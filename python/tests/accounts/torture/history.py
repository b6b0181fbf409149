"""Decides whether each account's answers are those of one legal history.

A history is legal if each operation has one moment between its call and its answer, such that its
reply, and the record after it, are those of the whole operation on the record at that moment. An
operation without an answer has one moment after its call, or didn't happen. The law
`updates_are_one_history` of the crate cred_book proves this for any store whose update compares and
writes in one step. It covers any function from a stored text to a reply and a new text: also resets
and texts of other schemes.

Why the check is exact. Each record has a fresh salt, so it exists during a single period, and each
change names the record that it replaces. The changes of an account therefore form chains, and the
order within a chain is fixed. This order is possible if and only if the earliest moments, one after
another, are in time. A chain can come before another, or before an operation without a record, if
and only if none of its calls comes after an answer of the other. Moments for all of them exist if
and only if each two have an order. Apart from sorting, the time of the check is proportional to the
history.

The attempt of an operation without an answer doesn't prove that the store had the record which the
operation read: a crash may lose a record that no answer named. An attempt happened exactly if the
answers require it: the store had each record that an answer names, and another change replaced each
record that no longer exists.
"""

from __future__ import annotations

import collections
import math
from dataclasses import dataclass, field
from typing import NamedTuple, Optional

Record = Optional[str]

CHANGES = frozenset({"enrolled", "replaced", "upgraded", "removed"})
NO_EFFECT = frozenset({"failed", "changed"})


class Attempt(NamedTuple):
    """A change before its COMMIT."""

    before: Record
    after: Record
    reply: str


@dataclass(eq=False)
class Operation:
    """An operation with the times of its call and its answer, in any unit; also the first and the
    last record, with the kinds "seed" and "end"."""

    id: str
    kind: str
    password: Optional[str]
    called: float
    new_password: Optional[str] = None
    costs: float = 0
    answered: float = math.inf
    reply: Optional[str] = None
    before: Record = None
    after: Record = None
    attempts: list[Attempt] = field(default_factory=list)
    found_out: bool = False

    @classmethod
    def seed(cls, record, password, costs=0):
        """The first record."""
        first = -math.inf
        made = cls("seed", "seed", password, first, None, costs, first, "seed")
        made.after = record
        return made

    @classmethod
    def end(cls, record, time):
        """The last record."""
        return cls("end", "end", None, time, reply="end", before=record, after=record)

    @property
    def makes_change(self):
        return self.reply in CHANGES or (self.kind == "seed" and self.after is not None)

    @property
    def password_after(self):
        """The password of the record that this operation wrote."""
        return self.new_password if self.kind in ("change", "reset") else self.password

    def took_place(self, end):
        """Notes that the operation's last attempt was stored before the end, without an answer."""
        self.before, self.after, self.reply = self.attempts[-1]
        self.answered, self.found_out = end, True

    def __str__(self):
        if self.kind in ("seed", "end"):
            return f"{self.kind}: {self.before or self.after or 'no record'}"
        span = f"{self.called:.0f} to {self.answered:.0f}"
        said = f"{self.reply} at {self.before or 'no record'}"
        if self.makes_change:
            said += f", after it {self.after or 'no record'}"
        given = "/".join(it for it in (self.password, self.new_password) if it)
        return f"{self.id} {self.kind}({given}), {span}: {said}"


class _Conflict(Exception):
    """Operations that contradict each other."""


def conflict(events):
    """Why these operations have no legal order, or None if they have one."""
    try:
        _one_after_another(_Records(events).spans())
    except _Conflict as found:
        return str(found)
    return None


def possible(operation, record, maker):
    """The replies that an operation may have for a record that `maker` wrote."""
    if record is None:
        return {"enrolled" if operation.kind in ("enrol", "reset") else "absent"}
    if operation.kind in ("enrol", "reset"):
        return {"exists" if operation.kind == "enrol" else "replaced"}
    wrong = "no" if operation.kind == "verify" else "wrong"
    rights = {"verify": "yes", "change": "replaced", "remove": "removed"}
    right = rights.get(operation.kind)
    if maker is None:
        return {wrong, right} if right else {wrong, "kept", "upgraded"}
    if maker.password_after != operation.password:
        return {wrong}
    return {right or ("upgraded" if operation.costs > maker.costs else "kept")}


class _Span(NamedTuple):
    """A chain, or an operation without a record.

    One of two spans can come before the other if its last call isn't after the other's first
    answer.
    """

    first: float  # answer
    last: float  # call
    name: str


class _Records:
    """The operations on each record, and those that wrote and replaced it."""

    def __init__(self, events):
        self.maker, self.replacer, self.at_none = {}, {}, []
        self.looks = collections.defaultdict(list)
        events = list(events)
        for event in events:
            if event.makes_change:
                self._note_change(event)
            elif event.before is None:
                self.at_none.append(event)
            else:
                self.looks[event.before].append(event)
        for event in events:
            self._judge(event)

    def _note_change(self, operation):
        sides = (
            (operation.after, self.maker, "put"),
            (operation.before, self.replacer, "replaced"),
        )
        for record, known, word in sides:
            other = operation if record is None else known.setdefault(record, operation)
            if other is not operation:
                raise _Conflict(f"{other.id} and {operation.id} both {word} {record}")

    def _judge(self, operation):
        """Refuses a reply that isn't that of the whole operation on the record."""
        record, by = operation.before or "no record", self.replacer.get(operation.before or "")
        if operation.kind == "end" and by is not None:
            raise _Conflict(f"{by.id} replaced {record}, which stands at the end")
        if operation.kind in ("seed", "end"):
            return
        maker = self.maker.get(operation.before or "")
        if operation.reply not in possible(operation, operation.before, maker):
            said = f"{operation.id} ({operation.kind}) was answered {operation.reply}"
            raise _Conflict(f"{said} at {record}")
        is_removed = operation.after is None
        is_right = is_removed == (operation.reply == "removed")
        if operation.makes_change and (not is_right or operation.after == operation.before):
            put = operation.after or "no record"
            raise _Conflict(f"{operation.id} was answered {operation.reply}, and put {put}")

    def spans(self):
        """The spans of the chains, and of operations at accounts without a record."""
        records = self.maker.keys() | self.replacer.keys() | self.looks.keys()
        spans, walked = [], 0
        for record in records:
            maker = self.maker.get(record)
            if maker is None or maker.before is None:
                span, length = self._walk(record, maker)
                spans.append(span)
                walked += length
        if walked < len(records):
            raise _Conflict("records replaced each other in a ring")
        return spans + [_Span(it.answered, it.called, it.id) for it in self.at_none]

    def _walk(self, record, maker):
        """A chain's span and number of records; refuses a chain whose earliest moments are too
        late."""
        moment = latest = -math.inf if maker is None else maker.called
        first = math.inf if maker is None else maker.answered
        late = maker
        start, length = record, 0
        current = record
        while current is not None:
            length += 1
            by = self.replacer.get(current)
            for group in (self.looks.get(current, ()), [by] if by else []):
                for operation in group:
                    if operation.answered < moment:
                        name = late.id if late else "another"
                        said = f"{operation.id} was answered before {name} was called"
                        raise _Conflict(f"{said}, and can come after it alone")
                for operation in group:
                    first, latest = min(first, operation.answered), max(latest, operation.called)
                    if operation.called > moment:
                        moment, late = operation.called, operation
            current = by.after if by else None
        return _Span(first, latest, f"the chain from {start}"), length


def _one_after_another(spans):
    """Refuses two spans if neither can come before the other.

    If each two spans have an order, the order of their midpoints is an order of all.
    """
    spans.sort(key=lambda span: span.first + span.last)
    latest = _Span(-math.inf, -math.inf, "")
    for span in spans:
        if latest.last > span.first:
            raise _Conflict(f"{latest.name} and {span.name} stand at a time")
        latest = max(latest, span, key=lambda each: each.last)


@dataclass
class Account:
    """The history of one account."""

    seed: Operation
    end: Operation
    operations: list[Operation] = field(default_factory=list)


class Illegal(Exception):
    """No legal history exists; the exception gives the reason. `part` has no legal order, whatever
    other operations ran at the same time; without any one of its operations the rest has one.
    """

    def __init__(self, reason, part):
        self.reason, self.part = reason, tuple(part)
        super().__init__("\n".join([reason, *(f"  {it}" for it in self.part)]))


def verdict(accounts):
    """The fault of the history, with the name of its first account."""
    for key, account in accounts.items():
        try:
            check(account)
        except Illegal as found:
            return Illegal(f"account {key!r}: {found.reason}", found.part)
    return None


def check(account):
    """Raises Illegal unless the account's history is legal; notes which lost changes were
    stored."""
    account.operations.sort(key=lambda operation: operation.called)
    _settle(account)
    events = [account.seed, *_effective(account.operations), account.end]
    reason = conflict(events)
    if reason is None:
        _complete(account, events)
        return
    shorter = min(_shrunk(events), _shrunk(events[::-1]), key=len)
    part = sorted(shorter, key=lambda operation: operation.called)
    raise Illegal(conflict(part) or reason, part)


def _effective(operations):
    return [it for it in operations if it.reply and it.reply not in NO_EFFECT]


def _settle(account):
    """Notes which operations without an answer took place, by their last attempts.

    A record that an answer names was stored, and so was the one before it. If a record is gone, and
    no known operation replaced it, operations without an answer led from it to a removal.
    """
    end, putting, at = account.end.called, {}, collections.defaultdict(list)
    for operation in account.operations:
        if not operation.reply and operation.attempts:
            at[operation.attempts[-1].before].append(operation)
            putting[operation.attempts[-1].after] = operation
    todo = [account.end.before, *(it.before for it in _effective(account.operations))]
    while todo:
        record = todo.pop()
        writer = putting.get(record)
        if record is not None and writer is not None and not writer.reply:
            writer.took_place(end)
            todo.append(writer.before)
    for record, maker in _unreplaced(account).items():
        # If several chains lead to a removal, the one whose last call is first counts: no answer
        # named a record between.
        ways = _ways_out(record, maker, at)
        for operation in min(ways, key=last_call, default=()):
            operation.took_place(end)


def last_call(operations):
    return max(operation.called for operation in operations)


def _ways_out(record, maker, at, way=()):
    """Each chain of operations without an answer from a record to none, by the records at which
    they were tried."""
    for operation in at[record]:
        last = operation.attempts[-1]
        if (
            operation in way
            or operation.reply
            or last.reply not in possible(operation, record, maker)
        ):
            continue
        if last.after is None:
            yield (*way, operation)
        else:
            yield from _ways_out(last.after, operation, at, (*way, operation))


def _unreplaced(account):
    """The missing records that no operation replaced, with the operations that wrote them."""
    changes = [it for it in (account.seed, *account.operations) if it.makes_change]
    replaced = {it.before for it in changes} | {account.end.before}
    return {it.after: it for it in changes if it.after and it.after not in replaced}


def _complete(account, events):
    """Refuses a record that no operation wrote, and a missing one that none replaced."""
    put = {it.after for it in events if it.makes_change}
    for event in events:
        if event.before is not None and event.before not in put:
            raise Illegal(f"nobody put the record {event.before}", [event])
    for record, maker in _unreplaced(account).items():
        reason = f"the record {record} is gone, and nothing replaced it"
        raise Illegal(reason, [maker, account.end])


def _shrunk(events):
    """A part without a legal order that has one as soon as any one of its operations is left
    out."""
    part, size = list(events), max(len(events) // 2, 1)
    while size:
        start = 0
        while start < len(part):
            rest = part[:start] + part[start + size :]
            if conflict(rest):
                part = rest
            else:
                start += size
        size //= 2
    return part
