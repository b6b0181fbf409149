"""The checker of histories against a search through all orders of small random ones.

RIGZUMAL_HISTORIES is the number of histories: 100000 take some two minutes.
"""

import copy
import itertools
import math
import os
import random
import tempfile
import unittest
from collections import Counter

from support import each
from torture import history, logs
from torture.history import Account, Attempt, Illegal, Operation

HISTORIES = int(os.environ.get("RIGZUMAL_HISTORIES", "4000"))
KINDS = ("enrol", "enrol", "verify", "change", "upgrade", "remove", "remove", "reset")


def whole(op, state, fresh):
    """The reply of the whole operation, and the state after it, with this record if it writes
    one."""
    record, password, costs = state
    new = op.new_password if op.kind in ("change", "reset") else op.password
    put = fresh, new, op.costs
    if record is None:
        return ("enrolled", put) if op.kind in ("enrol", "reset") else ("absent", state)
    if op.kind == "reset":
        return "replaced", put
    if op.kind == "enrol":
        return "exists", state
    if op.password != password:
        return ("no" if op.kind == "verify" else "wrong"), state
    if op.kind == "upgrade" and costs >= op.costs:
        return "kept", state
    if op.kind == "verify":
        return "yes", state
    if op.kind == "remove":
        return "removed", (None, None, 0)
    return ("replaced" if op.kind == "change" else "upgraded"), put


def after(op, state, claim):
    """The state after an operation, or None if the operation doesn't do what it claims."""
    before, stands, _ = claim
    reply, new = whole(op, state, stands)
    is_put = reply in ("enrolled", "replaced", "upgraded")
    if claim != (state[0], new[0], reply):
        return None
    if is_put and stands in (None, before):
        return None
    return new


def some_order(account):
    """Whether a legal order exists, by trying each one; operations without an answer may be left
    out."""
    ops = [op for op in account.operations if op.reply not in ("failed", "changed")]
    ops, seen = [op for op in ops if op.reply or op.attempts], set()

    def go(state, stood, left):
        if (state, stood, left) in seen:
            return False
        seen.add((state, stood, left))
        todo = [op for op in ops if op.id in left]
        answered = [op.answered for op in todo if op.reply]
        if state[0] == account.end.before and not answered:
            return True
        bound = min(answered, default=math.inf)
        for op in todo:
            if op.called > bound:
                continue
            claim = (op.before, op.after, op.reply) if op.reply else op.attempts[-1]
            new = after(op, state, claim)
            # Each record is written once.
            if new is None or (new[0] != state[0] and new[0] in stood):
                continue
            if go(new, stood | {new[0]} - {None}, left - {op.id}):
                return True
        return False

    first = account.seed
    state = (first.after, first.password if first.after else None, first.costs)
    return go(state, frozenset({first.after}) - {None}, frozenset(it.id for it in ops))


def made(rng):
    """A small history: legal at first, and then altered a few times."""
    first = rng.choice([None, "r0"])
    account = Account(Operation.seed(first, "one", 1), Operation.end(None, 60.0))
    state = (first, "one" if first else None, 1)
    for number in range(rng.randint(1, 7)):
        kind = rng.choice(KINDS)
        password, new = rng.choice(["one", "two"]), rng.choice(["one", "two"])
        costs = rng.choice([1, 2]) if kind == "upgrade" else 1
        op = Operation(f"o{number}", kind, password, 0.0, new, costs)
        op.reply, new = whole(op, state, f"r{number + 1}")
        op.before, op.after = state[0], new[0]
        op.called = float(number * 4 - rng.randint(0, 9))
        op.answered = float(number * 4 + rng.randint(0, 9))
        if new != state:
            op.attempts = [Attempt(op.before, op.after, op.reply)]
        account.operations.append(op)
        state = new
    account.end.before = account.end.after = state[0]
    for _ in range(rng.choice([0, 0, 1, 1, 2, 3])):
        bend(rng, account)
    return account


def bend(rng, account):
    op, other = rng.choice(account.operations), rng.choice(account.operations)
    records = [None, *(f"r{number}" for number in range(8))]
    put = {it.after for it in account.operations if it is not op} - {None}
    how = rng.randrange(11)
    if how == 0:
        shift = rng.randint(-12, 12)
        op.called, op.answered = op.called + shift, op.answered + shift
    elif how == 1 and not op.makes_change:
        op.before = op.after = rng.choice(records)
    elif how == 2 and len(account.operations) > 1:
        account.operations.remove(op)
    elif how == 3 and op.makes_change and op.after not in put:
        op.answered, op.reply, op.before, op.after = math.inf, None, None, None
    elif how == 4 and op.reply and other.reply:
        op.called, other.called = other.called, op.called
        op.answered, other.answered = other.answered, op.answered
    elif how == 5:
        tries = [it.attempts[-1].after for it in account.operations if it.attempts]
        account.end.before = account.end.after = rng.choice(records + tries)
    elif how == 6:
        op.password = "one" if op.password == "two" else "two"
    elif how >= 8:
        add_lost_ones(rng, account, rng.choice(records))
    elif how == 7 and op.makes_change and op.reply:
        record = rng.choice(records)
        if record not in tried(account, op):
            op.after = record


def add_lost_ones(rng, account, record):
    """Adds operations without answers, each on the record that the previous one tried to write;
    sometimes a removal ends the chain."""
    for _ in range(rng.randint(1, 3)):
        kind = rng.choice(["change", "change", "remove"] if record else ["enrol", "change"])
        word = rng.choice(["one", "one", "two"])
        called = float(rng.randint(-9, 40))
        lost = Operation(f"l{rng.random()}", kind, word, called, "one", 1)
        put = None if kind == "remove" else lost.id
        reply = {"enrol": "enrolled", "change": "replaced", "remove": "removed"}[kind]
        lost.attempts = [Attempt(record, put, reply)]
        account.operations.append(lost)
        record = put or record
    if rng.random() < 0.5:
        last = rng.choice(account.operations)
        if last.makes_change and last.reply == "removed":
            account.operations.remove(last)


def tried(account, op):
    """The records that other operations without answers tried to write: fresh, as all salts are."""
    others = [it for it in account.operations if it is not op and not it.reply]
    return {attempt.after for it in others for attempt in it.attempts} - {None}


class Small(unittest.TestCase):
    def test_the_verdict_is_that_of_all_orders(self):
        rng, found = random.Random(int(os.environ.get("RIGZUMAL_SEED", "1"))), Counter()
        for number in range(HISTORIES):
            account = made(rng)
            kept = copy.deepcopy(account)
            wanted = some_order(account)
            try:
                history.check(account)
                verdict, part = True, ()
            except Illegal as refusal:
                verdict, part = False, refusal.part
            shown = [str(it) for it in (kept.seed, *kept.operations, kept.end)]
            self.assertEqual(verdict, wanted, f"history {number}: {shown}")
            found[verdict] += 1
            if part and history.conflict(part):
                found["part"] += 1
                for operation in part:
                    rest = [other for other in part if other is not operation]
                    self.assertIsNone(history.conflict(rest), shown)
        self.assertGreater(found[True], HISTORIES // 4)
        self.assertGreater(found[False], HISTORIES // 5)
        self.assertGreater(found["part"], HISTORIES // 10)
        print(dict(found))


def written(text):
    """Operations as "NAME KIND CALLED-ANSWERED REPLY BEFORE>AFTER", or, without an answer, as "NAME
    KIND CALLED BEFORE>AFTER ..", with each attempt; a dot is no record. A capital letter is a
    record of the password "two", which a change has written."""
    for line in filter(None, text.split("; ")):
        name, kind, span, *rest = line.split()
        called, _, answered = span.partition("-")
        made = Operation(name, kind, "one", float(called), "one", 2)
        if answered:
            made.answered, made.reply = float(answered), rest.pop(0)
        ways = [way.split(">") for way in rest]
        attempts = [attempt(record_of(before), record_of(put)) for before, put in ways]
        last = attempts[-1].after
        if last and last.isupper():
            made.new_password = "two"
        if answered:
            ((made.before, made.after, _),) = attempts
        else:
            made.attempts = attempts
        yield made


def record_of(word):
    return None if word == "." else word


def attempt(before, put):
    return Attempt(before, put, "replaced" if put else "removed")


def account(first, last, text):
    word = "two" if first and first.isupper() else "one"
    ends = Operation.seed(first, word, 1), Operation.end(last, 99.0)
    return Account(*ends, list(written(text)))


LOOKS = "; ".join(f"e{it} verify 1-2 yes x>x; l{it} verify 20-21 no Y>Y" for it in range(1000))
ENROLLED = "a enrol 1-2 enrolled .>x"
GONE, RING = "and nothing replaced it", "replaced each other in a ring"
LATE = "a was answered before b was called, and can come after it alone"
# The first and the last record, the operations, and those without an answer that took place.
LEGAL = (
    # Of an operation's attempts only the last is open: the earlier ones surely took no effect.
    ("x", "z", "a change 1 x>y u>z; b upgrade 2-3 upgraded x>u", "a"),
    # A lost operation may have read a record that a crash then took: no answer named it.
    ("x", "w", "a change 1 x>y; b change 2 y>z; c change 10-11 replaced x>w", ""),
    # An answer about a record requires all records before it; a missing record was removed in some
    # unseen way.
    ("x", "z", "a change 1 x>y; b change 2 y>z; c verify 10-11 yes z>z", "ab"),
    ("x", None, "a change 1 x>y; b remove 2 y>.; c verify 10-11 absent .>.", "ab"),
    # If several chains lead to a removal, the one that ends first counts.
    ("x", "w", "a remove 30 x>.; b change 1 x>y; c remove 2 y>.; d enrol 10-11 enrolled .>w", "bc"),
    ("x", "w", "a remove 20 x>.; b change 30 x>y; c remove 2 y>.; d enrol 22-23 enrolled .>w", "a"),
    # An answer and a call at one time may come in either order.
    ("x", "y", "a change 5-6 replaced x>y; b verify 4-5 yes x>x; c verify 5-5 yes y>y", ""),
)
# Illegal histories, with the reason, and the operations that show it.
ILLEGAL = (
    ("x", "y", "a change 1 x>y u>z; b upgrade 2-3 upgraded x>u", "nobody put the record y", "end"),
    ("x", "z", "a change 1 x>y; b change 2-3 replaced x>z; c verify 4-5 yes y>y", "both", "a b"),
    ("x", "x", "a change 1 x>y; c verify 3-4 yes y>y", "a replaced x, which stands at", "a end"),
    ("x", None, "a change 1 x>y; c verify 10-11 absent .>.", f"x is gone, {GONE}", "seed end"),
    ("x", None, "a change 1-2 replaced x>y", f"y is gone, {GONE}", "a end"),
    ("X", None, "a remove 1 X>.", f"X is gone, {GONE}", "seed end"),
    ("x", "x", "a change 1-2 replaced x>y", "a replaced x, which stands at the end", "a end"),
    ("x", "x", "a change 1-2 replaced x>x", "a was answered replaced, and put x", "a"),
    ("x", "y", "a change 1-2 replaced x>y; b change 1-2 replaced z>y", "both put y", "a b"),
    # Wrong judgements.
    ("x", "x", "a verify 1-2 no x>x", "a (verify) was answered no at x", "seed a"),
    ("x", "y", "a enrol 1-2 enrolled x>y", "a (enrol) was answered enrolled at x", "a"),
    ("x", "y", "a remove 1-2 removed x>y", "a was answered removed, and put y", "a"),
    ("x", "x", "a verify 1-2 noaccount x>x", "a (verify) was answered noaccount at x", "a"),
    # A login with the old password, whose upgrade writes over a change.
    ("x", "u", "a upgrade 1-9 upgraded x>u; b change 2-3 replaced x>Y", "both replaced x", "a b"),
    # A stale answer among two thousand looks.
    ("x", "Y", f"a change 10-11 replaced x>Y; {LOOKS}; b verify 12-13 yes x>x", LATE, "a b"),
    ("x", None, "a remove 1-2 removed x>.; c verify 5-6 yes x>x", "can come after it alone", "a c"),
    ("r", "r", "a change 1-8 replaced x>y; b change 1-8 replaced y>x", f"records {RING}", "a b"),
    (None, "x", f"{ENROLLED}; b verify 3-4 absent .>.; c verify 5-6 yes x>x", "at a time", "a b c"),
)


class Said(unittest.TestCase):
    @each(*LEGAL)
    def test_what_took_place(self, first, last, text, found_out):
        of = account(first, last, text)
        history.check(of)
        self.assertEqual({it.id for it in of.operations if it.found_out}, set(found_out))

    @each(*ILLEGAL)
    def test_what_shows_it(self, first, last, text, words, part):
        with self.assertRaises(Illegal) as raised:
            history.check(account(first, last, text))
        self.assertIn(words, str(raised.exception))
        self.assertEqual([it.id for it in raised.exception.part], part.split())

    def test_every_account_is_judged(self):
        good, bad = account("x", "x", ""), account("x", "y", "")
        for accounts in (
            {"good": good, "bad": bad},
            {"bad": bad, "good": good},
            {"good1": good, "good2": good, "bad": bad},
        ):
            self.assertIn("'bad'", history.verdict(accounts).reason)
        self.assertIsNone(history.verdict({"good": good}))


class Logs(unittest.TestCase):
    def test_lines_of_a_killed_process(self):
        """The last line of a killed process may be incomplete; its last attempt may have taken
        effect."""
        end = '{"event": "end", "key": 7, "time": 99, "record": "%s"}'
        lines = [
            '{"event": "seed", "key": 7, "record": "a", "password": "one", "costs": 1}',
            '{"event": "call", "id": "1", "time": 1, "kind": "change", "key": 7,'
            ' "password": "one", "new_password": "two", "costs": 1}',
            '{"event": "try", "id": "1", "before": "a", "after": "b", "reply": "replaced"}',
        ]
        unknown = '{"event": "answer", "id": "1", "time": 2, "reply": "unknown"}'
        cut = '{"event": "answer", "id": "1", "ti'
        with tempfile.TemporaryDirectory() as folder:
            path = os.path.join(folder, "log")

            def read(*some):
                with open(path, "w") as file:
                    file.write("\n".join(some))
                return logs.read([path])

            for record, last in itertools.product("abc", (unknown + "\n", cut)):
                accounts = read(*lines, end % record, last)
                self.assertEqual(history.verdict(accounts) is None, record != "c", record)
                (op,) = accounts[7].operations
                self.assertEqual(op.reply, "replaced" if record == "b" else None)
            self.assertIsNotNone(history.verdict(read(*lines[:2], end % "b", "")))
            for some in ((*lines[1:], end % "b"), (end % "b",), lines[:1]):
                self.assertRaises(ValueError, read, *some, "")
