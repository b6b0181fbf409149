"""The logs of calls and answers, in the form that `history` reads.

The logs are lines of JSON, of any number of processes and of one clock (CLOCK_MONOTONIC):

    {"event": "seed", "key", "record", "password", "costs"}    the first record
    {"event": "call", "id", "time", "kind", "key", "password", "new_password", "costs"}
    {"event": "try", "id", "before", "after", "reply"}  a change, before the COMMIT
    {"event": "answer", "id", "time", "reply", "before", "after"}
    {"event": "end", "key", "time", "record"}           the last record

Records are texts, or null if no record exists. Passwords are labels. An answer's reply may be
"unknown" (no answer came) or "failed" (the operation certainly changed nothing). Costs are numbers:
the answer to an upgrade is "kept" unless its costs are higher than the record's.
"""

import json
import math
import os
import random
import signal
import time

from rigzumal.accounts.types import NO_ROW
from torture.history import Account, Attempt, Operation, verdict


class Log:
    """The log of one process.

    With this probability the process kills itself at the worst moments: between an UPDATE and its
    COMMIT, and between a COMMIT and its answer.
    """

    def __init__(self, path, name="", risk=0.0):
        self._file = os.open(path, os.O_WRONLY | os.O_CREAT | os.O_APPEND, 0o600)
        self._name, self._count, self.risk = name, 0, risk

    def begin(self, request, memory):
        """Writes a call; returns its id."""
        self._count += 1
        name = f"{self._name}-{self._count}"
        words = ("password", "new_password")
        said = {it: getattr(request, it).decode() for it in words}
        said |= {"kind": request.kind.value, "key": request.key, "costs": memory}
        self.write("call", id=name, time=time.monotonic_ns(), **said)
        return name

    def tried(self, name, worked):
        """Logs that a change is about to be committed."""
        before, after = worked.ticket.copy, worked.after
        if before != after:
            said = {"before": before, "after": after, "reply": worked.reply.value}
            self.write("try", id=name, **said)
            self._dare()

    def answered(self, name, answer):
        """Logs an answer, with the record against which it was decided and the record
        afterwards."""
        if answer.reply.makes_change:
            self._dare()
        records = {"before": answer.before, "after": answer.after}
        if NO_ROW in records.values():
            records = dict.fromkeys(records)
        self.end(name, answer.reply.value, **records)

    def end(self, name, reply, **said):
        self.write("answer", id=name, time=time.monotonic_ns(), reply=reply, **said)

    def write(self, event, **said):
        os.write(self._file, (json.dumps({"event": event, **said}) + "\n").encode())

    def _dare(self):
        if random.random() < self.risk:
            os.kill(os.getpid(), signal.SIGKILL)


EVENTS = ("seed", "end", "call", "try", "answer")


def read(paths):
    """The accounts' histories, read from the logs of all processes. A killed process may leave an
    unfinished last line. Any other line outside of the format raises ValueError, and so does an
    account without a first or last record.
    """
    accounts, operations = {}, {}
    try:
        lines = [line for path in paths for line in _lines(path)]
        for line in sorted(lines, key=lambda line: EVENTS.index(line["event"])):
            _note(line, accounts, operations)
    except (KeyError, TypeError) as fault:
        raise ValueError(f"a line is none of a log, or another is missing: {fault}") from None
    missing = [key for key, account in accounts.items() if account.end is None]
    if missing:
        raise ValueError(f"what stood at the end isn't known of {missing}")
    return accounts


def _lines(path):
    with open(path, "rb") as file:
        for line in file:
            if line.endswith(b"\n"):
                yield json.loads(line)


def _note(line, accounts, operations):
    """Adds a line, after those of the EVENTS before its own."""
    event = line["event"]
    if event == "seed":
        seed = Operation.seed(line["record"], line["password"], line["costs"])
        accounts[line["key"]] = Account(seed, None)
    elif event == "end":
        accounts[line["key"]].end = Operation.end(line["record"], line["time"])
    elif event == "call":
        given = line["id"], line["kind"], line["password"], line["time"]
        made = Operation(*given, line.get("new_password"), line.get("costs") or 0)
        operations[line["id"]] = made
        accounts[line["key"]].operations.append(made)
    elif event == "try":
        attempt = Attempt(line["before"], line["after"], line["reply"])
        operations[line["id"]].attempts.append(attempt)
    elif line["reply"] != "unknown":
        operation = operations[line["id"]]
        operation.answered, operation.reply = line["time"], line["reply"]
        operation.before, operation.after = line.get("before"), line.get("after")


def summary(accounts):
    """The counts of the verdict, in one line."""
    every = [it for account in accounts for it in account.operations]
    lost = [it for it in every if it.answered == math.inf or it.found_out]
    counts = {
        "operations": len(every),
        "changes": sum(it.makes_change for it in every),
        "without an answer": len(lost),
        "of those done": sum(it.found_out for it in lost),
        "tried again": sum(len(it.attempts) > 1 for it in every),
        "answered changed": sum(it.reply == "changed" for it in every),
        "failed": sum(it.reply == "failed" for it in every),
    }
    return ", ".join(f"{count} {name}" for name, count in counts.items())


def is_legal(accounts, more=""):
    """Prints the verdict, with the counts; returns whether the history is legal."""
    found = verdict(accounts)
    legal = f"legal: {summary(accounts.values())}{more}"
    print(f"illegal: {found}" if found else legal)
    return found is None
