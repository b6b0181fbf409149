"""Hashes passwords at the shell, and finds the costs for this machine.

    printf %s 'correct horse' | python3 -m rigzumal hash
    printf %s 'correct horse' | python3 -m rigzumal verify '$argon2id$v=19$..'
    python3 -m rigzumal calibrate --target-ms 250 --memory 64M
    python3 -m rigzumal accounts --help

A password is never an argument. At a terminal the command asks for the password without echo.
Otherwise the password is all of standard input, including a newline at its end. The exit statuses
are those of credkeep: for example, 4 means no.
"""

from __future__ import annotations

import argparse
import os
import sys

from rigzumal import RigzumalError, _library
from rigzumal._calibrate import LEAST_SAFE_MEMORY, trials, why_busy
from rigzumal._parts import none_of_ours
from rigzumal._commands import Refusal, Status, Words, add_costs, ended, hasher_of, hint
from rigzumal._commands import is_empty, memory, positive, read_password, say, status_of

_LEAST_TARGET, _MOST_TARGET = 10, 60_000


def _target(text: str) -> float:
    """Reads the argument of --target-ms, the milliseconds of a login."""
    try:
        target = float(text)
    except ValueError:
        target = 0
    if not _LEAST_TARGET <= target <= _MOST_TARGET:
        raise argparse.ArgumentTypeError(
            f"{text!r} is not {_LEAST_TARGET} to {_MOST_TARGET} milliseconds"
        )
    return target


def _words() -> argparse.ArgumentParser:
    words = Words(
        prog="python3 -m rigzumal",
        description="Hashes and verifies a password. The command asks for the password at a"
        " terminal, and otherwise reads it from standard input.",
    )
    words.add_argument("--version", action="version", version=_library.version())
    commands = words.add_subparsers(dest="command", required=True)
    make = commands.add_parser("hash", help="prints a new record")
    make.set_defaults(act=_hash)
    add_costs(make)
    make.add_argument("--empty", action="store_true", help="allow an empty password")
    verify = commands.add_parser("verify", help="prints yes, or no with status 4")
    verify.set_defaults(act=_verify)
    verify.add_argument("record")
    fit = "prints the highest costs whose hash takes at most --target-ms"
    calibrate = commands.add_parser("calibrate", help=fit)
    calibrate.set_defaults(act=_calibrate)
    add = calibrate.add_argument
    add("--target-ms", type=_target, default=250, help="milliseconds for one hash")
    most = "the most memory, with a unit such as 64M, or in KiB"
    add("--memory", type=memory, default=65536, help=most)
    add("--lanes", type=int, default=4)
    threads = "threads of one hash; 1 for a service with many logins"
    add("--threads", type=positive, default=1, help=threads)
    below = "allow costs below OWASP's minimum, m=19456,t=2"
    add("--below", action="store_true", help=below)
    accounts = "manages accounts in a database: see accounts --help"
    commands.add_parser("accounts", help=accounts)
    return words


def _hash(given: argparse.Namespace) -> int:
    """Prints a new record."""
    hasher = hasher_of(given)
    password = read_password(is_new=True)
    if is_empty(password) and not given.empty:
        raise Refusal("the password is empty; --empty allows it")
    print(hasher.hash(password))
    return Status.DONE


def _verify(given: argparse.Namespace) -> int:
    """Prints yes, or no with status 4."""
    record, password = given.record, read_password()
    fault = _library.check(record, password)
    if fault != _library.MISMATCH:
        _library.raise_fault(fault, record)
        print("yes")
        return Status.DONE
    print("no")
    said = hint(password, lambda password: _library.check(record, password) == _library.OK)
    if said:
        say(said)
    return Status.NO


def _calibrate(given: argparse.Namespace) -> int:
    """Prints the costs that it tried, with their times, and then the best costs."""
    if given.memory < LEAST_SAFE_MEMORY and not given.below:
        least = f"--memory is below {LEAST_SAFE_MEMORY} KiB; --below allows it"
        raise Refusal(least, Status.WORDS)
    busy = why_busy()
    numbers = (given.target_ms, given.memory, given.lanes, given.threads, given.below)
    for found in trials(*numbers):
        print(f"# {found.hasher.costs}: {found.milliseconds:.1f} ms", file=sys.stderr)
    if found.milliseconds > given.target_ms:
        lower = "" if given.below else "; --below allows lower ones"
        say(f"the lowest costs take {found.milliseconds:.0f} ms here{lower}")
    if busy:
        say(f"{busy}: an idle machine would allow higher costs")
    print(found.hasher.costs)
    return Status.DONE


def _hint_at(record: str) -> str:
    """Returns a hint about a record of another program, in words for people."""
    quote = "put the record in single quotes, so that the shell keeps its $"
    return none_of_ours(record) or ("" if record.startswith("$") else quote)


def _run(given: argparse.Namespace) -> int:
    """Runs the command, and returns its exit status."""
    try:
        status: int = given.act(given)
        return status
    except RigzumalError as fault:
        said = _hint_at(getattr(given, "record", "$"))
        said = f"{fault}{said and f' ({said})'}"
        say(f"{fault.number} {fault.word}: {said}")
        return status_of(fault)


def main() -> int:
    """Runs the command, and returns its exit status once all output is written."""
    if sys.argv[1:2] == ["accounts"]:
        from rigzumal.accounts import cli

        status = cli.main(sys.argv[2:])
    else:
        given = _words().parse_args()
        status = ended(lambda: _run(given))
    try:
        sys.stdout.flush()
    except OSError as fault:
        # The rest of the output goes nowhere.
        os.dup2(os.open(os.devnull, os.O_WRONLY), sys.stdout.fileno())
        if status == Status.DONE and not isinstance(fault, BrokenPipeError):
            say(fault.strerror or str(fault))
        status = Status.STREAM
    return status


if __name__ == "__main__":
    sys.exit(main())
