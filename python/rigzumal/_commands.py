"""The exit statuses (those of credkeep) and the options that the shell commands share."""

from __future__ import annotations

import argparse
import difflib
import enum
import getpass
import itertools
import re
import sys
import warnings
from collections.abc import Callable, Iterator, Sequence
from typing import Any, NoReturn, Optional, Union

from rigzumal._hashers import LOW_MEMORY, LowMemoryWarning, PasswordHasher, ScryptHasher
from rigzumal._library import NoRandomError, OutOfMemoryError

_UNITS = {"K": 1, "M": 1024, "G": 1024 * 1024}


class Status(enum.IntEnum):
    """An exit status."""

    DONE = 0  # the command succeeded, or the answer is yes
    WORDS = 1  # the command refused a word of the command line
    STREAM = 2  # reading or writing failed, or the system had no random bytes
    MEMORY = 3  # the free memory was too small
    NO = 4  # the answer is no
    DATABASE = 5  # the database failed, is missing, or has a fault
    INPUT = 6  # the command refused its input: a password, or a line of an import


class Refusal(Exception):
    """A refusal: a text for standard error, and an exit status."""

    def __init__(self, text: str, status: Status = Status.INPUT) -> None:
        super().__init__(text)
        self.status = status


_COSTS = "--memory, --passes or --lanes"
# The names of the costs in other programs.
_SYNONYMS = {
    "--time": "--passes",
    "--time-cost": "--passes",
    "--iterations": "--passes",
    "--rounds": "--passes",
    "-t": "--passes",
    "--memory-cost": "--memory",
    "-m": "--memory",
    "-k": "--memory",
    "--parallelism": "--lanes",
    "--parallel": "--lanes",
    "-p": "--lanes",
    "--cost": _COSTS,
    "--costs": _COSTS,
    "--setting": _COSTS,
    "--dsn": "--database",
    "--url": "--database",
    "--column": "--key or --record",
}


class Words(argparse.ArgumentParser):
    """A parser that exits with status 1 if it refuses a word.

    The parser accepts no abbreviation. Otherwise `--pass SECRET` would count as `--passes SECRET`,
    and the error message would show the value.
    """

    def __init__(self, **given: Any) -> None:
        super().__init__(allow_abbrev=False, **given)

    def parse_args(  # type: ignore[override]
        self,
        args: Optional[Sequence[str]] = None,
        namespace: Optional[argparse.Namespace] = None,
    ) -> argparse.Namespace:
        """Parses like ArgumentParser, but doesn't show an unknown word, which may be a password.

        This method refuses an unknown option before ArgumentParser would take the option's value
        for a command.
        """
        words = sys.argv[1:] if args is None else args
        names = [*_names_of(self, words)]
        for option in _options_in(words):
            if option not in names:
                self.error(_unknown(option, names))
        given, others = self.parse_known_args(words, namespace)
        if others:
            self.error(_unknown(others[0].partition("=")[0], names))  # without its value
        return given

    def error(self, message: str) -> NoReturn:
        """Ends the program, and hides an argument that isn't the name of a command."""
        hidden = r"invalid choice: .*(?=\(choose)"
        message = re.sub(hidden, "unknown word ", message, flags=re.S)
        self.print_usage(sys.stderr)
        self.exit(Status.WORDS, f"{self.prog}: error: {message}\n")


def _names_of(parser: argparse.ArgumentParser, words: Sequence[str]) -> Iterator[str]:
    """Yields the options and the commands of a parser, and the options of those commands that are
    among these words."""
    yield from parser._option_string_actions
    for action in parser._actions:
        if isinstance(action, argparse._SubParsersAction):
            yield from action.choices
            for command in action.choices.keys() & words:
                yield from _names_of(action.choices[command], ())


def _options_in(words: Sequence[str]) -> Iterator[str]:
    """Yields the words that are options for ArgumentParser, without their values."""
    for word in itertools.takewhile("--".__ne__, words):
        option = word.partition("=")[0]
        if re.match(r"-[^\d.]", option) and " " not in option:  # a negative number is a value
            yield option


def _unknown(word: str, names: Sequence[str]) -> str:
    """Describes the fault of an argument beside these options and commands. The text doesn't show
    an unknown argument."""
    if not word.startswith("-"):
        return "one argument too many; a password is never an argument: pipe or type it"
    if word in names:
        return f"{word} follows its command"
    said, meant = "an unknown option, which isn't shown", _meant(word, names)
    return f"{said}; is {meant} meant?" if meant else said


def _meant(word: str, names: Sequence[str]) -> str:
    """Returns the options or the command that an unknown option may mean, or an empty text."""
    if word in _SYNONYMS:
        synonym = _SYNONYMS[word]
        return synonym if any(it in synonym for it in names) else ""
    bare = word.lstrip("-")  # with their dashes any two options are alike
    if bare in names:
        return bare
    options = [it[2:] for it in names if it.startswith("--")]
    return "".join(f"--{it}" for it in difflib.get_close_matches(bare, options, 1, 0.7))


def status_of(fault: Exception) -> Status:
    """Returns the exit status for a fault of the library, or of an argument."""
    if isinstance(fault, OutOfMemoryError):
        return Status.MEMORY
    return Status.STREAM if isinstance(fault, NoRandomError) else Status.WORDS


def ended(command: Callable[[], int]) -> int:
    """Runs a command, and returns its exit status even after a refusal, an interrupt or a broken
    stream."""
    try:
        with warnings.catch_warnings():
            warnings.simplefilter("ignore", LowMemoryWarning)  # `memory` prints its own line
            return command()
    except Refusal as refusal:
        say(str(refusal))
        return refusal.status
    except KeyboardInterrupt:
        return 130
    except OSError as fault:
        if not isinstance(fault, BrokenPipeError):
            name = f"{fault.filename}: " if fault.filename else ""
            say(f"{name}{fault.strerror or fault}")
        return Status.STREAM


def positive(text: str) -> int:
    """Reads a number of 1 or more."""
    if not (text.isascii() and text.isdigit() and int(text) > 0):
        raise argparse.ArgumentTypeError(f"{text!r} is not 1 or more")
    return int(text)


def memory(text: str) -> int:
    """Returns the KiB of a number with its unit: 64M, 1G, 65536K or 65536."""
    unit = text[-1:].upper()
    number = text[:-1] if unit in _UNITS else text
    if not (number.isascii() and number.isdigit()):
        raise argparse.ArgumentTypeError(f"{text!r} is not a size such as 64M")
    if unit not in _UNITS and int(number) < LOW_MEMORY:
        say(f"--memory {number} is {number} KiB: write {number}M for MiB, or {number}K for KiB")
    return int(number) * _UNITS.get(unit, 1)


_OF_ARGON2 = {"passes": 3, "memory": 65536, "lanes": 4}
_OF_SCRYPT = {"log2_n": 17}


def add_costs(words: argparse.ArgumentParser) -> None:
    """Adds the options for the costs of a new record."""
    words.add_argument("--scrypt", action="store_true", help="use scrypt instead of Argon2id")
    words.add_argument("--memory", type=memory, help="of Argon2, such as 64M (by default)")
    words.add_argument("--passes", type=int, help="of Argon2; by default 3")
    words.add_argument("--lanes", type=int, help="of Argon2; by default 4")
    words.add_argument("--log2-n", type=int, help="of scrypt; by default 17")


def hasher_of(given: argparse.Namespace) -> Union[PasswordHasher, ScryptHasher]:
    """Builds the hasher of these costs, and raises Refusal for a cost of the other scheme."""
    asked = {name: it for name, it in vars(given).items() if it is not None}
    of, others = _OF_ARGON2, _OF_SCRYPT
    hint = "for scrypt: add --scrypt"
    if given.scrypt:
        of, others, hint = _OF_SCRYPT, _OF_ARGON2, "for Argon2: omit --scrypt"
    for name in sorted(asked.keys() & others.keys()):
        raise Refusal(f"--{name.replace('_', '-')} is {hint}", Status.WORDS)
    costs = [asked.get(name, number) for name, number in of.items()]
    return ScryptHasher(*costs) if given.scrypt else PasswordHasher(*costs)


def read_password(prompt: str = "Password", *, is_new: bool = False) -> bytes:
    """Reads the password: all of standard input, or the user's typing, twice for a new password.

    Raises Refusal if the two differ, if the typing ends without a line, or if standard input is
    closed.
    """
    if sys.stdin is None:
        raise Refusal("standard input is closed", Status.STREAM)
    if not sys.stdin.isatty():
        return sys.stdin.buffer.read()
    try:
        password = getpass.getpass(f"{prompt}: ")
        if is_new and getpass.getpass("The same again: ") != password:
            raise Refusal("the two passwords differ")
    except EOFError:
        raise Refusal("no password was typed") from None
    return password.encode(errors="surrogateescape")


def is_empty(password: bytes) -> bool:
    """Whether a password is empty or has only line ends, as from an unset variable."""
    return not password.strip(b"\r\n")


def hint(password: bytes, is_right: Callable[[bytes], bool]) -> Optional[str]:
    """Returns advice if the password would be right with a different line end, otherwise None."""
    newlines = "`printf %s` adds no newline, but `echo` does"
    bare = password[:-1] if password.endswith(b"\n") else password
    if bare != password:
        ends = [(bare, "without the newline", newlines)]
    else:
        ends = [(password + b"\n", "with a newline", newlines)]
    if bare.endswith(b"\r"):
        ends += [(bare[:-1], "without the carriage return", "`tr -d '\\r'` removes it")]
    for other, said, how in ends:
        if is_right(other):
            return f"the password is right {said} at its end: {how}"
    return None


def say(text: str) -> None:
    """Writes a line on standard error."""
    print(f"rigzumal: {text}", file=sys.stderr)
