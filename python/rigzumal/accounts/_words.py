"""The arguments of the shell command, and the passwords that it reads."""

from __future__ import annotations

import argparse
import os
import pathlib
import sys
from collections.abc import Mapping
from typing import Union

from rigzumal import PasswordHasher, ScryptHasher
from rigzumal._commands import Refusal, Status, Words, add_costs, hasher_of, is_empty
from rigzumal._commands import read_password


def _options() -> Words:
    """Returns the options of each command, which may also precede the command."""
    words = Words(add_help=False, argument_default=argparse.SUPPRESS)
    words.add_argument("--database", metavar="URL")
    words.add_argument("--table", help="by default: accounts")
    words.add_argument("--key", help="the column of names; by default: name")
    words.add_argument("--record", help="the column of records; by default: record")
    words.add_argument("--numbers", action="store_true", help="the names are whole numbers")
    words.add_argument("--json", action="store_true", help="write lines of JSON")
    confirm = "confirm each answer by a write (docs/SCALE.md)"
    words.add_argument("--confirm", action="store_true", help=confirm)
    opaque = "hash RFC 8265's form of passwords, like prepare=rigzumal.opaque_string"
    words.add_argument("--opaque", action="store_true", help=opaque)
    secret = "a file with the pepper; repeat the option for older peppers"
    words.add_argument("--secret", metavar="FILE", action="append", help=secret)
    add_costs(words)
    return words


def parser(description: str, texts: Mapping[str, str]) -> argparse.ArgumentParser:
    """Builds the command's parser, with a help text for each subcommand."""
    words = Words(
        prog="python3 -m rigzumal accounts",
        description=description,
        formatter_class=argparse.RawDescriptionHelpFormatter,
        parents=[_options()],
    )
    url = os.environ.get("RIGZUMAL_DATABASE")
    words.set_defaults(database=url, table="accounts", key="name", record="record")
    words.set_defaults(numbers=False, json=False, confirm=False, opaque=False)
    words.set_defaults(scrypt=False)
    commands = words.add_subparsers(
        dest="command", required=True, metavar="COMMAND", parser_class=Words
    )
    options = [_options()]
    made = {
        name: commands.add_parser(name, help=text, description=f"{text}.", parents=options)
        for name, text in texts.items()
    }
    for name in ("add", "check", "change", "reset", "disable", "delete", "rename"):
        made[name].add_argument("name", metavar="NAME")
    made["rename"].add_argument("new", metavar="NEW")
    show = "print the removed record as a line for import"
    made["disable"].add_argument("--show", action="store_true", help=show)
    prometheus = "write Prometheus' text format"
    made["report"].add_argument("--prometheus", action="store_true", help=prometheus)
    file = 'lines "NAME RECORD"'
    made["import"].add_argument("file", metavar="FILE", type=pathlib.Path, help=file)
    foreign = "accept records of other schemes, for your hook"
    made["import"].add_argument("--foreign", action="store_true", help=foreign)
    return words


def accounts_hasher(args: argparse.Namespace) -> Union[PasswordHasher, ScryptHasher]:
    """Builds the hasher of the costs, with the pepper of --secret."""
    hasher = hasher_of(args)
    secrets = [pathlib.Path(it).read_bytes() for it in getattr(args, "secret", ())]
    if not secrets:
        return hasher
    if not isinstance(hasher, PasswordHasher):
        raise Refusal("scrypt has no pepper: omit --secret", Status.WORDS)
    return hasher.replace(secrets=secrets)


def password_of(*, is_new: bool = False) -> bytes:
    """Reads the password from the terminal, or from standard input without one newline at its
    end."""
    return _checked(read_password(is_new=is_new).removesuffix(b"\n"))


def old_and_new() -> tuple[bytes, bytes]:
    """Reads the old password and the new one, from the terminal or as two lines."""
    if sys.stdin is not None and sys.stdin.isatty():
        old = read_password("Old password")
        return _checked(old), _checked(read_password("New password", is_new=True))
    lines = read_password().removesuffix(b"\n").split(b"\n")
    if len(lines) != 2:
        raise Refusal("change reads two lines: the old password and the new one")
    old, new = map(_checked, lines)
    return old, new


def _checked(password: bytes) -> bytes:
    if is_empty(password):
        raise Refusal("no password: the input is empty")
    return password
