"""The command line.

credkeep-ask FILE COMMAND ..                runs credkeep
credkeep-ask --server [SOCKET] COMMAND ..   asks the server that has the book
"""

from __future__ import annotations

import signal
import sys

from .commands import COMMANDS, LONGEST_NAME, OPTIONS, Commands, is_name
from .file import ask_credkeep
from .server import Server
from .terminal import end

HEAD = """usage: credkeep-ask FILE COMMAND .., as in credkeep(1)
       credkeep-ask --server [SOCKET] COMMAND [NAME]

SOCKET is an administrator's socket: its path, or its book's name (users). COMMAND is one of
"""
WIDTH = 22  # the width of a command with its fields
HELP = frozenset({"-h", "--help"})


def usage() -> str:
    """Returns the help text, with a line for each command for a server."""
    commands = [(f"{word} {command.words}", command.text) for word, command in COMMANDS.items()]
    return HEAD + "\n".join(f"  {words:{WIDTH}}{text}" for words, text in commands)


def how_many(counts: range) -> str:
    """Spells out the number of arguments of a command."""
    if len(counts) > 1:
        return "a name or none"
    if counts.start == 0:
        return "no names"
    return "1 name" if counts.start == 1 else f"{counts.start} names"


def path_of(book: str) -> str:
    """Returns the path of an administrator's socket, from that path or from the name of its
    book."""
    return book if "/" in book else f"/run/rigzumal/{book}/admin.sock"


def ask_server(words: list[str]) -> int:
    """Asks the server, prints its answer, and returns the status."""
    is_book_named = bool(words) and words[0] not in COMMANDS
    book, words = (words[0], words[1:]) if is_book_named else ("users", words)
    command, *rest = words or [""]
    if command not in COMMANDS:
        end(1, f"no such command\n{usage()}")
    options = [word for word in rest if word in OPTIONS.get(command, ())]
    behind = [word for word in rest if word not in options]
    if len(behind) not in COMMANDS[command].counts:
        end(1, f"{command} takes {how_many(COMMANDS[command].counts)}")
    if command != "backup" and not all(map(is_name, behind)):
        end(1, f"a name has no spaces, and 1 to {LONGEST_NAME} bytes of UTF-8")
    return Commands(Server(path_of(book))).do(command, behind, options)


def main() -> int:
    signal.signal(signal.SIGINT, signal.SIG_DFL)
    words = sys.argv[1:]
    is_server = words[:1] == ["--server"]
    asks_for_help = HELP.intersection(words if is_server else words[:1])
    if not words or asks_for_help:
        print(usage())
        return 0
    return ask_server(words[1:]) if is_server else ask_credkeep(words)
