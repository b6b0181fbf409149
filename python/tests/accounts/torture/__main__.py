"""The command; the package describes its arguments. Status 4 means an illegal history, or one that
shows nothing."""

import argparse
import os
import pathlib
import shutil
import sys

FOLDER = pathlib.Path(__file__).resolve().parent
sys.path = [str(FOLDER.parent), str(FOLDER.parents[2]), *sys.path]

from rigzumal._commands import Words, positive, say  # noqa: E402
import torture  # noqa: E402
from torture import logs  # noqa: E402


def parser():
    form, url = argparse.RawDescriptionHelpFormatter, os.environ.get("RIGZUMAL_DATABASE", "")
    words = Words(prog="torture", description=torture.__doc__, formatter_class=form)
    words.add_argument("--database", metavar="URL", default=url, dest="url")
    words.add_argument("--table", default="rigzumal_torture", help="made, and dropped again")
    words.add_argument("--processes", type=positive, default=8)
    words.add_argument("--seconds", type=positive, default=60)
    words.add_argument("--accounts", type=positive, default=4)
    words.add_argument("--seed", type=int, default=argparse.SUPPRESS, help="of what is asked")
    words.add_argument("--kill", action="store_true", help="processes, now and then")
    words.add_argument("--confirm", action="store_true", help="each answer, by a write")
    words.add_argument("--logs", type=pathlib.Path, dest="folder", help="a folder for the logs")
    words.add_argument("log", metavar="LOG", nargs="*", help="of a run, which is judged")
    return words


def fault_of(made):
    """Runs a torture; returns the fault of its history, or nothing if it is legal and shows
    enough."""
    accounts = made.run()
    if not logs.is_legal(accounts, f", {made.killed} killed, seed {made.seed}"):
        return f"the table stays, and the logs: {made.folder}"
    if not any(it.makes_change for one in accounts.values() for it in one.operations):
        return "no change was made, so nothing is shown"
    if made.kill and not made.killed:
        return "no process was killed, so nothing is shown of that"
    made.drop()
    return ""


def main(words=None):
    """Runs the command, and returns its exit status."""
    given = vars(parser().parse_args(words))
    paths, folder = given.pop("log"), given["folder"]
    if paths:
        return 0 if logs.is_legal(logs.read(paths)) else 4
    made = torture.Torture(**given)
    fault = fault_of(made)
    if fault:
        say(fault)
    elif folder is None:
        shutil.rmtree(made.folder)
    return 4 if fault else 0


if __name__ == "__main__":
    sys.exit(main())
