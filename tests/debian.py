"""A small Debian 12 in a folder, which debootstrap unpacks from the machine's own mirror."""

from __future__ import annotations

import os
import pathlib
import re
import subprocess

from tests.helpers import run
from tests.needs import lacking, need

RELEASE = "bookworm"
# Runs a command with mounts and processes of its own, which end with it.
APART = ("unshare", "--mount", "--pid", "--fork", "--kill-child")


def mirror(settings: str = "/etc/apt") -> str:
    """Returns the first mirror of Debian 12 among apt's sources, as apt itself reads them."""
    need("apt-get")
    said = run("apt-get", "update", "--print-uris", "-o", f"Dir::Etc={settings}")
    found = re.search(rf"'((?:https?|file):\S+)/dists/{RELEASE}/main/binary-", said)
    if found is None:
        raise lacking("a mirror of Debian 12 in apt's sources")
    return found[1]


def unpack(folder: pathlib.Path, packages: str, variable: str) -> None:
    """Unpacks a minbase with these packages in a new folder, or copies the Debian of the folder
    that this variable of the environment names."""
    if variable in os.environ:
        run("cp", "-a", os.environ[variable], folder)
        return
    need("debootstrap", "unshare")
    words = [*APART, "--mount-proc", "debootstrap", "--variant=minbase", f"--include={packages}"]
    words += [RELEASE, str(folder), mirror()]
    done = subprocess.run(words, capture_output=True, text=True, timeout=1200)
    if done.returncode:
        print(done.stdout[-400:], done.stderr[-400:])
        raise lacking("a Debian that debootstrap fetches")
