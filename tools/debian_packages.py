#!/usr/bin/env python3
"""Installs the packages of tools/debian-packages.txt that this machine lacks, for the tests.

    python3 tools/debian_packages.py

The script needs root on Debian, starts no services of these packages, and makes no requests if
nothing is missing. The script always exits with status 0. If a package isn't available, or if
INSTALL=no is in the environment, the script says so, and the tests that need the package skip
themselves by name.
"""

from __future__ import annotations

import contextlib
import os
import pathlib
import shutil
import signal
import subprocess
import sys
from collections.abc import Iterator
from typing import Any

from tree import TOP

LIST = TOP / "tools/debian-packages.txt"
# The program that invoke-rc.d and systemd's helpers ask before they start a service.
POLICY = pathlib.Path("/usr/sbin/policy-rc.d")
GET = ["apt-get", "-qq", "--yes", "--no-install-recommends"]
# Another apt-get may be at work; and a mirror that doesn't answer costs no more than a minute.
GET += ["-o", "DPkg::Lock::Timeout=600"]
GET += ["-o", "Acquire::Retries=1", "-o", "Acquire::http::Timeout=30"]
LIMIT = 1200


def listed() -> list[str]:
    lines = LIST.read_text().splitlines()
    return [line.split()[0] for line in lines if line and not line.startswith("#")]


def missing() -> list[str]:
    """Returns the listed packages that aren't installed."""
    words = ["dpkg-query", "--show", "--showformat", "${Package} ${db:Status-Status}\n"]
    done = subprocess.run([*words, *listed()], capture_output=True, text=True)
    installed = {
        line.split()[0] for line in done.stdout.splitlines() if line.endswith(" installed")
    }
    return [it for it in listed() if it not in installed]


@contextlib.contextmanager
def no_services() -> Iterator[None]:
    """Keeps packages from starting their services during the block; a signal also ends this."""
    for number in (signal.SIGTERM, signal.SIGHUP):
        signal.signal(number, lambda *_: sys.exit(1))
    is_ours = not POLICY.exists()
    if is_ours:
        POLICY.write_text("#!/bin/sh\nexit 101\n")
        POLICY.chmod(0o755)
    try:
        yield
    finally:
        if is_ours:
            POLICY.unlink()


def get(*words: str) -> str:
    """Runs apt-get, and returns its output if it fails, or nothing."""
    given = {**os.environ, "DEBIAN_FRONTEND": "noninteractive"}
    pipes: dict[str, Any] = {
        "stdin": subprocess.DEVNULL,
        "stdout": subprocess.PIPE,
        "stderr": subprocess.STDOUT,
    }
    try:
        done = subprocess.run([*GET, *words], env=given, text=True, timeout=LIMIT, **pipes)
    except subprocess.TimeoutExpired:
        return f"apt-get {words[0]} took over {LIMIT} s"
    return done.stdout.strip() or "it failed" if done.returncode else ""


def known(names: list[str]) -> list[str]:
    """Returns the packages that this Debian offers, according to the fetched lists."""
    show = ["apt-cache", "show"]
    return [it for it in names if not subprocess.run([*show, it], capture_output=True).returncode]


def install(names: list[str]) -> str:
    """Installs packages. Returns the reason for a failure, or nothing. Fetches the lists if they
    are too old for the packages."""
    with no_services():
        if known(names) == names and not get("install", *names):
            return ""
        return get("update") or get("install", *known(names))


def main() -> int:
    if shutil.which("dpkg-query") is None or shutil.which("apt-get") is None:
        print("packages: this isn't Debian: tests without their packages skip themselves by name")
        return 0
    names = missing()
    if not names:
        return 0
    if os.getuid() or os.environ.get("INSTALL") == "no":
        print(f"packages: not installed, so their tests skip themselves: {' '.join(names)}")
        return 0
    print(f"packages: installing {len(names)} of tools/debian-packages.txt", flush=True)
    if fault := install(names):
        print(f"packages: {fault[-2000:]}")
    if left := missing():
        print(f"packages: not available, so their tests skip themselves: {' '.join(left)}")
    return 0


if __name__ == "__main__":
    sys.exit(main())
