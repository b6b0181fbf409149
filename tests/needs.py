"""The needs of a test. A test that lacks one skips itself with the text `needs KIND NAME`.
tools/run_tests.py asks `excuse` whether the machine really lacks it: any other skip is a failure.
A program that a new test needs has to be in OF_PACKAGES or OTHERS.
"""

from __future__ import annotations

import ctypes.util
import functools
import glob
import os
import pathlib
import pwd
import shutil
import subprocess
import sys
import unittest
from collections.abc import Callable

TOP = pathlib.Path(__file__).resolve().parent.parent
ARCH = os.environ.get("ARCH", "x86_64")
IS_NATIVE = ARCH == "x86_64"
# The programs of a system's services are found whoever runs the tests.
os.environ["PATH"] += ":/usr/sbin:/sbin:/usr/lib/dovecot"

# The programs that tests may need, by the packages of tools/debian-packages.txt that bring them.
OF_PACKAGES: dict[str, tuple[str, ...]] = {
    "adduser": ("adduser",),
    "apache2": ("apache2",),
    "apache2-utils": ("htpasswd",),
    "argon2": ("argon2",),
    "binutils": (
        "nm",
        "objdump",
        "strip",
    ),
    "clang-format": ("clang-format",),
    "cmake": ("cmake",),
    "cryptsetup-bin": ("cryptsetup",),
    "curl": ("curl",),
    "dovecot-imapd": (
        "dovecot",
        "doveadm",
    ),
    "dpkg-dev": ("dpkg-shlibdeps",),
    "fail2ban": (
        "fail2ban-client",
        "fail2ban-regex",
    ),
    "fish": ("fish",),
    "g++": (
        "c++",
        "g++",
    ),
    "gcc": (
        "cc",
        "gcc",
        "x86_64-linux-gnu-gcc",
    ),
    "gcc-aarch64-linux-gnu": ("aarch64-linux-gnu-gcc",),
    "iproute2": ("ip",),
    "make": ("make",),
    "mariadb-server": (
        "mariadb-install-db",
        "mariadbd",
    ),
    "mypy": ("mypy",),
    "nginx": ("nginx",),
    "openssh-server": (
        "ssh",
        "ssh-keygen",
        "sshd",
    ),
    "openssl": ("openssl",),
    "pamtester": ("pamtester",),
    "passwd": (
        "chage",
        "chpasswd",
        "passwd",
        "usermod",
    ),
    "perl": ("perl",),
    "pgbouncer": ("pgbouncer",),
    "php-cli": ("php",),
    "pkg-config": ("pkg-config",),
    "postfix": (
        "postconf",
        "postfix",
    ),
    "prometheus-node-exporter": ("prometheus-node-exporter",),
    "python3-django": ("django-admin",),
    "qemu-user": (
        "qemu-aarch64",
        "qemu-x86_64",
    ),
    "rsync": ("rsync",),
    "sasl2-bin": (
        "saslauthd",
        "testsaslauthd",
    ),
    "socat": ("socat",),
    "sshpass": ("sshpass",),
    "strace": ("strace",),
    "systemd": (
        "systemctl",
        "systemd-analyze",
        "systemd-socket-activate",
    ),
    "util-linux": (
        "fallocate",
        "fsfreeze",
        "prlimit",
        "setpriv",
        "setsid",
        "unshare",
    ),
    "valgrind": ("valgrind",),
    "whois": ("mkpasswd",),
    "xxd": ("xxd",),
    "zsh": ("zsh",),
}
# Other programs, by why a machine may lack them.
OTHERS: dict[str, tuple[str, ...]] = {
    "every Debian has it": (
        "apt-get",
        "b2sum",
        "base32",
        "bash",
        "dpkg-deb",
        "dpkg-query",
        "ldd",
        "login",
        "losetup",
        "mkfs.ext4",
        "mount",
        "dpkg",
        "pam-auth-update",
        "su",
    ),
    "another compiler": (
        "clang",
        "clang-13",
        "gcc-11",
    ),
    "Rust's own": (
        "cargo",
        "cargo-clippy",
        "cargo-fmt",
        "rustc",
    ),
    "only long tests need it": (
        "debootstrap",
        "systemd-nspawn",
    ),
    "only few tests need it": (
        "chromedriver",
        "git",
        "pip3",
        "sqlite3",
    ),
    "nobody else has it": ("rt",),
}
PROGRAMS = {name for names in (*OF_PACKAGES.values(), *OTHERS.values()) for name in names}

# What only the test itself can see that it isn't there.
UNSEEN = {
    "a Debian that debootstrap fetches",
    "a newer cargo",  # than Debian 12 has
    "a cryptsetup that runs",
    "a mirror of Debian 12 in apt's sources",
    "a processor with that build",
    "a toolchain that makes that build",
    "bytes out of band at Unix sockets",
    "set-user-ID programs in the temporary folder",
}
HUGE_PAGES = pathlib.Path("/sys/kernel/mm/transparent_hugepage/enabled")


def said_by(*words: str) -> str:
    """What a command prints: nothing where its program is missing."""
    try:
        return subprocess.run(words, capture_output=True, text=True, errors="replace").stdout
    except OSError:
        return ""


def is_musl() -> bool:
    return "musl" in os.environ.get("CC", "")


def lacks_argon2_of_php() -> bool:
    return "argon2id" not in said_by("php", "-r", "echo implode(' ', password_algos());")


def lacks_new_sqlalchemy() -> bool:
    code = "import sqlalchemy; print(sqlalchemy.__version__)"
    return said_by(sys.executable, "-c", code) < "2"


# What has no name of its own: whether it is missing.
SEEN: dict[str, Callable[[], bool]] = {
    "a newer SQLAlchemy": lacks_new_sqlalchemy,
    "a PHP with Argon2": lacks_argon2_of_php,
    "a PHP with libargon2": lambda: "libargon2" not in said_by("ldd", shutil.which("php") or ""),
    "a PHP with pdo_sqlite": lambda: "pdo_sqlite" not in said_by("php", "-m"),
    "a glibc": is_musl,  # where the library is for musl
    # Where the library is for others.
    "a processor and a C library of this machine": lambda: not IS_NATIVE or is_musl(),
    "huge pages": lambda: not HUGE_PAGES.is_file() or "[never]" in HUGE_PAGES.read_text(),
}


def lacks_program(name: str) -> bool:
    return shutil.which(name) is None


@functools.cache
def lacks_module(name: str, python: str = sys.executable) -> bool:
    return subprocess.run([python, "-c", f"import {name}"], capture_output=True).returncode != 0


def lacks_library(name: str) -> bool:
    return ctypes.util.find_library(name) is None


def lacks_file(form: str) -> bool:
    return not glob.glob(form)


def lacks_user(name: str) -> bool:
    return name not in {it.pw_name for it in pwd.getpwall()}


# What a skip may name, by the words behind "needs": whether a name of that kind is missing. A
# misspelt program would be missing for ever.
KINDS: dict[str, Callable[[str], bool]] = {
    "the program": lambda name: name in PROGRAMS and lacks_program(name),
    "Python's module": lacks_module,
    "the library": lacks_library,
    "the file": lacks_file,
    "the user": lacks_user,
    "the variable": lambda name: name not in os.environ,
    "no variable": lambda name: name in os.environ,
    "to be": lambda name: name == "root" and os.getuid() != 0,
    "the processor": lambda name: name == "x86_64" and not IS_NATIVE,
}
# The tests of passlib itself, some of which are of what our handlers aren't.
OF_PASSLIB = "another kind of handler: "


def excuse(reason: str) -> bool:
    """Whether the text of a skip names what the machine lacks."""
    if not reason.startswith("needs "):
        return False
    what = reason.removeprefix("needs ")
    if what in SEEN:
        return SEEN[what]()
    kind, _, name = what.rpartition(" ")  # no name has a space
    is_missing = KINDS.get(kind)
    return is_missing(name) if is_missing else what in UNSEEN or what.startswith(OF_PASSLIB)


def lacking(what: str) -> unittest.SkipTest:
    """The exception of a test that is skipped for want of this: the words of a kind and a name."""
    return unittest.SkipTest(f"needs {what}")


def need(*programs: str) -> None:
    """Skips a test where one of these programs isn't installed."""
    for name in programs:
        if lacks_program(name):
            raise lacking(f"the program {name}")


def need_git() -> None:
    """Skips a test that lists the committed files: an unpacked tarball has no repository."""
    need("git")
    need_file(TOP / ".git")


def need_module(*names: str, python: str = sys.executable) -> None:
    """Skips a test where a Python, or this one, lacks one of these modules."""
    for name in names:
        if lacks_module(name, python):
            raise lacking(f"Python's module {name}")


def need_library(name: str) -> None:
    if lacks_library(name):
        raise lacking(f"the library {name}")


def need_file(*paths: str | pathlib.Path) -> None:
    """Skips a test where one of these files or folders isn't there; a `*` is any name."""
    for path in paths:
        if lacks_file(str(path)):
            raise lacking(f"the file {path}")


def need_user(name: str) -> None:
    if lacks_user(name):
        raise lacking(f"the user {name}")


def need_variable(name: str) -> str:
    """The value of a variable of the environment; a skipped test where it isn't set."""
    if name not in os.environ:
        raise lacking(f"the variable {name}")
    return os.environ[name]


def need_root() -> None:
    if os.getuid():
        raise lacking("to be root")


def need_native() -> None:
    """Skips a test that looks at the program's process, or bounds it: on this machine that would be
    the emulator's."""
    if not IS_NATIVE:
        raise lacking("the processor x86_64")
