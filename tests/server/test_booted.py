"""The packages in a separate Debian: its systemd is the first process, and PAM asks the book.

The tests need root, the built programs, and debootstrap with the mirror in apt's sources. Instead
of the mirror, they copy the bases of earlier runs: BOOT names a minbase with the packages of
INCLUDED, and EMPTY one with those of EMPTY. The machine's own files, processes, network and
settings don't change.
"""

import pathlib
import shlex
import shutil
import subprocess
from typing import Any

from machine import commands_on_page, shell
from served import CHEAP, TOP, Case, need, need_root, real_book, same
from tests.debian import APART, unpack
from tests.helpers import at_a_terminal, busy
from tests.needs import need_file
from walk import packages

CGROUPS = pathlib.Path("/sys/fs/cgroup")
EMPTY = "systemd,systemd-sysv,dbus"
INCLUDED = f"python3,python3-passlib,libpam-runtime,pamtester,adduser,{EMPTY}"

# What runs inside.
INSIDE = (pathlib.Path(__file__).parent / "inside_booted.py").read_text()

# Who logs in all the time, as far as there is a server.
LOGINS = """import contextlib, socket, time

while True:
    with contextlib.suppress(OSError), socket.socket(socket.AF_UNIX) as it:
        it.settimeout(1)
        it.connect("/run/rigzumal/users/login.sock")
        it.sendall(b"1 known ada\\n")
        it.recv(100)
    time.sleep(0.01)
"""

# What it says, each line or its beginning in this order.
OUGHT = """sh -c 0
700 rigzumal rigzumal
runuser -u 0
systemctl enable 0
active active
/run/rigzumal/users/login.sock 660 root rigzumal
/run/rigzumal/users/admin.sock 600 rigzumal rigzumal
typed 0 enrolled
login verify 1 yes
login verify 1 no
login enrol 1 denied
login change 1 replaced
systemctl restart 0
login verify 1 yes
restarts 1
login verify 1 yes
restarts 2
login verify 1 yes
restarts 3
restarts 8
login verify 1 yes
systemctl restart 1
login verify 1 yes
systemctl restart 0
login verify 1 no
login verify 1 yes
login verify 1 yes
audited 2
systemctl restart 0
runuser -u 0
admin reset 1 replaced
sh /restore.sh 0
login verify 1 yes
CapBnd: 0000000000000000
NoNewPrivs: 1
Seccomp: 2
systemctl stop 0
login verify 1 yes
by its socket active
chosen 0 0 0
pam-auth-update --enable 0
chosen 1 1 1
Password: pamtester: successfully authenticated
pamtester: account management done
pamtester both 1
Current password: New password: Retype new password: pamtester: authentication token altered
Password: pamtester: successfully authenticated
credkeep-server --metrics 0
ended success
3 accounts, 0 changes in the log
credkeep-server: denied at login to uid 0: enrol
credkeep-server: end: status 137, stats yes=1 no=0
dpkg --purge 0
chosen 0 0 0
left /etc/default/credkeep-server-users /var/lib/rigzumal /var/log/rigzumal old old.moved users.db
done"""


def debs() -> list[pathlib.Path]:
    need("dpkg-deb", "dpkg-shlibdeps", "strip")
    need_file(TOP / "out/credbook", TOP / "out/credkeep")
    shell(f"make -s -C {TOP}/c/pam all deb CPU=")
    found = sorted((TOP / "c/pam/out").glob("*.deb"))
    same([it.name.partition("_")[0] for it in found], ["libpam-rigzumal", "rigzumal-tools"])
    return found


def not_booted(room: pathlib.Path, line: str) -> list[str]:
    """The words that run a line of shell in a Debian that isn't booted, beside the repository."""
    mounts = (
        f"mkdir -p {room}{AT} && mount --bind {TOP} {room}{AT} && mount -t proc none {room}/proc"
    )
    inside = shlex.quote(f"mount -t devpts none /dev/pts; cd {AT} && {line}")
    return [*APART, "sh", "-c", f"{mounts} && exec chroot {room} sh -c {inside}"]


def booted(room: pathlib.Path, command: str, *options: str) -> str:
    """The output of a command in the Debian in a folder, which boots, and powers itself off behind
    it."""
    wanted = room / "etc/systemd/system/multi-user.target.wants"
    wanted.mkdir(exist_ok=True)
    (wanted.parent / "inside.service").write_text(UNIT.format(command=command))
    (wanted / "inside.service").symlink_to("../inside.service")
    words = "systemd-nspawn --quiet --boot --register=no --keep-unit --private-network --directory"
    pipes: Any = {"stdout": subprocess.PIPE, "stderr": subprocess.STDOUT}
    try:
        done = subprocess.run(
            [*words.split(), room, *options],
            stdin=subprocess.DEVNULL,
            timeout=400 * busy(),
            **pipes,
        )
    finally:  # what it leaves of control groups where no systemd runs
        for name in ("payload", "supervisor"):
            for group in (*CGROUPS.glob(name), *CGROUPS.glob(f"*/{name}")):
                shell(f"find {group} -depth -type d -delete")
    said = room / "said"
    return said.read_text() if said.exists() else f"nothing: {done.stdout[-400:]!r}"


# Where the Debian has the repository.
AT = "/root/rigzumal"
UNIT = """[Service]
Type=oneshot
ExecStart={command}
StandardOutput=append:/said
StandardError=append:/said
TimeoutStartSec=600
ExecStopPost=/bin/systemctl poweroff --force --force
"""


class Booted(Case):
    seconds = 1500  # of which a debootstrap may take most

    def debian(self, included: str) -> pathlib.Path:
        """A small Debian in a folder of its own, if it can be fetched."""
        need_root()
        real_book()
        need("unshare", "systemd-nspawn")
        room = self.room() / "root"
        unpack(room, included, "EMPTY" if included is EMPTY else "BOOT")
        return room

    def test_under_systemd(self) -> None:
        """The units start, hand over their sockets, are restarted after kills, and end in order, in
        their whole sandbox. PAM's profile lets the book's users in, and is gone with the packages;
        the book stays.
        """
        room = self.debian(INCLUDED)
        for deb in debs():
            shutil.copy(deb, room)
        options = f"CREDKEEP_SERVER_OPTIONS=--setting {CHEAP}\n"
        (room / "etc/default/credkeep-server-users").write_text(options)
        (room / "inside.py").write_text(INSIDE)
        (room / "logins.py").write_text(LOGINS)
        (line,) = commands_on_page("credkeep-ask --server add")
        (room / "add.sh").write_text(f"{line}\n")
        stop, *others = [*commands_on_page("systemctl stop"), *commands_on_page("systemctl start")]
        restoring = [line for line in commands_on_page("runuser") if " restore " in line]
        lines = [stop, *restoring, *others]
        (room / "restore.sh").write_text("set -e\n" + "\n".join(lines) + "\n")
        said = booted(room, "/usr/bin/python3 /inside.py")
        lines = iter(it.strip() for it in said.splitlines())
        for line in OUGHT.splitlines():
            is_said = any(it.startswith(line) for it in lines)
            self.assertTrue(is_said, f"no {line!r} in its place:\n{said}")
        self.assertNotRegex(said.rpartition("in the log")[2], "c2VjcmV0|ada", "it is logged")

    def test_a_new_user(self) -> None:
        """The page from an empty Debian, in which not even Python is, to a login by nginx, Dovecot
        and sshd (walk.py)."""
        room = self.debian(EMPTY)
        debs()
        shell(shlex.join(not_booted(room, "apt-get update")))
        (line,) = commands_on_page("apt install ./c/pam")
        shown = at_a_terminal(not_booted(room, line), [b"\n"])
        self.assertEqual(shown.status, 0, shown.text)
        fetch = "apt-get install --yes --download-only python3-h11"
        words = " ".join(packages(it) for it in ("nginx", "Dovecot", "sshd"))
        shell(shlex.join(not_booted(room, f"{fetch} {words}")))  # for a machine without a network
        walk = f"/usr/bin/python3 -B {AT}/tests/server/walk.py"
        said = booted(room, walk, f"--bind-ro={TOP}:{AT}")
        self.assertIn("\nOK\n", said)
