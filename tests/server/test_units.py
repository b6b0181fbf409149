"""Tests of the units by systemd-analyze, and of the calls that they forbid by strace of a server.

test_booted.py runs them.
"""

import re
import shutil
from typing import Any

from machine import PAGE, shell
from served import FAST_BOOK, PYTHON, TOP, Case, Client, chosen_book, is_listening, need, until
from tests.helpers import each

NOT_NEEDED = {"fchown"}  # of a new log, to the book's owner, whose it is

# Who may read what it makes and leaves, how long it may take, how it ends, and where it begins:
# systemd-analyze judges none of these.
LINES = """
Requires=credkeep-server@%i.socket credkeep-server-admin@%i.socket
After=credkeep-server@%i.socket credkeep-server-admin@%i.socket
ConditionPathExists=/var/lib/rigzumal/%i.db
StartLimitIntervalSec=0
Type=notify
NotifyAccess=main
Sockets=credkeep-server@%i.socket credkeep-server-admin@%i.socket
Environment=CREDKEEP_SERVER_OPTIONS=
ExecStart=/usr/sbin/credkeep-server $CREDKEEP_SERVER_OPTIONS /var/lib/rigzumal/%i.db
EnvironmentFile=-/etc/default/credkeep-server-%i
User=rigzumal
Group=rigzumal
StateDirectory=rigzumal
StateDirectoryMode=0700
LogsDirectory=rigzumal
LogsDirectoryMode=0700
UMask=0077
KillMode=mixed
TimeoutStartSec=infinity
TimeoutStopSec=60
Restart=always
RestartSec=1
WatchdogSec=60
OOMPolicy=continue
LimitCORE=0
LimitNOFILE=4096
NoNewPrivileges=yes
RestrictAddressFamilies=AF_UNIX
ProtectProc=default
ProcSubset=pid
SystemCallErrorNumber=EPERM
WantedBy=multi-user.target
"""


def in_set(name: str) -> set[str]:
    """The system calls of one of systemd's sets."""
    said = shell(f"systemd-analyze syscall-filter {name}")
    calls = set()
    for word in re.findall(r"^    (@?\w[\w-]*)", said, re.M):
        calls |= in_set(word) if word.startswith("@") else {word}
    return calls


def allowed_calls() -> set[str]:
    """The system calls that the unit allows."""
    unit, allowed = (TOP / "units/credkeep-server@.service").read_text(), set[str]()
    for sign, name in re.findall(r"^SystemCallFilter=(~?)(@[\w-]+)", unit, re.M):
        allowed = allowed - in_set(name) if sign else allowed | in_set(name)
    return allowed


class Units(Case):
    def units(self) -> list[str]:
        """The units, with the repository's program in place of the installed one."""
        need("systemd-analyze")
        room, program = self.room(), str(TOP / "bin/credkeep-server")
        for path in (TOP / "units").iterdir():
            text = path.read_text().replace("/usr/sbin/credkeep-server", program)
            (room / path.name).write_text(text)
        names = {path.name.replace("@.", "@users.") for path in (TOP / "units").iterdir()}
        kinds = ("server@users.service", "server@users.socket", "server-admin@users.socket")
        ought = [f"credkeep-{it}" for it in (*kinds, "server-http@users.socket")]
        self.assertEqual(names, set(ought))
        return [f"{room}/{it}" for it in ought]

    def test_verified(self) -> None:
        """systemd-analyze verify finds nothing."""
        self.assertEqual(shell(f"systemd-analyze verify --man=no {' '.join(self.units())}"), "")

    def test_sockets(self) -> None:
        """Whatever clients do while a service can't start, none of its sockets stays dead; none is
        anybody's."""
        folders = dict[str, str]()
        for path in sorted((TOP / "units").glob("*.socket")):
            with self.subTest(path.name):
                lines = path.read_text().splitlines()
                for line in (
                    "ConditionPathExists=/var/lib/rigzumal/%i.db",
                    "StartLimitIntervalSec=0",
                    "TriggerLimitIntervalSec=0",
                    "DirectoryMode=0755",
                    "SocketGroup=rigzumal",
                ):
                    self.assertIn(line, lines)
                mode = "0600" if "admin" in path.name else "0660"
                self.assertIn(f"SocketMode={mode}", lines)
                named = dict(it.split("=", 1) for it in lines if "=" in it and it[0] != "#")
                folders[named["FileDescriptorName"]] = named["ListenStream"]
                if path.name != "credkeep-server@.socket":
                    self.assertEqual(named["Service"], "credkeep-server@%i.service")
        ought = {it: f"/run/rigzumal/%i/{it}.sock" for it in ("admin", "http", "login")}
        self.assertEqual(folders, ought)

    def test_http_socket(self) -> None:
        """The page only enables it; then a start of the service opens it, and a boot too."""
        need("systemctl")
        text = PAGE.read_text()
        self.assertFalse("[Socket]" in text, "the page has a unit of its own")
        (line,) = re.findall("^systemctl enable (credkeep-server-http@.*)$", text, re.M)
        room = self.room()
        own = room / "usr/lib/systemd/system"
        shutil.copytree(TOP / "units", own)
        shell(f"systemctl --root={room} --quiet enable {line}")
        wanted = {str(it.relative_to(room)) for it in room.rglob("*.wants/*")}
        by = ("sockets.target", "credkeep-server@users.service")
        self.assertEqual(wanted, {f"etc/systemd/system/{it}.wants/{line}" for it in by})

    def test_exposure(self) -> None:
        """systemd-analyze security gives at most 1.5."""
        words = "systemd-analyze security --offline=true --no-pager --threshold=15"
        (level,) = re.findall(r"Overall exposure.*?: ([\d.]+)", shell(f"{words} {self.units()[0]}"))
        self.assertLessEqual(float(level), 1.5)

    @each(*LINES.strip().splitlines())
    def test_lines(self, line: str) -> None:
        """The service has each line, and no other line of the same setting."""
        setting = line.partition("=")[0]
        lines = (TOP / "units/credkeep-server@.service").read_text().splitlines()
        self.assertEqual([it for it in lines if it.partition("=")[0] == setting], [line])

    def test_page(self) -> None:
        """The page's first commands make the user, the folder and the book of the unit, as the
        package does, and start its service and both of its sockets."""
        page = PAGE.read_text()
        package = (TOP / "packaging/rigzumal-tools/postinst").read_text()
        lines = dict(it.split("=", 1) for it in LINES.strip().splitlines())
        user, group = lines["User"], lines["Group"]
        folder = f"/var/lib/{lines['StateDirectory']}"
        mode = lines["StateDirectoryMode"].lstrip("0")
        added = f"--system --group --no-create-home --home {folder} {user}"
        self.assertIn(f"`adduser {added}`", page)
        self.assertIn(f"adduser --quiet {added}\n", package)
        made = f"`install -d -m {mode} -o {user} -g {group} {folder}`"
        self.assertEqual(re.findall(rf"`install -d [^`]* {folder}`", page), [made])
        for line in (f"mkdir -m {mode} {folder}\n", f"chown {user}:{group} {folder}\n"):
            self.assertIn(f"\t\t{line}", package)
        (start,) = re.findall("^## Start it\n\n```sh\n(.*?)```$", page, re.M | re.S)
        book = lines["ConditionPathExists"].replace("%i", "users")
        wanted = f"{lines['Sockets']} credkeep-server@%i.service".replace("%i", "users")
        commands = [f"runuser -u {user} -- credkeep {book} init"]
        commands.append(f"systemctl enable --now {wanted}")
        self.assertEqual(start.splitlines()[:2], commands)

    def test_system_calls(self) -> None:
        """The system calls of the server and the book are those that the unit allows, or aren't
        needed: they are refused here too."""
        need("strace", "systemd-analyze", "systemd-socket-activate")
        room = self.room()
        (room / "old").write_text("bob:{SHA}5en6G6MezRroT3XKqkdPOmY/BfQ=\n")
        words = f"strace -f -qq -e inject={','.join(NOT_NEEDED)}:error=EPERM -o {room}/trace"
        words += f" systemd-socket-activate --fdname=login:admin -l {room}/login.handed"
        words += f" -l {room}/admin.handed -E PYTHONDONTWRITEBYTECODE=1"
        given: Any = {"program": chosen_book(), "before": tuple(words.split()), "waits": False}
        if given["program"] == FAST_BOOK:
            (room / "users.db-wal").touch()  # as credkeep does
        service = self.serving("--foreign", f"{room}/old", folder=room, **given)
        until(lambda: is_listening(room / "admin.handed"), "the sockets")
        with Client(room / "admin.handed") as admin, Client(room / "login.handed") as login:
            admin.talk("account ada -> ok\nenrol ada {secret} -> enrolled")
            login.talk("verify ada {secret} -> yes\nknown ada -> yes\nverify bob {secret} -> yes")
            login.talk("change ada {secret} {fresh} -> replaced")
        shell(f"pkill -TERM -P {service.process.pid}")
        service.ended()
        self.assertIn("bob ", (room / "old.moved").read_text(), service.log())
        lines = (room / "trace").read_text().splitlines()
        begun = next(at for at, line in enumerate(lines) if "execve(" in line and PYTHON in line)
        ours = "\n".join(lines[begun:])
        calls = set(re.findall(r"^\d+ +(?:<\.\.\. )?(\w+)[( ]", ours, re.M))
        calls -= {"resumed", "exit", "exited", "killed"}
        self.assertTrue(len(calls) > 40, f"{calls}")
        self.assertIn("fallocate", calls)
        self.assertEqual(calls - allowed_calls() - NOT_NEEDED, set(), "what the unit forbids")
        both = re.findall("^.*PROT_WRITE.*PROT_EXEC.*$|^.*PROT_EXEC.*PROT_WRITE.*$", ours, re.M)
        self.assertEqual(both, [], "memory that may be written and run")
        self.assertLessEqual(set(re.findall(r" socket\((\w+)", ours)), {"AF_UNIX"})
