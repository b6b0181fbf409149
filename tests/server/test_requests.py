"""Tests of bin/credkeep-server: the rights of its sockets, and the tags of its answers."""

import grp
import os
import pathlib
import socket
import stat
import subprocess

from served import SECRET, WRONG, Case, Client, Given, as_user, field_of, need, need_root


def mode_of(path: pathlib.Path) -> int:
    return stat.S_IMODE(path.stat().st_mode)


# Lines that the login socket denies.
DENIED = ["enrol", "account", "load", "show", "rename", "list", "reset", "disable", "delete"]
DENIED += ["login", "upgrade", "remove", "serve", "backup"]
# Lines that take a setting behind them, and the answers where they may have one.
TAKE_SETTINGS = {
    f"change ada {SECRET} {SECRET}": "replaced",
    f"reset ada {SECRET}": "replaced",
    f"enrol bob {SECRET}": "enrolled",
    f"upgrade ada {SECRET}": "upgraded",
}
DEAR, CHEAPEST = "$argon2id$v=19$m=262144,t=40,p=1$c2FsdHNhbHQ", "$scrypt$ln=1,r=1,p=1$c2FsdA"
NO_OPERATIONS = ["VERIFY", "verify,change", "", "all", "verif", "verifyx", "\xff"]
# Notes the mode of each socket as it is bound.
SPY = """import os, socket, _socket
def bind(self, path):
    _socket.socket.bind(self, path)
    with open({!r}, "a") as it:
        print(oct(os.stat(path).st_mode & 0o777), file=it)
socket.socket.bind = bind
"""
# Two servers with no --socket: for a book in /var/lib/rigzumal, and for one elsewhere.
DEFAULTS = """set -e
for it in /run /var/lib; do mount -t tmpfs none $it; done
mkdir -p /run/rigzumal/users /var/lib/rigzumal
cp /etc/group {room}/group
echo rigzumal:x:64999: >> {room}/group && mount --bind {room}/group /etc/group
mkdir {room}/a.b
{first} 2> {room}/log1 & {second} 2> {room}/log2 &
for log in log1 log2; do until grep -q start: {room}/$log; do sleep 0.05; done; done
stat -c '%n %a %g' /run/rigzumal/*/*.sock /run/rigzumal/tmp*; kill %1 %2; wait"""


class Asking(Case):
    def test_operations_by_socket(self) -> None:
        """The login socket allows three operations, the admin's all; the book never gets a denied
        line."""
        service = self.serving().enrol(ada="secret")
        login, admin = service.both()
        login.talk("verify zoe {secret} -> noaccount")
        line = f"verify zoe {SECRET}"
        self.assertEqual(service.asked()[-1], line, "the book hashes for an unknown name")
        asked = len(service.asked())
        for word in [*DENIED, *NO_OPERATIONS]:
            self.assertEqual(login.ask(f"{word} ada {SECRET}"), "denied", word)
        self.assertEqual(login.ask("show"), "denied")
        self.assertEqual(len(service.asked()), asked, "a denied line came to the book")
        self.assertTrue(admin.ask("show").startswith("bad "), "show without a name")

    def test_settings(self) -> None:
        """A line may set costs, high or low, only through a socket that may load records."""
        room = self.room()
        hashing = "verify,login,change,upgrade,remove,enrol,reset"
        to_hash = ["--socket", "hashing", f"{room}/hashing", "0600", "-", f"{hashing},account,show"]
        to_load = ["--socket", "loading", f"{room}/loading", "0600", "-", f"{hashing},load"]
        service = self.serving("--tries", "0", *to_hash, *to_load).enrol(ada="secret")
        service.talk("admin account bob -> ok")
        asked = len(service.asked())
        with Client(room / "hashing") as may_hash, Client(room / "loading") as may_load:
            lines = [(may_hash, it) for it in TAKE_SETTINGS]
            lines.append((service.client(), f"change ada {SECRET} {SECRET}"))
            for client, line in lines:
                for setting in (DEAR, CHEAPEST, "$fast$c=2", "x", "", f"{DEAR} x"):
                    with self.subTest(line, setting=setting):
                        self.assertEqual(client.ask(f"{line} {setting}"), "denied")
            self.assertEqual(len(service.asked()), asked, "a denied line came to the book")
            for line in ("verify ada {secret}", "login ada {secret}", "remove ada {secret}"):
                may_hash.talk(f"{line} {CHEAPEST} -> bad 11 line")
            for client, costs in ((service.client("admin"), "2"), (may_load, "3")):
                for line, said in TAKE_SETTINGS.items():
                    setting = f"$fast$c={costs if 'upgrade' not in line else 4}$c2FsdHNhbHQ"
                    with self.subTest(line, setting=setting):
                        self.assertEqual(client.ask(f"{line} {setting}"), said)
                service.talk("admin disable bob -> disabled")
        self.assertIn(
            f"denied at hashing to uid {os.getuid()}: reset with a setting", service.log()
        )
        self.assertEqual(service.stats()["denied"], 6 * 5)

    def test_sockets_of_its_own(self) -> None:
        """Each --socket has its path, mode, group and operations."""
        room = self.room()
        to_check = ["--socket", "check", f"{room}/check", "0640", "-", "verify"]
        to_add = ["--socket", "adding", f"{room}/adding", "0600", "-", "account,enrol"]
        self.serving(*to_check, *to_add).enrol(ada="secret")
        with Client(room / "check") as check, Client(room / "adding") as adding:
            check.talk("verify ada {secret} -> yes\nknown ada -> denied")
            adding.talk("account bob -> ok\nverify ada {secret} -> denied")
            adding.talk("change ada {secret} {secret} -> denied")
        self.assertEqual(mode_of(room / "check"), 0o640)

    def test_default_sockets(self) -> None:
        """Without --socket: login.sock and admin.sock in a folder by the book's name, or by its
        path elsewhere."""
        need_root()
        need("unshare")
        room = self.room()
        folders = (pathlib.Path("/var/lib/rigzumal"), room / "a.b")
        first, second = (" ".join(Given(it, sockets=False).command()) for it in folders)
        text = DEFAULTS.format(room=room, first=first, second=second)
        script = ["unshare", "-m", "bash", "-c", text]
        done = subprocess.run(script, capture_output=True, text=True, timeout=60)
        self.assertEqual(done.returncode, 0, done.stderr)
        other = f"/run/rigzumal/{'-'.join(room.parts[1:])}-a.b-users"
        ought = "{0}/admin.sock 600 0\n{0}/login.sock 660 64999\n"
        both = ought.format(other) + ought.format("/run/rigzumal/users")
        self.assertEqual(done.stdout, f"{both}{other} 755 0\n", "its folder, which all may enter")

    def test_modes(self) -> None:
        """A socket is never reachable for others: neither before its mode is set nor after."""
        room = self.room()
        (room / "sitecustomize.py").write_text(SPY.format(f"{room}/modes"))
        before = ("sh", "-c", 'umask 0; exec "$@"', "sh")
        service = self.serving(environment={"PYTHONPATH": str(room)}, before=before)
        self.assertEqual((room / "modes").read_text().split(), ["0o600", "0o600"])
        modes = (mode_of(service.path()), mode_of(service.path("admin")))
        self.assertEqual(modes, (0o660, 0o600))

    def test_other_users(self) -> None:
        """The login socket is for its group, the admin socket for its owner."""
        need_root()
        room, name = self.room(), grp.getgrgid(33).gr_name
        login = ["--socket", "a", f"{room}/login", "0660", name, "verify,known"]
        admin = ["--socket", "b", f"{room}/admin", "0600", "-", "all"]
        service = self.serving(*login, *admin)
        service.enrol(ada="secret")
        for gid, door, said in (
            (33, "login", "yes"),
            (4711, "login", "not permitted"),
            (33, "admin", "not permitted"),
        ):
            self.assertEqual(as_user(4711, gid, room / door, "known ada"), said)

    def test_paths_that_are_taken(self) -> None:
        """A dead socket is replaced; a file, or a socket that is listened at, ends the start, and
        stays."""
        path = self.room() / "s"
        words = ["--socket", "a", str(path), "0600", "-", "all"]
        with socket.socket(socket.AF_UNIX) as dead:
            dead.bind(str(path))
        service = self.serving(*words)
        with Client(path) as client:
            client.talk("known ada -> noaccount")
        service.stop()
        path.unlink()
        with socket.socket(socket.AF_UNIX) as other:
            other.bind(str(path))
            other.listen()
            status, log = self.serving(*words, waits=False).ended()
        said = f"credkeep-server: another server listens at {path}\n"
        self.assertEqual((status, said in log, path.is_socket()), (1, True, True), log)
        path.unlink()
        path.write_text("precious")
        status, log = self.serving(*words, waits=False).ended()
        self.assertEqual(status, 1)
        self.assertIn(f"credkeep-server: {path}: Address already in use\n", log)
        self.assertEqual(path.read_text(), "precious")

    def test_tags(self) -> None:
        """Tags are a client's own. A line with a faulty tag is answered under *, and a tag used
        twice gets two answers."""
        service = self.serving(faults="late").enrol(ada="secret")
        one, two = service.client(), service.client()
        one.send(f"a verify ada {SECRET}\n" * 2)
        two.send(f"a verify ada {WRONG}\n" * 2)
        self.assertEqual((one.lines(2), two.lines(2)), ([b"a yes"] * 2, [b"a no"] * 2))
        cases = [
            (f"{tag} known ada", b"* bad 11 line") for tag in ("A", "a-b", "", "*", "\xe4", "1\t")
        ]
        cases += [(f"{'x' * 21} known ada", b"* bad 11 line")]
        cases += [(f"{tag} known ada", b"%b yes" % tag.encode()) for tag in ("0", "x" * 20, "a0z9")]
        cases += [(line, b"* bad 11 line") for line in ("", " ", "\r")]
        cases += [("a", b"a denied"), ("a ", b"a denied")]
        cases += [(f"a verify ada {SECRET}\r", b"a bad 13 password")]
        for line, said in cases:
            one.send(line + "\n")
            self.assertEqual(one.line(), said, repr(line))

    def test_answers_that_are_none(self) -> None:
        """The server passes on a book's answer that isn't printable text, or whose wait isn't 1 to
        900 s, as unavailable, and logs it."""
        waits = ("later", "later 0", "later 901", "later 1000", "later 07", "later -1", "later 1 x")
        for answer in ("y\u00e9s", "yes\x07", "\x1b[1myes", *waits, "later ", "later 1.5"):
            service = self.serving(faults=f"answers={answer}").enrol(ada="secret")
            service.client().talk("verify ada {secret} -> unavailable")
            self.assertIn("the book sent an unknown answer", service.log(), answer)
            self.assertEqual((service.stats()["later"], service.stats()["waits"]), (0, 0))
        for answer in ("later 1", "later 900"):
            service = self.serving(faults=f"answers={answer}").enrol(ada="secret")
            service.client().talk("verify ada {secret} -> later")

    def test_least_length(self) -> None:
        """A new password of too few characters of UTF-8 is refused by name, and the old one stays;
        logins are as before."""
        folder = self.room()
        self.serving(folder=folder).enrol(ada="pw").stop()
        service = self.serving("--least-length", "4", folder=folder)
        service.talk("admin account bob -> ok\nlogin verify ada cHc -> yes")
        for password, is_short in (
            *((b"", True), (b"abc", True), (b"abcd", False), ("pä€".encode(), True)),
            *(("pä€x".encode(), False), (b"\xff\xfe\xfd", True), (b"\xff" * 4, False)),
        ):
            field = field_of(password)
            with self.subTest(password):
                said = "short" if is_short else "replaced"
                service.talk(f"admin reset ada {SECRET} -> replaced")
                service.talk(f"login change ada {SECRET} {field} -> {said}")
                service.talk(f"admin reset ada {field} -> {said}")
                service.talk(f"login verify ada {SECRET if is_short else field} -> yes")
                said = "short" if is_short else "enrolled"
                service.talk(f"admin enrol bob {field} -> {said}")
                service.client("admin").ask("disable bob")
        service.talk("admin reset ada ! -> bad 13 password\nadmin reset ada - -> short")
        service.talk("login change ada {secret} -> bad 11 line")
