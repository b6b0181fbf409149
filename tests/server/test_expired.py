"""If a user must change a password in /etc/shadow, Debian's own su, login and sshd change it at the
login, beside the book."""

import pathlib
import shutil

from machine import in_namespaces, install, is_open, keeps_out, lets_in, shell, started
from served import TOP, Case, Service, need, until
from tests.helpers import at_a_terminal

# How an administrator or time has it that a password must be changed.
EXPIRED = {
    "expired": "passwd -q -e eve",
    "the first one": "userdel eve && useradd -m eve && echo eve:unixword | chpasswd"
    " && chage -d 0 eve",
    "too old": "chage -d 2020-01-01 -M 30 eve",
}
SU = ["setpriv", "--reuid", "4711", "--regid", "4711", "--clear-groups", "su", "{}", "-c"]
SSH = "ssh -tt -o StrictHostKeyChecking=no -o UserKnownHostsFile=/dev/null -o LogLevel=ERROR"
SSH += " -o NumberOfPasswordPrompts=1 -o PreferredAuthentications=keyboard-interactive"
LOGINS = {
    "su": [*SU, "whoami"],
    "sshd": [*SSH.split(), "{}@127.0.0.1", "whoami"],
}
PROGRAMS = {**LOGINS, "login": ["login", "{}"]}


class Expired(Case):
    def begin(self, room: pathlib.Path) -> Service:
        """A machine on which eve is a local user, and sshd runs, by Debian's own files."""
        need("su", "setpriv", "sshd", "ssh", "ssh-keygen", "pamtester", "chage")
        server = started(room)
        shell("printf 'KbdInteractiveAuthentication yes\n' > /etc/ssh/sshd_config.d/ours.conf")
        shell("ssh-keygen -A && /usr/sbin/sshd -o 'ListenAddress 127.0.0.1'")
        until(lambda: is_open(22), "sshd")
        return server

    def check(self, program: str, user: str, *typed: str) -> None:
        """A user is let in after typing exactly these lines."""
        words = [it.format(user) for it in PROGRAMS[program]]
        shown = at_a_terminal(words, [f"{it}\n".encode() for it in typed])
        said = f"{program} of {user}: {shown.text!r}"
        self.assertEqual((shown.status, shown.text.split()[-1:]), (0, [user.encode()]), said)

    def check_stack(self, server: Service) -> None:
        """Local users change theirs, also without a server, and the book's if an administrator
        demands it."""
        server.talk("admin expire ada -> expired")
        shown = at_a_terminal([it.format("ada") for it in LOGINS["su"]], [b"secret\n"] * 4)
        self.assertNotEqual(shown.status, 0)
        self.assertIn(b"The new password is the old one.", shown.text)
        for program in LOGINS:
            server.talk("admin expire ada -> expired")
            self.check(program, "ada", "secret", "secret", "Fresh words", "Fresh words")
            self.check(program, "ada", "Fresh words")
            server.talk("admin reset ada {secret} -> replaced")
        old, passwords = "unixword", iter(f"Fresh words {at}" for at in range(99))
        shell("printf '@include common-auth\n@include common-account\n' > /etc/pam.d/both")
        for why, command in [*EXPIRED.items(), ("without a server", EXPIRED["expired"])]:
            if why == "without a server":
                server.stop()
            for program in LOGINS:
                with self.subTest(why, program=program):
                    old = "unixword" if "unixword" in command else old
                    new = next(passwords)
                    shell(command)
                    self.check(program, "eve", old, old, new, new)
                    lets_in("both", "eve", new, "authenticate acct_mgmt")
                    old = new
            if why == "too old":  # which is nothing to the book
                shell("chage -d 0 ada")
                for program in LOGINS:
                    self.check(program, "ada", "secret")
        keeps_out("both", "eve", "unixword")

    @in_namespaces
    def test_the_pages_stack(self, room: pathlib.Path) -> None:
        server = self.begin(room)
        install(*(f"/etc/pam.d/common-{it}" for it in ("auth", "account", "password")))
        self.check_stack(server)

    @in_namespaces
    def test_the_packages_profile(self, room: pathlib.Path) -> None:
        need("pam-auth-update")
        server = self.begin(room)
        shutil.copy(TOP / "packaging/pam-profile", "/usr/share/pam-configs/rigzumal")
        shell("DEBIAN_FRONTEND=noninteractive pam-auth-update --enable rigzumal --package")
        self.check_stack(server)

    @in_namespaces
    def test_login_and_the_pages_sshd(self, room: pathlib.Path) -> None:
        """login, and sshd by the page's own file, where the book alone decides; a locked user is
        refused."""
        need("login")
        server = self.begin(room)
        install(*(f"/etc/pam.d/common-{it}" for it in ("auth", "account", "password")))
        install("/etc/pam.d/sshd")
        shell("usermod -s /usr/bin/whoami eve && usermod -s /bin/sh ada")
        server.enrol(eve="secret")
        for program, user in (("login", "eve"), ("sshd", "ada")):
            server.talk(f"admin expire {user} -> expired")
            self.check(program, user, "secret", "secret", "Fresh words", "Fresh words")
            self.check(program, user, "Fresh words")
            server.talk(f"admin lock {user} -> locked")
        words = [it.format("ada") for it in LOGINS["sshd"]]
        self.assertNotEqual(at_a_terminal(words, [b"Fresh words\n"]).status, 0)

    @in_namespaces
    def test_a_name_in_both(self, room: pathlib.Path) -> None:
        """If pam_unix decides too about a name of the book, its password is changed as well."""
        self.begin(room)
        install("/etc/pam.d/common-auth", "/etc/pam.d/common-password")
        lines = "account required pam_unix.so\naccount required pam_rigzumal.so\n"
        pathlib.Path("/etc/pam.d/common-account").write_text(lines)
        shell("chage -d 0 ada")
        self.check("su", "ada", "secret", "unixword", "Fresh words 1", "Fresh words 1")
        self.check("su", "ada", "secret")
