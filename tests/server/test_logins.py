"""Debian's own programs, unchanged, log users of the machine in by the book, as docs/SERVERS.md
describes.

The tests don't change the machine, and leave no process. They write the files that a program reads
from the page, word for word. They ask credkeep itself or, with BOOK=fast, the fast book.
"""

import contextlib
import pathlib
import socket
import threading
from collections.abc import Iterator

from machine import RUN, begun, in_namespaces, install, is_open, keeps_out, lets_in, on_page
from machine import pamtester, shell, started
from served import PYTHON, Case, Client, need, until
from tests.helpers import at_a_terminal, ended

# The ends of what is logged of a wrong password, of one that is too early, and of an unknown name.
OUR_TRIES = ["192.0.2.7  user=ada", "192.0.2.7 ", "192.0.2.7 "]


def install_stack(*more: str) -> None:
    """The stack beside pam_unix, as the service `both`."""
    install("/etc/pam.d/common-auth", "/etc/pam.d/common-account", *more)
    both = "@include common-auth\n@include common-account\n"
    pathlib.Path("/etc/pam.d/both").write_text(both)


@contextlib.contextmanager
def logged() -> Iterator[list[str]]:
    """The lines that programs log by syslog meanwhile."""
    lines: list[str] = []
    with socket.socket(socket.AF_UNIX, socket.SOCK_DGRAM) as syslog:
        syslog.bind("/dev/log")

        def read() -> None:
            while line := syslog.recv(4096):
                lines.append(line.decode().rstrip("\0\n"))

        reading = threading.Thread(target=read)
        reading.start()
        try:
            yield lines
        finally:  # a reader that isn't ended would keep a failed test from ending
            with socket.socket(socket.AF_UNIX, socket.SOCK_DGRAM) as end:
                end.sendto(b"", "/dev/log")
            reading.join()


class Logins(Case):
    @in_namespaces
    def test_pam(self, room: pathlib.Path) -> None:
        """pamtester: right, wrong, unknown, disabled, a change, too many tries."""
        need("pamtester")
        server = started(room)
        install("/etc/pam.d/book")
        lets_in("book", "ada", "secret", "authenticate acct_mgmt")
        keeps_out("book", "ada", "guess")
        keeps_out("book", "zoe", "guess", "User not known")
        keeps_out("book", "ada lovelace", "guess", "User not known")
        pamtester("book", "zoe", "acct_mgmt", "", 1, "User not known")
        pamtester("book", "ada", "chauthtok", "secret\nfresh\nfresh\n", 0, "successfully")
        lets_in("book", "ada", "fresh")
        keeps_out("book", "ada", "secret")
        pamtester("book", "ada", "chauthtok", "secret\nx\nx\n", 1, "Authentication failure")
        pamtester("book", "ada", "chauthtok", "fresh\nx\ny\n", 1, "")
        server.talk("admin disable bob -> disabled")
        keeps_out("book", "bob", "other word")
        pamtester("book", "bob", "acct_mgmt", "", 1, "expired")
        with Client(RUN / "login.sock") as client:
            for _ in range(10):
                client.ask("verify ada -")
        keeps_out("book", "ada", "fresh", "Have exhausted maximum number of retries")

    @in_namespaces
    def test_stack(self, room: pathlib.Path) -> None:
        """The stack before pam_unix: by the book where it has the name, otherwise by
        /etc/shadow."""
        need("pamtester")
        server, both = started(room), "authenticate acct_mgmt"
        install_stack()
        lets_in("both", "ada", "secret", both)
        keeps_out("both", "ada", "unixword")
        lets_in("both", "bob", "other word", both)
        lets_in("both", "eve", "unixword", both)
        keeps_out("both", "eve", "secret")
        server.stop()
        lets_in("both", "ada", "unixword", both)
        keeps_out("both", "ada", "secret")
        server = begun()
        lets_in("both", "ada", "secret", both)
        server.process.kill()
        server.process.wait()
        lets_in("both", "eve", "unixword", both)

    @in_namespaces
    def test_local_users(self, room: pathlib.Path) -> None:
        """A user outside of the book who types the right password is let in each time, and logged
        as no failed try."""
        need("pamtester")
        started(room)
        install_stack()
        with logged() as lines:
            for _ in range(24):
                lets_in("both", "eve", "unixword", "authenticate acct_mgmt")
            for _ in range(12):
                keeps_out("both", "ada", "guess", "")
        ours = [it for it in lines if "pam_rigzumal" in it]
        self.assertEqual(len(ours), 12, f"{ours}")
        self.assertEqual(len([it for it in ours if it.endswith(" user=ada")]), 10)

    @in_namespaces
    def test_empty_and_long_passwords(self, room: pathlib.Path) -> None:
        """A local user may have a password that no book accepts."""
        need("pamtester")
        started(room)
        install_stack()
        long = "x" * 300
        crypted = f"import crypt; print(crypt.crypt('{long}', '\\$6\\$saltsalt'))"
        shell(f'usermod -p "$({PYTHON} -W ignore -c "{crypted}")" eve')
        lets_in("both", "eve", long, "authenticate acct_mgmt")
        keeps_out("both", "eve", f"{long}y")
        shell("usermod -p '' eve")
        lets_in("both", "eve", "", "authenticate acct_mgmt")
        keeps_out("both", "ada", "")

    @in_namespaces
    def test_passwords_of_local_users(self, room: pathlib.Path) -> None:
        """root's passwd, chpasswd and adduser set a local user's password; one in the book changes
        by the old one."""
        need("passwd", "chpasswd", "adduser", "pamtester")
        server = started(room)
        install_stack("/etc/pam.d/common-password")
        own = "setpriv --reuid {} --regid people --clear-groups passwd"
        one, two = "fresh word1", "fresh word2"
        for words, typed, status in (
            ("passwd eve", [one, one], 0),
            (own.format("eve"), [one, two, two], 0),
            (own.format("eve"), [one], 10),
            ("adduser --gecos x zed", [two, two], 0),
            (own.format("ada"), ["secret", "wordy", "wordy"], 0),
            ("passwd ada", ["secret"], 10),
        ):
            shown = at_a_terminal(words.split(), [f"{it}\n".encode() for it in typed])
            self.assertEqual(shown.status, status, f"{words}: {shown.text!r}")
        lets_in("both", "eve", two)
        lets_in("both", "zed", two)
        lets_in("both", "ada", "wordy")
        shell("echo 'eve:fresh word4' | chpasswd")
        lets_in("both", "eve", "fresh word4")
        server.stop()
        shell("echo 'eve:fresh word5' | chpasswd")
        lets_in("both", "eve", "fresh word5")

    @in_namespaces
    def test_su(self, room: pathlib.Path) -> None:
        """su, by a user who can't reach the socket: the book's password; /etc/shadow's while it is
        down."""
        need("su", "setpriv")
        server = started(room)
        install_stack()
        more = ("auth", "account", "session-noninteractive")
        lines = ["auth sufficient pam_rootok.so", *(f"@include common-{it}" for it in more)]
        pathlib.Path("/etc/pam.d/su").write_text("\n".join(lines) + "\n")

        def tried(password: str) -> str:
            other_user = ["setpriv", "--reuid", "4712", "--regid", "4711", "--clear-groups"]
            words = [*other_user, "su", "ada", "-c", "id -un"]
            return ended(words, f"{password}\n").written.strip()

        self.assertEqual([tried("secret"), tried("guess"), tried("unixword")], ["ada", "", ""])
        server.stop()
        self.assertEqual([tried("secret"), tried("unixword")], ["", "ada"])

    @in_namespaces
    def test_sshd(self, room: pathlib.Path) -> None:
        """A login by keyboard-interactive; one by key, refused once the account is disabled."""
        need("sshd", "ssh", "sshpass", "ssh-keygen")
        server = started(room)
        install("/etc/pam.d/sshd", "/etc/ssh/sshd_config.d/book.conf")
        pathlib.Path("/etc/pam.d/common-session").write_text("session required pam_permit.so\n")
        shell(f"ssh-keygen -A && ssh-keygen -q -t ed25519 -N '' -f {room}/key")
        shell(f"mkdir -p /etc/ssh/keys && cp {room}/key.pub /etc/ssh/keys/ada")
        options = "-o 'AuthorizedKeysFile /etc/ssh/keys/%u' -o 'ListenAddress 127.0.0.1'"
        shell(f"/usr/sbin/sshd {options}")
        until(lambda: is_open(22), "sshd")

        def ssh(before: str, words: str, user: str = "ada") -> str:
            common = "-o StrictHostKeyChecking=no -o UserKnownHostsFile=/dev/null"
            common += " -o LogLevel=ERROR -o NumberOfPasswordPrompts=1"
            line = f"{before} ssh {common} {words} {user}@127.0.0.1 id -un"
            return ended(["sh", "-c", line]).written.strip()

        def tried(password: str, user: str = "ada") -> str:
            words = "-o PreferredAuthentications=keyboard-interactive -o PubkeyAuthentication=no"
            return ssh(f"sshpass -p '{password}'", words, user)

        def by_key() -> str:
            return ssh("", f"-i {room}/key -o BatchMode=yes")

        self.assertEqual([tried("secret"), tried("guess"), tried("unixword")], ["ada", "", ""])
        self.assertEqual([tried("unixword", "eve"), by_key()], ["", "ada"])
        server.talk("admin disable ada -> disabled")
        self.assertEqual([tried("secret"), by_key()], ["", ""])

    @in_namespaces
    def test_fail2ban(self, room: pathlib.Path) -> None:
        """fail2ban takes the page's jail, whose filter finds the address of each kind of failed
        try."""
        need("pamtester", "fail2ban-client", "fail2ban-regex")
        started(room)
        install("/etc/pam.d/book", "/etc/fail2ban/jail.d/book.conf")
        self.assertIn("pam_(?:unix|rigzumal)", shell("fail2ban-client -d"))
        shell("rm -f /var/log/auth.log && fail2ban-client -t")  # as without rsyslog
        with logged() as lines:
            for _ in range(11):  # the last of which is too early
                keeps_out("book", "ada", "guess", "")
            keeps_out("book", "zoe", "guess", "User not known")
        failed = [it.partition(">")[2] for it in lines if "authentication failure; " in it]
        self.assertEqual([it.rpartition(" rhost=")[2] for it in failed[9:]], OUR_TRIES)
        (room / "syslog").write_text("".join(f"{it[:15]} mail{it[15:]}\n" for it in failed))
        chosen = on_page("/etc/fail2ban/jail.d/book.conf").partition("filter  = ")[2].strip()
        found = shell(f"fail2ban-regex --out ip {room}/syslog '{chosen}'")
        self.assertEqual(found.split(), ["192.0.2.7"] * 12)
