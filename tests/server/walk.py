"""The commands of docs/SERVERS.md for a new user, in an empty Debian that has booted.
test_booted.py runs this program there."""

import pathlib
import re
import unittest

from machine import PAGE, RUN, commands_on_page, install, is_open, shell
from served import Case, Client, until
from test_expired import LOGINS
from test_sites import imap, remove_system_users, status_of
from tests.helpers import at_a_terminal


def part(title: str) -> str:
    """A part of the page."""
    return PAGE.read_text().partition(f"\n## {title}\n")[2].partition("\n## ")[0]


def block(title: str, word: str) -> list[str]:
    """The lines of shell of a part that begin with a word."""
    found = re.search(rf"```sh\n({word}\b.*?)```", part(title), re.S)
    assert found, f"{title} has no {word}"
    return found[1].splitlines()


def packages(title: str) -> str:
    """The needs of a part of the page."""
    (names,) = re.findall(r"^Packages?: ([^.;]+)[.;]", part(title), re.M)
    return names.replace(",", "")


def install_packages(names: str) -> None:
    shell(f"DEBIAN_FRONTEND=noninteractive apt-get install --yes {names}")


class Walk(Case):
    seconds = 600

    def type(self, line: str, *typed: str, status: int = 0) -> str:
        """The output of a line at a terminal where so much is typed, and no more."""
        shown = at_a_terminal(["sh", "-c", line], [f"{it}\n".encode() for it in typed])
        said = shown.text.decode()
        self.assertEqual(shown.status, status, f"{line}: {said}")
        return said

    def test_walk(self) -> None:
        self.start()
        for login in (self.nginx, self.nginx_by_http, self.dovecot, self.sshd):
            with self.subTest(login.__name__):
                login()

    def start(self) -> None:
        """The book and its server, with its first account."""
        for line in block("Start it", "runuser"):
            passwords = ("secret", "secret") if " add ada" in line else ()
            self.type(line, *passwords)
        with Client(RUN / "login.sock") as client:
            client.talk("verify ada {secret} -> yes")

    def statuses(self, port: int, *passwords: str) -> list[int]:
        return [status_of(port, "ada", it) for it in passwords]

    def nginx(self) -> None:
        install_packages(packages("nginx"))
        install("/etc/pam.d/nginx", "/etc/nginx/sites-enabled/book")
        shell("systemctl restart nginx")
        self.assertEqual(self.statuses(8080, "secret", "guess"), [403, 401])
        pathlib.Path("/var/www/html/index.html").write_text("x")
        self.assertEqual(self.statuses(8080, "secret"), [200])

    def nginx_by_http(self) -> None:
        install_packages("python3-h11")
        install("/etc/nginx/sites-enabled/http")
        (option,) = re.findall(r"`(--http /\S+)`", part("nginx"))
        options = pathlib.Path("/etc/default/credkeep-server-users")
        options.write_text(f"CREDKEEP_SERVER_OPTIONS={option}\n")
        for line in block("nginx", "systemctl enable credkeep-server-http"):
            self.type(line)
        shell("systemctl reload nginx")
        until(lambda: is_open(8083), "nginx")
        self.assertEqual(self.statuses(8083, "secret", "guess"), [200, 401])

    def dovecot(self) -> None:
        install_packages(packages("Dovecot"))
        remove_system_users()
        for line in commands_on_page("adduser --system --group --home /srv/vmail"):
            self.type(line)
        install("/etc/pam.d/dovecot", "/etc/dovecot/local.conf")
        shell("systemctl restart dovecot")
        until(lambda: is_open(143), "dovecot")
        self.assertEqual([imap("ada", it) for it in ("secret", "guess")], [True, False])

    def sshd(self) -> None:
        """Right and wrong; one that must be changed; a locked name; and what the others say of
        these."""
        install_packages(packages("sshd"))
        (line,) = re.findall(r"`(adduser [^`]+ ada)`", part("sshd"))
        self.type(" ".join(line.split()))
        install("/etc/pam.d/sshd", "/etc/ssh/sshd_config.d/book.conf")
        shell("systemctl restart ssh")
        line = " ".join(it.format("ada") for it in LOGINS["sshd"])
        new = "Fresh words"
        self.assertIn("ada", self.type(line, "secret"))
        self.type(line, "guess", status=255)
        self.administer("expire ann")
        self.assertEqual((self.statuses(8080, "secret"), imap("ada", "secret")), ([401], False))
        self.assertIn("ada", self.type(line, "secret", "secret", new, new))
        self.type(line, "secret", status=255)
        self.assertIn("ada", self.type(line, new))
        self.administer("lock ann")
        self.type(line, new, status=255)
        self.assertEqual((self.statuses(8080, new), imap("ada", new)), ([401], False))
        self.administer("unlock ann")
        self.assertIn("ada", self.type(line, new))
        self.assertEqual((self.statuses(8080, new), imap("ada", new)), ([200], True))

    def administer(self, words: str) -> None:
        """Types an administrator's command of the page for our user."""
        found = re.findall(r"`(?:credkeep-ask --server )?(\w+ ann)`", part("What you see"))
        self.assertIn(words, found)
        self.type(f"credkeep-ask --server {words.replace('ann', 'ada')}")


if __name__ == "__main__":
    unittest.main()
