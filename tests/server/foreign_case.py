"""The parts that the tests of users of an htpasswd file share: that file, and a server over it."""

from typing import Any

from served import Case, Service, need, need_module
from tests.helpers import run


# Who makes a record of each scheme that nginx takes.
MAKERS = {
    "apr1": "htpasswd -nim u",
    "openssl": "openssl passwd -apr1 -stdin",
    "sha1": "htpasswd -nis u",
    "bcrypt": "htpasswd -niB u",
    "bcrypt-a": "mkpasswd -s -m bcrypt-a",
    "yescrypt": "mkpasswd -s -m yescrypt",
    "gost-yescrypt": "mkpasswd -s -m gost-yescrypt",
    "scrypt": "mkpasswd -s -m scrypt",
    "sha512crypt": "mkpasswd -s -m sha512crypt",
    "sha256crypt": "mkpasswd -s -m sha256crypt",
    "md5crypt": "mkpasswd -s -m md5crypt",
}


def made_by(command: str, password: str) -> str:
    """A record, as another program makes it."""
    return run(*command.split(), given=f"{password}\n").strip().rpartition(":")[2]


class ForeignCase(Case):
    def setUp(self) -> None:
        super().setUp()
        need("htpasswd")
        need_module("passlib.hash")
        self.folder = self.room()
        self.file, self.moved = self.folder / "htpasswd", self.folder / "htpasswd.moved"
        self.file.write_text("# of the old site\n")
        self.file.chmod(0o640)

    def add(self, name: str, option: str, password: str = "secret") -> None:
        run("htpasswd", "-b", option, self.file, name, password)

    def over(self, *options: str, **fields: Any) -> Service:
        return self.serving("--foreign", str(self.file), *options, **fields)

    def gone(self) -> list[str]:
        """The users who count no more in the file, by the disk."""
        return sorted(it.split(" ")[0] for it in self.moved.read_text().splitlines())
