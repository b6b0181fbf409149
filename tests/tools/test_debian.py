"""tests/debian.py: the mirror of the tests that unpack a Debian, in each form of apt's sources."""

import unittest

from tests.debian import mirror
from tests.helpers import Case, each, write_files

LINES = """# deb http://comment.example/debian bookworm main
deb-src http://source.example/debian bookworm main
deb http://other.example/debian trixie main
deb http://contrib.example/debian bookworm contrib
deb http://updates.example/debian bookworm-updates main
deb cdrom:[Debian]/ bookworm main
"""
MIRROR = "deb [arch=amd64 check-valid-until=no] http://deb.example:8080/debian/ bookworm main\n"
FIELDS = """Types: deb deb-src
URIs: file:/srv/debian
Suites: bookworm bookworm-updates
Components: main contrib
"""


class Mirror(Case):
    @each(
        ({"sources.list": LINES + MIRROR}, "http://deb.example:8080/debian"),
        ({"sources.list": "", "sources.list.d/a.list": MIRROR}, "http://deb.example:8080/debian"),
        ({"sources.list.d/debian.sources": FIELDS}, "file:/srv/debian"),
        ({"sources.list": LINES, "sources.list.d/b.sources": FIELDS}, "file:/srv/debian"),
    )
    def test_found(self, files: dict[str, str], found: str) -> None:
        """It is that of the suite itself, with packages of main."""
        room = self.room()
        write_files(room, files)
        self.assertEqual(mirror(str(room)), found)

    @each({"sources.list": LINES}, {"sources.list.d/off.sources": f"Enabled: no\n{FIELDS}"})
    def test_none(self, files: dict[str, str]) -> None:
        """Without one the tests skip themselves by name."""
        room = self.room()
        write_files(room, files)
        with self.assertRaisesRegex(unittest.SkipTest, "needs a mirror of Debian 12"):
            mirror(str(room))
