"""tools/pictures.py: bars that agree with their table."""

import re
import sys
from unittest import mock

from tests.helpers import TOP, Case, write_files

sys.path.insert(0, str(TOP / "tools"))
import pictures  # noqa: E402

RESULTS = """Text.

| m (KiB), t, p | Ours, ms | libargon2, ms | libsodium, ms | Ours over libargon2 |
|---|---|---|---|---|
| 65536, 3, 1 | 80.0 | 240.0 | 120.0 | 0.33 |
| 512, 384, 4 | 40.0 | 120.5 |  | 0.33 |

| N, r, p | Ours, ms |
|---|---|
| 16384, 8, 1 | 23.7 |
"""


class Pictures(Case):
    def setUp(self):
        super().setUp()
        self.top = self.room()
        write_files(self.top, {"RESULTS.md": RESULTS})
        places = {"PICTURE": self.top / "speed.svg", "RESULTS": self.top / "RESULTS.md"}
        self.enterContext(mock.patch.multiple(pictures, **places))

    def test_bars(self):
        """A bar is as long as its time, and has the time beside it; a cell without one has none."""
        drawn = pictures.drawn()
        widths = re.findall(r'<rect x="200"[^>]* width="(\d+)" height="16"', drawn)
        self.assertEqual([int(it) for it in widths], [160, 480, 240, 80, 241])
        self.assertEqual(
            re.findall(r">([\d.]+) ms<", drawn), ["80.0", "240.0", "120.0", "40.0", "120.5"]
        )
        for words in ("64 MiB, t = 3, p = 1", "512 KiB, t = 384, p = 4", "Rigzumal", "libsodium"):
            self.assertIn(f">{words}</text>", drawn)
        self.assertIn("prefers-color-scheme: dark", drawn)

    def test_a_picture_of_another_table(self):
        """The check names a picture of another table, with the command that draws it."""
        write_files(self.top, {"speed.svg": pictures.drawn()})
        self.assertEqual([*pictures.check()], [None])
        write_files(self.top, {"RESULTS.md": RESULTS.replace("240.0", "250.0")})
        [fault] = pictures.check()
        self.assertIn("docs/pictures/speed.svg differs: run tools/pictures.py", fault)
