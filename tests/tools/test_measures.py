"""The code that computes the benchmarks' figures: bench/turns.py and bench/c/libraries.py."""

import pathlib
import sys
import unittest
from unittest import mock

from tests.helpers import TOP, Case, each, run
from tests.needs import lacking

sys.path = [str(TOP / "bench/c"), str(TOP / "bench"), *sys.path]
import libraries  # noqa: E402
import turns  # noqa: E402


class Turns(unittest.TestCase):
    def test_figures(self):
        """Ratios are of the first over the second, turn by turn."""
        ours, theirs = [(1, 30), (2, 10), (6, 20)], [(4, 10), (4, 10), (4, 40)]
        self.assertEqual((turns.best(ours), turns.best(ours, 1)), (1, 10))
        self.assertEqual((turns.median(ours), turns.median(theirs, 1)), (2, 10))
        self.assertEqual((turns.ratio(ours, theirs), turns.ratio(ours, theirs, 1)), (0.25, 1))
        self.assertEqual(turns.median_ratio(ours, theirs), 0.5)
        self.assertEqual(turns.median_ratio(ours, theirs, 1), 1)
        self.assertEqual(turns.median_ratio(theirs, ours), 2)

    def test_the_first_turns_do_not_count(self):
        figures = iter([(9,), (1,), (2,)])
        found = turns.take_turns({"row": {"way": lambda: (next(figures), b"tag")}}, 2)
        self.assertEqual(found, {"row": {"way": [(1,), (2,)]}})

    def test_ways_that_make_different_tags_are_not_compared(self):
        rows = {"row": {"one": lambda: ((1,), b"tag"), "other": lambda: ((1,), b"gat")}}
        with self.assertRaisesRegex(SystemExit, "the results of row differ"):
            turns.take_turns(rows, 1)


class Libraries(unittest.TestCase):
    def test_libsodium_is_initialised(self):
        """The benchmark initialises libsodium, which runs slow code otherwise."""
        found = mock.Mock()
        with mock.patch.object(libraries, "library", return_value=found):
            for answer in (0, 1):  # anew, and already
                found.sodium_init = mock.Mock(return_value=answer)
                self.assertIs(libraries.libsodium(), found)
                found.sodium_init.assert_called_once_with()
            found.sodium_init.return_value = -1
            self.assertRaises(SystemExit, libraries.libsodium)

    @each(libraries.sodium_argon2, libraries.sodium_scrypt)
    def test_libsodium_that_is_not_initialised_is_not_timed(self, way):
        self.assertRaises(SystemExit, way, mock.Mock(sodium_init=mock.Mock(return_value=0)))
        self.assertTrue(callable(way(mock.Mock(sodium_init=mock.Mock(return_value=1)))))


class Pages(Case):
    """bench/c/run.py's count of huge pages, in a process that maps 16 MiB and asks for none."""

    MAPS = """
import mmap, sys
sys.path = {folders!r} + sys.path
import run
run.have_pages({whose!r})
room = mmap.mmap(-1, 1 << 24, flags=mmap.MAP_PRIVATE | mmap.MAP_ANONYMOUS)
if {asks!r}:
    room.madvise(mmap.MADV_HUGEPAGE)
room[:] = bytes(1 << 24)
print(run.huge_pages())
"""

    def test_who_has_huge_pages(self):
        allowed = pathlib.Path("/sys/kernel/mm/transparent_hugepage/enabled").read_text()
        if "[never]" in allowed:
            raise lacking("huge pages")
        folders, always = [str(TOP / it) for it in ("bench/c", "bench")], "[always]" in allowed
        for whose, asks, has_some in (
            ("own", False, always),
            ("own", True, True),
            ("none", True, False),
            ("all", False, True),
        ):
            with self.subTest(whose, asks=asks):
                script = self.room() / "maps.py"
                script.write_text(self.MAPS.format(folders=folders, whose=whose, asks=asks))
                self.assertEqual(int(run(sys.executable, script)) > 0, has_some)
