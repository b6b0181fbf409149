"""tools/pages.py: README's times beside BUILDING's, the order of crates in ARCHITECTURE, shared
clauses, and wrong bodies."""

import subprocess
import sys
from unittest import mock

from tests.helpers import TOP, Case, each, need, write_files
from tests.needs import need_git

sys.path.insert(0, str(TOP / "tools"))
import items  # noqa: E402
import pages  # noqa: E402
import tree  # noqa: E402

README = "It takes, from nothing on four processors,\n34 to 79 minutes.\n"
BUILDING = """The times below are from virtual machines with four processors. Others are slower.

| What | Elapsed |
|---|--:|
| `.ci/run` from nothing, nothing else running | 33 min 40 s to 1 h 19 min |
| `.ci/run` from nothing on two processors | 52 min 9 s |
"""
SAID = "README.md lacks `{}`, which docs/BUILDING.md has"
CRATES = {"low": ("low", []), "other": ("other", ["std"]), "high": ("high", ["low", "other"])}
ROW = "| [{0}](../crates/{0}) | what it gives |\n"
TESTS = "| [high](../crates/high), [low](../crates/low) | both |\n"
SHARING = """pub fn one(x: u8) -> u8
    requires small { x ≤ 7 }
    ensures same { result
        ≡ x }
{
    x
}
struct Other;
impl Other {
    fn two(&self, x: u8) -> u8
        requires small { x ≤ 7 }
        ensures same { result
        ≡ x }
        ensures { 0 ≤ result };
    fn three(&self, x: u8) -> u8
        requires small { x ≤ 8 }
        ensures same { result
        ≡ x }
    {
        x
    }
}
"""
# The names and arrows of a picture.
DRAWN = "low other high high&#45;&gt;low high&#45;&gt;other"
SHARED = "clauses that two functions share"
AGAIN = "lines of longer clauses that stand again"


class Pages(Case):
    @each(
        (README, BUILDING, []),
        (README, BUILDING.replace("33 min 40", "33 min 20"), ["33 to 79 minutes"]),
        (README, BUILDING.replace("33 min 40 s to ", ""), ["79 minutes"]),
        (README, BUILDING.replace(" to 1 h 19 min", ""), ["34 minutes"]),
        (README.replace("34", "39"), BUILDING, ["34 to 79 minutes"]),
        (README.replace("four", "some"), BUILDING, ["four processors"]),
        (README, BUILDING.replace("`.ci/run`", "It"), ["no time of `.ci/run` from nothing"]),
        (README, BUILDING.replace("processors", "cores"), ["no time of some number of processors"]),
    )
    def test_times(self, readme: str, building: str, wrong: list[str]) -> None:
        """Minutes are rounded, and both ends of a range count, and the processors."""
        room = self.room()
        write_files(room, {"README.md": readme, "BUILDING.md": building})
        places = {"README": room / "README.md", "BUILDING": room / "BUILDING.md"}
        with mock.patch.multiple(pages, **places):
            found = [it for it in pages.times() if it]
        no_time = [f"docs/BUILDING.md has {it}" for it in wrong if it.startswith("no ")]
        self.assertEqual(found, no_time or [SAID.format(it) for it in wrong])

    @each(
        (["low", "other", "high"], []),
        (["other", "low", "high"], []),
        (["low", "high", "other"], ["high above other, which it uses"]),
        (["high", "low", "other"], ["high above low, other, which it uses"]),
        (["low", "high"], ["no other"]),
    )
    def test_order(self, rows: list[str], wrong: list[str]) -> None:
        """A crate is below those that it uses."""
        page = "".join(map(ROW.format, rows))
        self.assertEqual(
            self.order(page), [f"docs/ARCHITECTURE.md's table has {it}" for it in wrong]
        )

    def order(self, page: str) -> list[str]:
        room = self.room()
        write_files(room, {"docs/ARCHITECTURE.md": page})
        patched = mock.patch.object(pages, "TOP", room)
        with patched, mock.patch.object(pages, "listed", lambda: CRATES):
            with mock.patch.object(tree, "listed", lambda: CRATES):
                return [it for it in pages.order() if it]

    @each(
        ("high -> { low other };", DRAWN, []),
        ("high -> { low };", DRAWN, ["dot: high is not above low, other alone"]),
        ("high -> { low other };", DRAWN.replace(" high&#45;&gt;other", ""), ["svg lacks high"]),
        ("high -> { low other };", DRAWN.replace(" other", "", 1), ["svg lacks other"]),
    )
    def test_picture(self, dot: str, svg: str, wrong: list[str]) -> None:
        """The picture has each crate above those that it uses."""
        room = self.room()
        shown = "".join(f">{it}</text><title>{it}</title>" for it in svg.split())
        write_files(
            room, {"docs/pictures/crates.dot": f"{dot}\n", "docs/pictures/crates.svg": shown}
        )
        write_files(room, {f"{it}/README.md": "" for it in CRATES})
        with mock.patch.multiple(pages, TOP=room, CRATES=room, listed=lambda: CRATES):
            with mock.patch.object(tree, "listed", lambda: CRATES):
                found = [it for it in pages.rooms() if it]
        self.assertEqual(len(found), len(wrong))
        for fault, part in zip(found, wrong):
            self.assertIn(f"docs/pictures/crates.{part}", fault)

    def test_merges(self) -> None:
        """A file that keeps a mark of a merge is named, and a quoted mark is none."""
        need("git")
        room = self.room()
        write_files(room, {"a.md": "one\n<<<<<<< HEAD\ntwo\n", "b.md": "a line '<<<<<<< HEAD'\n"})
        for words in (["init", "-q"], ["add", "."]):
            subprocess.run(["git", *words], cwd=room, check=True)
        with mock.patch.object(pages, "TOP", room):
            found = [it for it in pages.merges() if it]
        self.assertEqual(found, ["a.md has the marks of a merge"])

    def test_shared_clauses(self) -> None:
        """Two functions share the clauses that are equal word for word, and the lines of a clause
        of several lines count from its second function on. Examples don't count."""
        room = self.room()
        write_files(room, {"low/src/lib.rt": SHARING, "example_of_use/src/lib.rt": SHARING})
        with mock.patch.object(items, "CRATES", room):
            found = items.shared_clauses()
        self.assertEqual(found, {SHARED: 2, AGAIN: 4})

    def test_limits_of_shared_clauses(self) -> None:
        """The tool complains of more shared clauses than the limits allow."""
        need_git()
        counts = {SHARED: pages.MOST[SHARED] + 1, AGAIN: pages.MOST[AGAIN]}
        with mock.patch.object(items, "shared_clauses", return_value=counts):
            found = [it for it in pages.house() if it]
        self.assertEqual(found, [f"8 {SHARED}: the limit is 7"])

    def test_wrong_bodies(self) -> None:
        """A wrong body applies if its old text is once in its crate, and the tool looks at each."""
        self.assertIn(pages.applied, pages.OF_TREE)
        olds = {"once": "{ 1 }", "none": "{ 4 }", "twice": "{ 3 }"}
        edits = "\n".join(f"{name}: one\n- {old}\n+ {{ 2 }}\n" for name, old in olds.items())
        code = "fn one() { 1 }\nfn two() { 3 } // { 3 }\n"
        room = self.room()
        write_files(room, {"low/src/lib.rt": code, "low/wrong-bodies.edits": edits})
        with mock.patch.object(pages, "CRATES", room):
            found = [it for it in pages.applied() if it]
        self.assertEqual(found, ["low/none doesn't apply", "low/twice doesn't apply"])

    def test_statements(self) -> None:
        """The tool compares the promises too."""
        self.assertIn(pages.statements.check, pages.OF_TREE)

    def test_two_in_a_row(self) -> None:
        """Crates of one row are beside each other."""
        self.assertEqual(self.order(ROW.format("other") + TESTS), [])
