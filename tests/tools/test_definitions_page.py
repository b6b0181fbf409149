"""tools/definitions_page.py: the page of two crates, and the changes that the check finds."""

from __future__ import annotations

import sys

from tests.helpers import TOP, Case, each, ended, write_files

TOOLS = ("definitions_page.py", "definitions.py", "tree.py")
SIZES = """\
-- Sizes, and what is too large.
use Rattle.std.specs.Prelude.{ℕ, ◌≤◌}
use Rattle.std.specs.Ordering.{nat_cmp}
use Rattle.low.specs.declared.kind.Kind.{Kind}
use Rattle.low.specs.declared.kind.Kind.TheVariants.{Small, Large}

-- ---- limits

abbrev pub limit : ℕ
limit = 64

-- of no use to anybody
abbrev pub unused : ℕ
unused = nat_cmp limit limit

-- ---- kinds

-- a small thing
-- has its limit
abbrev pub most : Kind → ℕ
most Small = limit
-- all others have room
most Large = 1024
"""
BOXES = """\
use Rattle.std.specs.Prelude.{ℕ, ◌≤◌, List, length}
use Rattle.std.specs.List.{list_all}
use Rattle.low.specs.{Sizes.most, declared.kind.Kind.Kind}

-- what a box holds
pub record IsBox (kind : Kind) (items : List ℕ) : Type 0 where
  pub fits : length items ≤ most kind
  pub each : list_all (IsItem kind) items

abbrev pub IsItem : Kind → ℕ → Type 0
IsItem kind item = item ≤ most kind
"""
PAGE = """\
# Boxes

<!-- definitions of high.Boxes.IsBox up to low.Sizes.most -->
```text
```

In words.

<!-- definitions of high.Boxes.IsItem, low.Sizes.limit -->
```text
what was here
```
"""
PRINTED = """\
# Boxes

<!-- definitions of high.Boxes.IsBox up to low.Sizes.most -->
```text
-- ---- crates/high/specs/Boxes.antt

-- what a box holds
pub record IsBox (kind : Kind) (items : List ℕ) : Type 0 where
  pub fits : length items ≤ most kind
  pub each : list_all (IsItem kind) items

abbrev pub IsItem : Kind → ℕ → Type 0
IsItem kind item = item ≤ most kind

-- ---- crates/low/specs/Sizes.antt

-- a small thing
-- has its limit
abbrev pub most : Kind → ℕ
most Small = limit
-- all others have room
most Large = 1024

-- of the code: low::Kind

-- of the toolchain: std.List.list_all
```

In words.

<!-- definitions of high.Boxes.IsItem, low.Sizes.limit -->
```text
-- ---- crates/low/specs/Sizes.antt

abbrev pub limit : ℕ
limit = 64
```
"""
AS_THEY_ARE = ["docs/DEFINITIONS.md has the definitions of specs/"]
ANEW = "differs from specs/: `python3 tools/definitions_page.py --write` corrects it"


class DefinitionsPage(Case):
    def setUp(self) -> None:
        super().setUp()
        self.top = self.room()
        write_files(self.top, {f"tools/{it}": (TOP / "tools" / it).read_text() for it in TOOLS})
        crates = {"low/specs/Sizes.antt": SIZES, "high/specs/Boxes.antt": BOXES}
        write_files(self.top / "crates", crates)
        write_files(self.top, {"docs/DEFINITIONS.md": PAGE})

    def told(self, *words: str) -> tuple[int, list[str]]:
        """The status of the tool, and the lines that it printed."""
        done = ended([sys.executable, str(self.top / "tools/definitions_page.py"), *words])
        self.assertEqual(done.faults, "")
        return done.status, done.written.splitlines()

    def page(self) -> str:
        return (self.top / "docs/DEFINITIONS.md").read_text()

    def write_and_change(self, file: str, old: str, new: str) -> None:
        """Prints the page, and then replaces a text that a specification has once."""
        self.told("--write")
        path = self.top / "crates" / file
        self.assertEqual(path.read_text().count(old), 1)
        path.write_text(path.read_text().replace(old, new))

    def test_printed(self) -> None:
        """Each block has the definitions that its line names, and none of an earlier block
        again."""
        blocks = ["high.Boxes.IsBox", "high.Boxes.IsItem, low.Sizes.limit"]
        self.assertEqual(self.told(), (1, [f"docs/DEFINITIONS.md: {it} {ANEW}" for it in blocks]))
        self.assertEqual(self.told("--write"), (0, []))
        self.assertEqual(self.page(), PRINTED)
        self.assertEqual(self.told(), (0, AS_THEY_ARE))
        self.assertEqual(self.told("--write"), (0, []))
        self.assertEqual(self.page(), PRINTED)

    @each(
        ("high/specs/Boxes.antt", "length items ≤ most", "length items ≤ limit", 0),
        ("high/specs/Boxes.antt", "-- what a box holds", "-- what a box has", 0),
        ("high/specs/Boxes.antt", "item ≤ most kind", "1 ≤ most kind", 0),
        ("low/specs/Sizes.antt", "most Large = 1024", "most Large = 1025", 0),
        ("low/specs/Sizes.antt", "-- all others have room\n", "", 0),
        ("low/specs/Sizes.antt", "limit = 64", "limit = 65", 1),
    )
    def test_changed(self, file: str, old: str, new: str, block: int) -> None:
        """The tool reports a changed definition by the block that has it."""
        self.write_and_change(file, old, new)
        blocks = ("high.Boxes.IsBox", "high.Boxes.IsItem, low.Sizes.limit")
        said = blocks[block]
        self.assertEqual(self.told(), (1, [f"docs/DEFINITIONS.md: {said} {ANEW}"]))

    @each(
        ("low/specs/Sizes.antt", "unused = nat_cmp limit limit", "unused = limit"),
        ("low/specs/Sizes.antt", "-- ---- limits", "-- ---- the limits"),
        ("low/specs/Sizes.antt", "-- Sizes, and", "-- Sizes and"),
    )
    def test_same(self, file: str, old: str, new: str) -> None:
        """A definition that no block has changes none."""
        self.write_and_change(file, old, new)
        self.assertEqual(self.told(), (0, AS_THEY_ARE))

    def test_in_a_page_that_was_edited(self) -> None:
        """The check finds a block that somebody changed."""
        self.told("--write")
        write_files(self.top, {"docs/DEFINITIONS.md": self.page().replace("= 64", "= 63")})
        block = "high.Boxes.IsItem, low.Sizes.limit"
        self.assertEqual(self.told(), (1, [f"docs/DEFINITIONS.md: {block} {ANEW}"]))

    @each(
        ("low.Sizes.limit", "low.Sizes.least", "has the definition low.Sizes.least"),
        ("low.Sizes.most", "low.most", "has the definition low.most"),
        ("definitions of", "names of", "docs/DEFINITIONS.md has no block of definitions"),
    )
    def test_lost(self, old: str, new: str, wrong: str) -> None:
        """The tool reports a missing name, and a page without blocks."""
        write_files(self.top, {"docs/DEFINITIONS.md": PAGE.replace(old, new)})
        status, [told] = self.told()
        self.assertEqual(status, 1)
        self.assertIn(wrong, told)
