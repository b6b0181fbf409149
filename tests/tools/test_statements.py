"""tools/statements.py: the lines that change with each change of two crates."""

import re
import sys

from tests.helpers import TOP, Case, each, ended, write_files

TOOLS = ("statements.py", "definitions.py", "items.py", "tree.py")
BOUNDS = """-- What a size may be.
use Rattle.std.specs.Prelude.{ℕ, ◌≤◌, ◌<◌, Bool, true, false}
pub use Rattle.low.specs.declared.limits.TheConstants.{LIMIT}

-- a limit is met, too
abbrev pub Fits : ℕ → Type 0
Fits size = size ≤ LIMIT

abbrev pub IsEmpty : ℕ → Type 0
IsEmpty size = size < 1

infixl 10 ◌<+◌
abbrev pub ◌<+◌ : ℕ → ℕ → Type 0
a <+ b = a < b

pub data Size : Type 0 where
  Small : Size
  Large : (size : ℕ) → Size

unfoldable pub is_small : Size → Bool
is_small Small = true
is_small (Large size) = false
"""
BOXES = """use Rattle.std.specs.Prelude.{ℕ, List, length}
use Rattle.low.specs.Bounds as bounds
use Rattle.high.specs.declared.boxes.Box.{Box}

pub record IsBox (items : List ℕ) : Type 0 where
  pub fits : bounds.Fits (length items)
  pub none_left : bounds.IsEmpty (length items)

abbrev pub IsClosed : Box → Type 0
IsClosed b = b.closed
"""
LOW = """//! Sizes.
ghost use Rattle.low.specs.Bounds.{Fits, Size, is_small, ◌<+◌};
ghost use Rattle.std.specs.Prelude.{◌≡◌, ◌<◌, ◌≤◌, true};

pub mod limits;
mod inner;

use crate::limits::LIMIT;
pub use inner::kept as held;

/// Whether it is a size.
pub fn fits(size: u64) -> bool
    requires room { size < 2 ^ 63 }
    ensures yes { result ≡ true → Fits size }
    ensures named { is_small (Size.Small) ≡ true }
{
    size <= LIMIT
}

/// A law.
pub fn sizes_are_ordered<'a>()
    ensures { (a b : ℕ) → a <+ b → a ≤ b }
{}

fn inside(size: u64) -> u64
    ensures { Fits result }
{
    size
}

pub trait Measure {
    ghost use Rattle.low.specs.Bounds.{IsEmpty};

    type Unit;

    ghost empty: { Self → Type 0 } = { λ _. IsEmpty 0 };

    fn measure(&self) -> u64
        ensures { Fits result };
}

#[cfg(test)]
mod tests;
"""
LIMITS = """/// The largest size.
pub const LIMIT: u64 = HALF * 2;
const HALF: u64 = 32;
"""
INNER = """use crate::limits::LIMIT as MOST;

/// What is kept.
pub fn kept(room: [u8; MOST]) -> u8 {
    room[0]
}
"""
HIGH = """ghost use Rattle.high.specs.Boxes.IsBox;

mod boxes;
pub use boxes::Box;

/// Opens a box.
#[inline]
pub fn open<R: Wait>(rt: &R, items: &[u8]) -> u8
    ensures { IsBox items.now }
{
    let text = "{ an open brace";
    items[0]
}
"""
BOX = """use low::Measure;

#[derive(Drop)]
#[tactic(auto)]
pub struct Box {
    pub items: Vec<u8>,
    closed: bool,

    ghost whole: { length items ≤ 7 },
}

impl Measure for Box {
    type Unit = u8;

    ghost empty = { λ b. b.items ≡ [] };

    fn measure(&self) -> u64 {
        1
    }
}

impl<T: Drop> Box {
    pub fn items(&self) -> &[u8]
        ensures { result.now ≡ self.now.items }
    {
        &self.items
    }
}
"""
FILES = {
    "HANDLES": "Handles allowed: none.\n",
    "crates.txt": "# All.\nlow:\nhigh may_wait=1: low std\nhigh_tests: high\ncrash_laws:\n",
    "crates/low/specs/Lib.antt": "pub mod Bounds\n",
    "crates/low/specs/Bounds.antt": BOUNDS,
    "crates/low/src/lib.rt": LOW,
    "crates/low/src/limits.rt": LIMITS,
    "crates/low/src/inner.rt": INNER,
    "crates/low/src/tests.rt": "pub fn a_test() {}\n",
    "crates/high/specs/Boxes.antt": BOXES,
    "crates/high/src/lib.rt": HIGH,
    "crates/high/src/boxes.rt": BOX,
    "crates/crash_laws/src/lib.rt": "fn crash() { stop() }\n",
    "crates/high_tests/src/lib.rt": "pub fn tested()\n    ensures { ⊤ }\n{}\n",
}
ALL = """\
HANDLES
crash_laws pub use
crash_laws::crash fn
crates.txt crash_laws
crates.txt high
crates.txt low
high pub use
high::<Box as Measure> ghost empty
high::<Box as Measure> impl
high::<Box as Measure>::Unit type
high::Box ghost whole
high::Box struct
high::Box::items ensures
high::Box::items fn
high::open ensures
high::open fn
low pub use
low::LIMIT const
low::Measure ghost empty
low::Measure trait
low::Measure::Unit type
low::Measure::measure ensures
low::Measure::measure fn
low::fits ensures named
low::fits ensures yes
low::fits fn
low::fits requires room
low::kept fn
low::sizes_are_ordered ensures
low::sizes_are_ordered fn
""".splitlines()
FITS = ["high::open ensures", "low::Measure::measure ensures", "low::fits ensures yes"]
EMPTY = ["high::open ensures", "low::Measure ghost empty"]
OPEN, MEASURE, KEPT = "high::open ensures", "low::Measure::measure ensures", "low::kept fn"
NAMED = ["low::fits ensures named"]
LAW, SIGNATURE = "low::sizes_are_ordered ensures", "low::sizes_are_ordered fn"

# In a file a text becomes another; and the lines that change by it.
WEAKENED = [
    ("low/src/lib.rt", "true → Fits size", "true → Fits 0", ["low::fits ensures yes"]),
    ("low/src/lib.rt", "size < 2 ^ 63", "size < 2 ^ 8", ["low::fits requires room"]),
    ("low/src/lib.rt", "u64\n        ensures { Fits result };", "u64;", ["gone: " + MEASURE]),
    (
        "low/src/lib.rt",
        "    requires room { size < 2 ^ 63 }\n",
        "",
        ["gone: low::fits requires room"],
    ),
    ("low/src/lib.rt", "IsEmpty 0 }", "IsEmpty 1 }", ["low::Measure ghost empty"]),
    ("low/src/lib.rt", "{}\n", "{ wait() }\n", [SIGNATURE]),
    ("low/src/lib.rt", "(a b : ℕ) → a <+ b", "(a b : ℕ) → b <+ a", [LAW]),
    ("low/src/lib.rt", "{◌≡◌, ◌<◌, ◌≤◌", "{◌≡◌, ◌<◌, ◌<◌ as ◌≤◌", [LAW]),
    ("low/src/lib.rt", "type Unit;", "type Unit: Copy;", ["low::Measure::Unit type"]),
    ("low/src/lib.rt", "pub trait Measure", "pub trait Measure: Drop", ["low::Measure trait"]),
    ("low/src/lib.rt", "(size: u64) -> bool", "(size: u8) -> bool", ["low::fits fn"]),
    ("low/src/lib.rt", "pub mod limits", "mod limits", ["low pub use"]),
    ("low/src/lib.rt", "kept as held", "kept", ["low pub use"]),
    ("low/src/lib.rt", "inner::kept as", "inner::lost as", ["low pub use"]),
    ("low/src/inner.rt", "pub fn", "fn", ["gone: low::kept fn"]),
    # what a name stands for, in a clause, in code and for the users of a crate
    ("low/src/lib.rt", "Size, is_small,", "Size as is_small, is_small as Size,", NAMED),
    ("high/src/boxes.rt", "low::Measure", "low::Shape as Measure", ["high::<Box as Measure> impl"]),
    ("high/src/lib.rt", "boxes::Box", "low::Box", ["high pub use"]),
    ("high/src/lib.rt", "pub use", "use std::wait::Never as Wait;\npub use", ["high::open fn"]),
    ("high/src/lib.rt", "pub use", "type Wait = Never;\npub use", ["high::open fn"]),
    ("low/specs/Bounds.antt", "size ≤ LIMIT", "size ≤ size", FITS),
    ("low/specs/Bounds.antt", "size < 1", "size < 2", EMPTY),
    ("low/specs/Bounds.antt", "a <+ b = a < b", "a <+ b = b < a", [LAW]),
    ("low/specs/Bounds.antt", "infixl 10", "infixr 10", [LAW]),
    ("low/specs/Bounds.antt", "Small = true", "Small = false", ["low::fits ensures named"]),
    ("low/specs/Bounds.antt", "Large : (size", "Large : (big", ["low::fits ensures named"]),
    ("low/specs/Bounds.antt", "unfoldable pub", "pub", ["low::fits ensures named"]),
    ("low/src/limits.rt", "HALF: u64 = 32", "HALF: u64 = 33", ["low::LIMIT const", KEPT, *FITS]),
    ("high/specs/Boxes.antt", "fits : bounds.Fits", "fits : bounds.IsEmpty", [OPEN]),
    ("high/src/lib.rt", "{ IsBox items.now }", "{ items.now ≡ [] }", [OPEN]),
    ("high/src/lib.rt", "specs.Boxes.IsBox", "specs.Boxes.{IsClosed as IsBox}", [OPEN]),
    ("high/src/lib.rt", "<R: Wait>", "<R: Abort>", ["high::open fn"]),
    ("high/src/boxes.rt", "#[derive(Drop)]", "#[derive(Drop, Debug)]", ["high::Box struct"]),
    ("high/src/boxes.rt", "pub items: Vec", "items: Vec", ["high::Box struct"]),
    ("high/src/boxes.rt", "items ≤ 7", "items ≤ 8", ["high::Box ghost whole"]),
    ("high/src/boxes.rt", "b.items ≡ []", "⊤", ["high::<Box as Measure> ghost empty"]),
    (
        "high/src/boxes.rt",
        "type Unit = u8",
        "type Unit = u1",
        ["high::<Box as Measure>::Unit type"],
    ),
    ("high/src/boxes.rt", "<T: Drop>", "<T: Copy>", ["high::Box::items fn"]),
    ("crash_laws/src/lib.rt", "{ stop() }", "{ go_on() }", ["crash_laws::crash fn"]),
    ("../crates.txt", "may_wait=1", "may_wait=2", ["crates.txt high"]),
    ("../HANDLES", "none", "Net", ["HANDLES"]),
]
# What changes no line.
SAME = [
    ("low/specs/Bounds.antt", "-- a limit is met, too\n", ""),
    ("low/specs/Bounds.antt", "Fits size = size ≤ LIMIT", "Fits size =\n    size  ≤ LIMIT -- met"),
    ("low/specs/Bounds.antt", "{ℕ, ◌≤◌, ◌<◌, Bool", "{Bool, ◌<◌,\n    ℕ, ◌≤◌"),
    ("high/specs/Boxes.antt", "abbrev pub IsClosed : Box", "abbrev pub IsClosed : List Box"),
    (
        "low/src/lib.rt",
        "{ result ≡ true → Fits size }",
        "{ // yes\n        result ≡ true\n → Fits size }",
    ),
    ("low/src/lib.rt", "(size: u64) -> bool", "(\n    size: u64,\n) -> bool"),
    ("low/src/lib.rt", "    size <= LIMIT", "    false"),
    (
        "low/src/lib.rt",
        "fn inside(size: u64) -> u64\n    ensures { Fits result }",
        "fn inside(n: u8)",
    ),
    ("low/src/lib.rt", "use crate::limits::LIMIT;\n", ""),
    ("low/src/tests.rt", "fn a_test", "fn another"),
    ("high/src/lib.rt", "#[inline]", "#[tactic(auto, using(crate::proofs::Boxes::opened))]"),
    ("high/src/boxes.rt", "    closed: bool,\n", "    is_closed: bool,\n    count: u64,\n"),
    ("high_tests/src/lib.rt", "ensures { ⊤ }", "ensures { ⊥ }"),
    ("../crates.txt", "# All.\n", ""),
    ("../crates.txt", "low std", "std low"),
]

# What would hide an item from the tool: a file, its text, what stands in its place, and what is
# told.
HIDES = "an attribute that may hide items: "
UNSEEN = [
    (
        "low/src/limits.rt",
        "const HALF",
        "more!();\nconst HALF",
        "a macro among items, which hides its items: more!",
    ),
    ("low/src/lib.rt", "mod inner;", "#[cfg(any())]\nmod inner;", f"{HIDES}cfg ( any ( ) )"),
    ("low/src/inner.rt", "use", "#![cfg(any())]\nuse", f"{HIDES}cfg ( any ( ) )"),
    ("low/src/lib.rt", "pub fn fits", "#[cfg(test2)]\npub fn fits", f"{HIDES}cfg ( test2 )"),
    (
        "low/src/lib.rt",
        "mod inner;",
        '#[path = "other.rt"]\nmod inner;',
        f'{HIDES}path = "other.rt"',
    ),
    ("low/src/lib.rt", "mod inner;", "", "low: a file that no `mod` names: inner.rt"),
    (
        "low/src/lib.rt",
        "use crate::limits::LIMIT;",
        "use crate::limits::*;",
        "an import of unknown names: crate::limits::*",
    ),
]


class Statements(Case):
    def setUp(self) -> None:
        super().setUp()
        self.top = self.room()
        write_files(self.top, {f"tools/{it}": (TOP / "tools" / it).read_text() for it in TOOLS})
        write_files(self.top, {"docs/STATEMENTS.txt": "", **FILES})
        self.assertEqual(self.told("--write"), (0, []))

    def told(self, *words: str) -> tuple[int, list[str]]:
        """The status of the tool, and the lines that it printed."""
        done = ended([sys.executable, str(self.top / "tools/statements.py"), *words])
        self.assertEqual(done.faults, "")
        return done.status, done.written.splitlines()

    def replace(self, name: str, old: str, new: str) -> None:
        """Replaces a text that the file has once by another."""
        file = self.top / "crates" / name
        text = file.read_text()
        self.assertEqual(text.count(old), 1, f"{name}: {old}")
        file.write_text(text.replace(old, new))

    def test_lines(self, names: list[str] = ALL) -> None:
        """Each promise has its line."""
        lines = (self.top / "docs/STATEMENTS.txt").read_text().splitlines()
        self.assertEqual([it.partition(" ")[2] for it in lines if it[0] != "#"], names)
        self.assertEqual(self.told(), (0, ["docs/STATEMENTS.txt has the line of each promise"]))

    @each(*WEAKENED)
    def test_weakened(self, file: str, old: str, new: str, names: list[str]) -> None:
        """A promise that is weakened is named, and all that rest on a definition that is."""
        self.replace(file, old, new)
        status, lines = self.told()
        self.assertEqual(status, 1)
        ought = [name if ": " in name else f"changed: {name}" for name in sorted(names)]
        self.assertEqual(lines[:-1], ought)
        self.assertIn("python3 tools/statements.py --write", lines[-1])
        write_files(self.top, FILES)

    @each(*SAME)
    def test_same(self, file: str, old: str, new: str) -> None:
        """Comments, layout, bodies, proofs, tests and what is private change no line."""
        self.replace(file, old, new)
        self.assertEqual(self.told()[0], 0)
        write_files(self.top, FILES)

    def test_moved_files(self) -> None:
        """A file of definitions or of code under another name changes no line."""
        crates = self.top / "crates"
        (crates / "low/specs/Bounds.antt").rename(crates / "low/specs/Sizes.antt")
        (crates / "low/src/inner.rt").rename(crates / "low/src/most.rt")
        for file in [*crates.glob("*/specs/*.antt"), *crates.glob("*/src/*.rt")]:
            text = file.read_text().replace("specs.Bounds", "specs.Sizes")
            file.write_text(re.sub(r"\b(mod |use )inner\b", r"\1most", text))
        self.assertEqual(self.told()[0], 0)

    def test_renamed_binder(self) -> None:
        """Words are compared: a binder's new name is a change, too."""
        self.replace("low/src/lib.rt", "(a b : ℕ) → a <+ b → a ≤ b", "(a c : ℕ) → a <+ c → a ≤ c")
        self.assertEqual(self.told()[1][:-1], [f"changed: {LAW}"])

    def test_added(self) -> None:
        """A clause and a function more are new lines, a definition more is none; written anew, the
        file has the tree's lines."""
        self.replace("low/src/inner.rt", "-> u8 {", "-> u8\n    ensures { result < 9 }\n{")
        with (self.top / "crates/low/src/inner.rt").open("a") as file:
            file.write("pub const fn more() {}\n")
        with (self.top / "crates/low/specs/Bounds.antt").open("a") as file:
            file.write("abbrev pub most : ℕ\nmost = 7\n")
        self.assertEqual(self.told()[1][:-1], ["new: low::kept ensures", "new: low::more fn"])
        self.told("--write")
        self.test_lines(sorted([*ALL, "low::kept ensures", "low::more fn"]))

    @each(*UNSEEN)
    def test_unseen(self, file: str, old: str, new: str, told: str) -> None:
        """The tool refuses code that may hide an item, or generate any."""
        self.replace(file, old, new)
        self.assertEqual(self.told(), (1, [f"docs/STATEMENTS.txt: {told}"]))
        write_files(self.top, FILES)

    def test_lost_definition(self) -> None:
        """The tool reports a name that leads to no definition, without a traceback."""
        self.replace("low/specs/Bounds.antt", "pub data Size ", "pub data Sizes ")
        told = "docs/STATEMENTS.txt: Rattle.low.specs.Bounds.Size.Small is named, but doesn't exist"
        self.assertEqual(self.told(), (1, [told]))
