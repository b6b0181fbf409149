"""tools/promises.py: the clauses named with a call, and the toolchain's crates that the list of
trusted code must name."""

import sys
from unittest import mock

from tests.helpers import TOP, Case

sys.path.insert(0, str(TOP / "tools"))
import promises  # noqa: E402

LISTED = {
    "low": ("low", ["sha2"]),
    "high": ("high", ["low", "sqlite"]),
    "high_tests": ("high_tests", ["low", "hex"]),
}
BUILT_ON = {
    "sha2": ["std"],
    "sqlite": ["std", "sqlite_wal"],
    "sqlite_wal": ["os"],
    "hex": ["memchr"],
    "std": [],
}
CRATES = {"os", "sha2", "sqlite", "sqlite_wal", "std"}
CODE = """\
impl One {
    pub fn make(&self)
        ensures first { self.now ≡ 1 }
    {
    }
}

impl Other {
    pub fn make(&self)
        ensures second { self.now ≡ 2 }
    {
    }
}

pub fn run()
    requires { IsNew it }
    ensures { Runs it }
{
}
"""
RECORD = "pub record Runs (n : ℕ)\n    : Type 0 where\n  pub few : n ≤ 1\n\nabbrev pub many : ℕ\n"


class Calls(Case):
    def test_clauses(self):
        """A clause belongs to the function of that type, or is a field of the one record that the
        contract is."""
        room = self.room()
        for name, text in (("src/low.rt", CODE), ("specs/Runs.antt", RECORD)):
            (room / "low" / name).parent.mkdir(parents=True)
            (room / "low" / name).write_text(text)
        for call, wrong in (
            ("`low::low::One::make` (`first`)", []),
            ("`low::low::One::make` (`second`)", ["`low::low::One::make` has no clause second"]),
            ("`low::low::Third::make`", ["the call `low::low::Third::make` isn't there"]),
            ("`low::low::make` (`first`)", ["the call `low::low::make` isn't there"]),
            ("`low::low::run` (`few`)", []),
            ("`low::low::run` (`few`, `many`)", ["`low::low::run` has no clause many"]),
        ):
            with (
                self.subTest(call=call),
                mock.patch.object(promises, "CRATES", room),
                mock.patch.object(promises, "listed", lambda: LISTED),
            ):
                self.assertEqual([it for it in promises.calls(call) if it], wrong)


class Trusted(Case):
    def test_reached(self):
        """Libraries of libraries are reached, and those of tests alone aren't."""
        room = self.room()
        for name, low in BUILT_ON.items():
            for lower in low:
                (room / f"{name}.rlib/below" / lower).mkdir(parents=True)
        with mock.patch.object(promises, "listed", lambda: LISTED):
            self.assertEqual(promises.reached(room), CRATES)

    def test_list(self):
        """The tool reports a crate that the list lacks, and a listed one that no crate uses; other
        names in code are no crates."""
        whole = "- `std`, `os`: the prover.\n- `sha2`: SHA-256, and not `hex`.\n"
        whole += "- `serve` of a file: that.\n- `sqlite`, `sqlite_*`: files.\n"
        for text, wrong in (
            (whole, []),
            (whole.replace("`std`, ", ""), ["lacks `std`"]),
            (whole.replace(", `sqlite_*`", ""), ["lacks `sqlite_wal`"]),
            (whole.replace("`sha2`", "SHA-2"), ["lacks `sha2`"]),
            (whole.replace("`sha2`", "`sha2`, `sha1`"), ["has `sha1`, which no crate uses"]),
            ("", [f"lacks `{it}`" for it in sorted(CRATES)]),
        ):
            with self.subTest(text=text):
                found = promises.trusted(
                    f"- `rand`: elsewhere.\n\n## What is trusted\n\n{text}", CRATES
                )
                self.assertEqual(
                    [it for it in found if it],
                    [f"the list of what is trusted {it}" for it in wrong],
                )
