"""packaging/components.json has the notices of exactly those crates of the toolchain that
crates.txt gives to our programs and to the library."""

import re
import sys

from tests import helpers
from tests.helpers import TOP, each, need, run
from tests.needs import need_file

sys.path = [str(TOP / "tools"), str(TOP / "packaging"), *sys.path]
import components  # noqa: E402
import tree  # noqa: E402

# What only crates of the toolchain themselves use, and what has a notice.
THEIRS = {"credbook": {"strsim"}, "credkeep": {"rand_chacha", "rand_xoshiro"}, "librigzumal": set()}


def used(crate):
    """Returns the crates of the toolchain that a crate of ours, or one below it, uses."""
    ours = [*tree.all_below(crate), crate]
    return {it for name in ours for it in tree.listed()[name][1]} - {*tree.listed()}


class Components(helpers.Case):
    @each(("credbook", "credbook"), ("credkeep", "credkeep"), ("librigzumal", "cred_c"))
    def test_crates_of(self, part, crate):
        """Each used crate is there by its name; a crate with a notice is used."""
        known = {it["name"]: it for it in components.KNOWN["crates"] if part in it["in"]}
        self.assertEqual(used(crate) - {*known}, set())
        noticed = {name for name, it in known.items() if it["licence"] != components.NOBODY}
        self.assertEqual(noticed - used(crate), THEIRS[part])

    @each(*components.PROGRAMS)
    def test_built(self, name):
        """Each crate of which a built program has a symbol is among those of the program."""
        program = TOP / "crates" / name / "out" / name
        need_file(program)
        need("nm")
        known = {it["name"] for it in components.KNOWN["crates"] if name in it["in"]}
        found = {*re.findall(r" (\w+)::", run("nm", "--no-demangle", program))}
        self.assertIn("clap", found)
        self.assertEqual(found - known - {*tree.listed()}, set())

    def test_entries(self):
        """Each name is there once, in order, and each notice names what the crate is after."""
        names = [it["name"] for it in components.KNOWN["crates"]]
        self.assertEqual(names, sorted({*names}))
        for crate in components.KNOWN["crates"]:
            with self.subTest(name=crate["name"]):
                self.assertEqual(crate["after"] is None, crate["licence"] == components.NOBODY)
