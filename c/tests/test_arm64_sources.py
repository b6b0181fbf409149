"""The C sources of the library for ARM64, without a machine of that processor: the tests of their
build need qemu-user and run by hand (docs/BUILDING.md)."""

import unittest

from harness import TOP, each, need, run

COMPILER = "aarch64-linux-gnu-gcc"
FLAGS = "-std=c11 -O2 -pthread -Wall -Wextra -Wpedantic -Werror -Iinclude -Isrc -fsyntax-only"
OTHERS = {"x86_64.c", "x86_64_level.c"}  # of the other processor


class Sources(unittest.TestCase):
    @each(*sorted(it.name for it in (TOP / "src").glob("*.c") if it.name not in OTHERS))
    def test_compiles(self, name):
        """Each source compiles for ARM64 without a warning."""
        need("aarch64-linux-gnu-gcc")
        self.assertEqual(run(COMPILER, *FLAGS.split(), f"src/{name}", at=TOP), "")


if __name__ == "__main__":
    unittest.main()
