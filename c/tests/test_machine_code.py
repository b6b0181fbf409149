"""The machine code of Argon2's compression G, without a clock. Where the compiler puts the steps of
P in another order, or vectors on the stack, a hash takes up to 1.4 times as long, and no answer
changes."""

import re
import statistics
import unittest

from harness import BUILDS, OUT, built, need, need_file, need_host, need_native, run, sources_for
from tests.samples import sample

OBJDUMP = "objdump"
COUNTED = ["valgrind", "--tool=callgrind", "--callgrind-out-file=/dev/null"]
# An instruction that multiplies vectors, and the number of them in a G.
MULTIPLIES = re.compile(r"\tv?pmuludq\b")
OF_A_BLOCK = {"v1": 256, "v2": 256, "v3": 128, "v4": 64}
# An instruction that stores a vector on the stack, and one that prefetches.
SPILLS = re.compile(r"\tv?mov\w+ +%[xyz]mm\d+,[^,(]*\(%r[sb]p")
PREFETCHES = re.compile(r"\t(prefetch\w+) +(0x[0-9a-f]+)?\(")
# The beginning of the function for blocks of addresses.
FOR_ADDRESSES = re.compile(r"[0-9a-f]+ <cred_argon::block::compress>:")
# The prefetches of a G: these lines of a block, for reading, into all caches.
LINES = [("prefetcht0", line) for line in range(0, 512, 64)]
# What is found in each build: instructions of a G, of which so many put a vector on the stack, and
# how far apart multiplications are, of the nearest quarter. With the steps of two lists in turn
# they are near each other. More is slower; less, if it is measured to be faster, goes here.
MOST = {
    "v1": {"instructions": 4085, "on the stack": 421, "apart": 9},
    "v2": {"instructions": 4154, "on the stack": 448, "apart": 9},
    "v3": {"instructions": 1656, "on the stack": 95, "apart": 8},
    "v4": {"instructions": 776, "on the stack": 0, "apart": 4},
}


def functions(build):
    """The instructions of each function that computes blocks of the memory, and so contains G; the
    function for blocks of addresses is left out."""
    code = run(OBJDUMP, "-d", "--no-show-raw-insn", OUT / f"{build}.o")
    found = []
    for function in re.split(r"\n(?=[0-9a-f]+ <)", code):
        if FOR_ADDRESSES.match(function):
            continue
        lines = re.findall(r"(?m)^ *[0-9a-f]+:\t.*", function)
        if multiplications(lines) >= OF_A_BLOCK[build]:
            found.append(lines)
    if not found:
        raise AssertionError(f"{build} has no G")
    return found


def multiplications(lines):
    return sum(1 for it in lines if MULTIPLIES.search(it))


def figures(build):
    """The findings in a build."""
    counts, distances = {"instructions": 0, "on the stack": 0}, []
    for lines in functions(build):
        counts["instructions"] += len(lines)
        counts["on the stack"] += sum(1 for it in lines if SPILLS.search(it))
        places = [at for at, it in enumerate(lines) if MULTIPLIES.search(it)]
        distances += [later - sooner for sooner, later in zip(places, places[1:])]
    blocks = round(len(distances) / OF_A_BLOCK[build])
    found = {name: round(count / blocks) for name, count in counts.items()}
    return found | {"apart": statistics.quantiles(distances)[0]}


def instructions(program, memory):
    """The instructions of a program that makes a tag of this memory, in KiB."""
    return int(re.search(r"Collected : (\d+)", run(*COUNTED, program, memory))[1])


class MachineCode(unittest.TestCase):
    def setUp(self):
        need_native()
        need(OBJDUMP)

    def test_figures(self):
        """No figure of a build is larger than it was."""
        for build in BUILDS:
            need_file(OUT / f"{build}.o")
            for name, found in figures(build).items():
                with self.subTest(build=build, figure=name):
                    self.assertLessEqual(found, MOST[build][name])

    def test_prefetches(self):
        """Each G prefetches half a block once the left half of its own is there: behind that come
        the multiplications of the right half, which are a quarter of all. The block is one of its
        own slice or of an earlier one: a compiler may have the prefetches of each, and a jump from
        the first ones over the others."""
        for build in BUILDS:
            for lines in functions(build):
                with self.subTest(build):
                    places, what = [], []
                    for at, line in enumerate(lines):
                        if found := PREFETCHES.search(line):
                            places.append(at)
                            what.append((found[1], int(found[2] or "0", 16)))
                    starts = places[:: len(LINES)]
                    self.assertEqual(what, LINES * len(starts))
                    ends = zip(starts, [*starts[1:], len(lines)])
                    behind = [multiplications(lines[at:to]) for at, to in ends]
                    for start, count in zip(starts, behind):
                        if count == 0:
                            self.assertRegex(lines[start + len(LINES)], r"\tjmp\b")
                    blocks = multiplications(lines) // OF_A_BLOCK[build]
                    a_quarter = OF_A_BLOCK[build] // 4
                    self.assertEqual([it for it in behind if it], [a_quarter] * blocks)

    def test_memory_without_prefetches(self):
        """Up to 1 MiB no block is prefetched: with a block more than that, each block has at least
        50 instructions more."""
        need_host()
        need("valgrind")
        for build in sample(("v1", "v2", "v3")):  # valgrind knows no instruction of v4
            program = built("one_tag", ["-O2"], sources_for(build))
            counts = [instructions(program, it) for it in range(1016, 1036, 4)]
            more = [later - sooner for sooner, later in zip(counts, counts[1:])]
            with self.subTest(build, more=more):
                self.assertGreater(more[2] - max(more[:2] + more[3:]), 50 * 1024)
