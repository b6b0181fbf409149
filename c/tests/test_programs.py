"""The tests in C: the head of each says its purpose. This file builds and runs them."""

import itertools
import os
import re
import shutil
import unittest

from harness import COMPILER, HERE, IS_NATIVE, JOBS, LIBARGON2, OUT, RACES, ROOM
from harness import SANITIZED, SOURCES, VALGRIND, WARNINGS, WITHOUT_BUILDS, built, each, need
from harness import lacking, need_file, need_glibc, need_host, need_native, need_root, python, run
from harness import run_sanitized, toolchain
from tests.samples import sample


FAST = ["-O2"]
# Tests over stand-ins for the proved code.
LANES = ["src/lanes.c", *WITHOUT_BUILDS]
HEAP = ["src/heap.c", "src/process.c"]
ALL = LIBARGON2 + SOURCES

# A program, its flags, the files linked to it, and its words.
PROGRAMS = (
    ("heap", SANITIZED, HEAP),
    ("cut_areas", SANITIZED, HEAP),
    ("areas", ["-O1"], ["src/process.c"]),
    ("refused", [*SANITIZED, *JOBS], ALL),
    ("lanes", FAST, LANES, "150", "marks"),
    ("lanes", SANITIZED, LANES, "60"),
    ("lanes", RACES, LANES, "60"),
    ("forked_lanes", [*FAST, "-DTHREAD_LOCAL=1"], [*LANES, *HEAP]),
    ("forked_lanes", [*FAST, "-DTHREAD_LOCAL=57344"], [*LANES, *HEAP]),
    ("calls", [*RACES, *JOBS], ALL),
    ("interrupted", FAST, SOURCES),
    ("interrupted", SANITIZED, SOURCES),
    ("threads", RACES, SOURCES),
    ("early", FAST, SOURCES),
    ("refused_moves", FAST, SOURCES),
)

MIB = 1024 * 1024
# The MiB that are kept after scrypt of 16, 32 and 64 MiB, Argon2 of 80, and scrypt of 128.
KEPT = """
import ctypes, sys
library, size = ctypes.CDLL(sys.argv[1]), ctypes.c_size_t
scrypts = [f"scrypt$ln={it}" for it in (14, 15, 16, 17)]
for costs in (*scrypts[:3], "argon2id$v=19$m=81920", scrypts[3]):
    costs = f"${costs},{'t=1' if 'argon2' in costs else 'r=8'},p=1$c29tZXNhbHQ".encode()
    text = ctypes.create_string_buffer(513)
    given = (size(32), costs, None, size(0), b"x", size(1))
    assert not library.rigzumal_record(text, size(513), *given)
    print(library.rigzumal_trim() >> 20, end=" ")
"""
# The same after a record of one MiB, for which an area is kept.
ONE_KEPT = """
#include <rigzumal.h>
#include <stdio.h>
int main(void) {
    char text[RIGZUMAL_TEXT_SIZE];
    int fault =
        rigzumal_record(text, sizeof text, 32, "$argon2id$v=19$m=1024,t=1,p=1", NULL, 8, "", 0);
    printf("%zu", rigzumal_trim() >> 20);
    return fault;
}
"""
# A library leaves no area mapped after a load, a call and an unload.
UNLOADED = """
import _ctypes, ctypes, re, sys
def areas():
    maps = re.findall("^(.*)-(.*) r", open("/proc/self/maps").read(), re.M)
    return [it for it in maps if int(it[1], 16) - int(it[0], 16) >= 1 << 24]
before = areas()
for turn in range(int(sys.argv[2])):
    library, size = ctypes.CDLL(sys.argv[1]), ctypes.c_size_t
    record = b"$argon2id$v=19$m=24576,t=1,p=2$c29tZXNhbHQ$nf65EA"
    for threads in (1, 2):
        assert library.rigzumal_check_threads(record, b"x", size(1), threads) == 10
    assert areas() != before
    _ctypes.dlclose(library._handle)
    assert sys.argv[1] not in open("/proc/self/maps").read() and areas() == before
"""


def of_program(name, flags, linked, *words):
    """The test that builds a program and runs it."""

    def test(_):
        if name in ("forked_lanes", "refused_moves"):
            need_native()
        run(built(name, flags, linked), *words)

    return test


def job_names():
    """The names of the calls in tests/jobs.c."""
    return re.findall(r'(?m)^    \{"(.+?)", \w', (HERE / "jobs.c").read_text())


class Programs(unittest.TestCase):
    """Each row of PROGRAMS is a test too, below: `-k heap` runs that of heap.c."""

    def test_program_calls(self):
        """The calls of C in programs that a C compiler links act as the toolchain's calls in
        programs of rt."""
        need_glibc()
        of_toolchain = [toolchain() / f"c/lib{it}_c.a" for it in ("os", "libc")]
        for sources in (["programs/calls.c"], of_toolchain):
            with self.subTest(sources):
                if sources is of_toolchain:
                    need_native()
                    need("rt")
                    need_file(sources[0])
                flags = ["-fPIC", "-shared", "-Wl,--whole-archive", *sources]
                run(COMPILER, *WARNINGS, *flags, "-Wl,--no-whole-archive", "-o", ROOM / "calls.so")
                env = {"LIBRARY": str(ROOM / "calls.so")}
                python("-m", "unittest", "program_calls", env=env, at=HERE)

    def test_under_valgrind(self):
        """A sample of: all calls with whole areas, and the refusals in each call."""
        need("valgrind")
        need_host()
        watched = sample([("calls",), *(("refused", it) for it in job_names())])
        for name in ("calls", "refused"):
            if words := [it[1:] for it in watched if it[0] == name]:
                run(*VALGRIND, built(name, [*FAST, *JOBS], ALL), *itertools.chain(*words))

    def test_names_of_jobs(self):
        """refused.c takes the names of jobs.c, and no other."""
        program, names = built("refused", [*FAST, *JOBS], ALL), job_names()
        tried = re.compile(r"(?m)^(.*): \d+ requests$")
        self.assertEqual(tried.findall(run(program)), names)
        self.assertEqual(tried.findall(run(program, *names[7:9])), names[7:9])
        self.assertIn("not so: job", run(program, names[7], "no such job", status=1))

    def test_calls(self):
        """Texts, records, steps, salts, threads and hashes, good and bad, under the sanitizers."""
        modules = ("texts", "records", "steps", "with_threads", "hashes")
        run_sanitized("-m", "unittest", *modules)

    @each(
        (None, "16 32 64 60 64"),
        ("0", "0 0 0 0 0"),
        (str(20 * MIB), "16 20 20 20 20"),
        (str(128 * MIB), "16 32 64 80 128"),
        ("16M", "16 32 64 60 64"),  # no number, and passed over
        ("0x8000000", "16 32 64 60 64"),
        ("-1", "16 32 64 60 64"),
        ("18446744073709551616", "16 32 64 60 64"),  # 2^64
        ("99999999999999999999999", "16 32 64 60 64"),
        ("", "16 32 64 60 64"),
    )
    def test_kept_memory(self, bound, kept):
        """The kept memory after calls of each size: up to 64 MiB, or the bound of the
        environment."""
        env = {} if bound is None else {"RIGZUMAL_KEEP": bound}
        found = python("-c", KEPT, OUT / "librigzumal.so.1", env=env).strip()
        self.assertEqual(found, kept)

    def test_kept_memory_of_another_users_program(self):
        """The user of a set-user-ID program can't bound its memory by the environment."""
        need_root()
        need_host()
        if os.statvfs(ROOM).f_flag & os.ST_NOSUID:
            raise lacking("set-user-ID programs in the temporary folder")
        source, program = ROOM / "one_kept.c", ROOM / "one_kept"
        source.write_text(ONE_KEPT)
        run(COMPILER, "-Iinclude", source, OUT / "librigzumal.a", "-o", program)
        bound = {"RIGZUMAL_KEEP": "0"}
        self.assertEqual(run(program, env=bound), "0")
        shutil.chown(program, "nobody")
        program.chmod(0o4755)
        self.assertEqual(run(program, env=bound), "16")

    def test_unloaded_library(self):
        turns = 30 if IS_NATIVE else 2
        python("-c", UNLOADED, OUT / "librigzumal.so.1", turns)


for number, row in enumerate(PROGRAMS, 1):
    setattr(Programs, f"test_{number:02}_{row[0]}", of_program(*row))
