"""The parts that the tests of the library share: the build of a test in C, and its tools."""

import functools
import os
import pathlib
import re
import shutil
import sys

HERE = pathlib.Path(__file__).resolve().parent
TOP = HERE.parent
sys.path.insert(0, str(TOP.parent))

from tests import helpers
from tests.helpers import ARCH, EMULATOR, IS_NATIVE, TRIPLET, need, runnable
from tests.helpers import each, files_below, need_module, need_root  # noqa: F401
from tests.needs import lacking, need_file, need_native  # noqa: F401 (for the tests)

COMPILER = os.environ.get("CC", "cc" if IS_NATIVE else f"{TRIPLET}-gcc")
# Whether programs of this machine can load the library.
IS_HOST = IS_NATIVE and "musl" not in COMPILER
OUT = TOP / os.environ.get("OUT", "out" if IS_NATIVE else f"out/{ARCH}")
# The folder of another processor's Python and libargon2, from tests/arm64/root.sh.
ROOT = pathlib.Path("/") if IS_NATIVE else OUT / "root/at"
ORIGINAL = ROOT / f"usr/lib/{TRIPLET}/libargon2.so.1"
OURS = {"LD_LIBRARY_PATH": str(OUT)}
ALL_WARNINGS = "-Wall -Wextra -Wpedantic -Werror"
WARNINGS = ["-std=c11", "-g", "-pthread", "-Iinclude", "-Isrc", "-Itests", f"-Itests/{ARCH}"]
WARNINGS += os.environ.get("TEST_WARNINGS", ALL_WARNINGS).split()
# qemu-user doesn't pass madvise on to the system.
WARNINGS += [] if IS_NATIVE else ["-DHAS_ADVICE=false"]
# No sanitizer is for another processor or C library.
SANITIZED = ["-O1", "-fsanitize=address,undefined", "-fno-sanitize-recover=all"] * IS_HOST
RACES = ["-O1", "-fsanitize=thread"] * IS_HOST
AVX512 = {"avx512f", "avx512dq", "avx512cd", "avx512bw", "avx512vl"}
BUILDS = ("v1", "v2", "v3", "v4") if IS_NATIVE else ("generic",)
C_FILES = sorted(str(it.relative_to(TOP)) for it in (TOP / "src").glob("*.c"))
LIBARGON2 = [it for it in C_FILES if it.startswith("src/libargon2")]
OF_PROCESSOR = [f"src/{ARCH}.c", *["src/x86_64_level.c"] * IS_NATIVE]
OTHERS = {"src/build.c", "src/x86_64.c", "src/x86_64_level.c", "src/arm64.c"} - {*OF_PROCESSOR}
SOURCES = [it for it in C_FILES if it not in {*LIBARGON2, *OTHERS}]
SOURCES += [str(OUT / f"{build}.o") for build in BUILDS]
# Tests that need none of the builds.
WITHOUT_BUILDS = ["src/secrets.c", *OF_PROCESSOR, "tests/no_builds.c"]
VALGRIND = [
    "valgrind",
    "-q",
    "--error-exitcode=9",
    "--leak-check=full",
    "--errors-for-leak-kinds=all",
]

# Makes calls that ask for threads use them for tags of every size.
IN_THREADS = "-DLEAST_SHARED_MEMORY=1"
JOBS = [IN_THREADS, "tests/jobs.c", "tests/given_system.c"]

# A folder for the tests' builds; and runs of commands in the library's folder, with their output.
ROOM = helpers.common_folder()
run = functools.partial(helpers.run, at=TOP)


def need_host():
    """Skips a test that needs a library for this machine's processor and C library."""
    if not IS_HOST:
        raise lacking("a processor and a C library of this machine")


def need_glibc():
    if "musl" in COMPILER:
        raise lacking("a glibc")


def toolchain():
    """The toolchain's folder, or this one without a toolchain."""
    return pathlib.Path(run("rt", "doc").strip()).parent if shutil.which("rt") else TOP


def need_original():
    need_file(ORIGINAL)


def wraps(sources):
    """The linker's flags for the functions of tests that replace others: those of WRAP."""
    text = "".join((TOP / it).read_text() for it in sources if it.startswith("tests/"))
    headers = re.findall(r'#include "(\w+\.h)"', text)
    text += "".join((HERE / it).read_text() for it in headers if (HERE / it).exists())
    return [f"-Wl,--wrap={call}" for call in re.findall(r"^WRAP\([^,]+, (\w+),", text, re.M)]


# Flags that choose a program's linking or its build; no file of the library depends on them.
OF_LINKING = ("-Wl,", "-static", "-DGIVEN=")


@functools.cache
def object_of(source, options, cc):
    """A file of the library, compiled once for all programs with these flags."""
    target = ROOM / f"{pathlib.Path(source).stem}-{len(list(ROOM.iterdir()))}.o"
    run(cc, *WARNINGS, *options, "-c", source, "-o", target)
    return target


def built(name, flags, linked, cc=COMPILER):
    """A test in C, built by a compiler."""
    program = ROOM / f"{name}-{len(list(ROOM.iterdir()))}"
    folder = "tests" if (HERE / f"{name}.c").exists() else f"tests/{ARCH}"
    words = [*flags, f"{folder}/{name}.c", *map(str, linked)]
    options = [it for it in words if it.startswith("-") and not it.startswith(OF_LINKING)]
    parts = [object_of(it, (*options,), cc) if it.startswith("src/") else it for it in words]
    run(cc, *WARNINGS, *wraps(words), *parts, "-o", program)
    return runnable(program)


def python(*words, env=None, at=TOP):
    """Runs a Python of the processor that the library is for."""
    if IS_NATIVE:
        need_host()
        return helpers.run(sys.executable, *words, env=env, at=at)
    need(EMULATOR[0])
    need_file(ROOT / "usr/bin/python3")  # which tests/arm64/root.sh makes
    line = (EMULATOR[0], "-L", ROOT, ROOT / "usr/bin/python3", *words)
    return helpers.run(*line, env={**(env or {}), "PYTHONHOME": str(ROOT / "usr")}, at=at)


def run_sanitized(*words):
    """Runs a Python with the path of a library whose C is under the sanitizers and works all lanes
    in threads. The sanitizers guard the memory that Python passes too."""
    library = ROOM / "sanitized.so"
    if not library.exists():
        flags = [*WARNINGS, *SANITIZED, IN_THREADS, "-fPIC", "-shared", "-Wl,-Bsymbolic"]
        sources = ["tests/given_system.c", "tests/tables.c", *LIBARGON2, *SOURCES]
        run(COMPILER, *flags, *wraps(sources), *sources, "-o", library)
    env = {"LIBRARY": str(library)}
    if SANITIZED:
        preloaded = run(COMPILER, "-print-file-name=libasan.so").strip()
        env |= {"LD_PRELOAD": preloaded, "ASAN_OPTIONS": "detect_leaks=0"}
        env |= {"PYTHONMALLOC": "malloc"}
    return python(*words, env=env, at=HERE)


def need_build(build):
    """Skips a test of a build that the toolchain couldn't make, or that this processor lacks."""
    if " cred_check\n" not in run("nm", OUT / f"{build}.o"):
        raise lacking("a toolchain that makes that build")
    features = pathlib.Path("/proc/cpuinfo").read_text().split()
    if build == "v4" and not AVX512 <= {*features}:
        raise lacking("a processor with that build")


def sources_for(build):
    """The sources of which the library chooses a build."""
    need_build(build)
    return [f"-DGIVEN=build_{build}", "tests/given_build.c", *SOURCES]
