#!/usr/bin/python3
"""Times the C library beside libargon2, libsodium and OpenSSL's scrypt, in one run on the same
settings.

    make -C c && /usr/bin/python3 bench/c/run.py [--times N] [--pages WHOSE]
                                    [--callers N [N ..]] [--small] [--other LIBRARY]

One process calls all of them in turn, N times over. The script prints the best wall time of each,
and the least processor time if libargon2 has threads. libargon2 gets as many threads as lanes,
libsodium has one lane only, and ours works on the caller's thread. The run compares their tags,
which must be equal. A library that isn't installed has an empty column. Ours clears its stack, and
its memory before it frees that memory. --other names another librigzumal.so.1, such as one that was
built before a change: the run prints the ratio of both, by the best times and by the median of the
turns.

WHOSE chooses who gets huge pages: `own`, a library that asks for them, as ours does; `none`, as on
a system that allows none; or `all`, by a shim before mmap and malloc's own setting. At the end the
run prints the amount of memory in huge pages.

--callers times Argon2 alone, ours also with a thread for each lane, by this many callers at once:
threads that begin at the same moment, and compute two tags one after another. A cell has the best
and the median of the N times, in milliseconds a tag: the wall time of all callers over the number
of their tags, followed by the processor time. --small times memories for which the library starts
no thread, in a build that starts them whatever the memory is.
"""

import argparse
import ctypes
import functools
import itertools
import os
import pathlib
import re
import subprocess
import sys
import tempfile
import threading

sys.path.insert(0, str(pathlib.Path(__file__).resolve().parents[1]))

import libraries
from libraries import ORIGINAL, OURS, library, libsodium
from turns import (
    best,
    median,
    median_ratio,
    print_head,
    print_load,
    print_row,
    ratio,
    take_turns,
    timed,
)

C = OURS.parents[1]
# Memory in KiB, passes, lanes.
ARGON2 = [(65536, 3, 1), (65536, 3, 4), (65536, 3, 16), (102400, 2, 8), (19456, 2, 1), (1024, 2, 1)]
ARGON2 += [(512, 384, 1)]  # in the cache
WITH_THREADS = [
    (65536, 3, 1),
    (65536, 3, 4),
    (65536, 3, 8),
    (19456, 2, 1),
    (19456, 2, 4),
    (19456, 2, 8),
    (262144, 1, 4),
]
SMALL = [(256, 2, 4), (1024, 2, 4), (2048, 2, 4), (4096, 2, 4), (8192, 2, 4), (16384, 2, 4)]
# ln, r, p.
SCRYPT = [(14, 8, 1), (15, 8, 1), (16, 8, 1), (17, 8, 1), (14, 8, 4), (14, 1, 16)]
WALL, CPU = 0, 1
PAGES = {
    "own": "Huge pages for a library that asks for them",
    "none": "No huge pages",
    "all": "Huge pages for all",
}
PR_SET_THP_DISABLE = 41
TAGS_A_CALLER = 2


def ms(name):
    """Returns a column: the best time of a library, or nothing if this machine lacks it."""

    def cell(row):
        return f"{best(row[name]):.1f}" if name in row else ""

    return cell


def over(name, figure, part=WALL):
    """Returns a column: the ratio of ours to another, by one figure."""

    def cell(row):
        return f"{figure(row['ours'], row[name], part):.2f}" if name in row else ""

    return cell


def spread(name):
    """Returns a column: best and median of both times."""

    def cell(row):
        if name not in row:
            return ""
        turns = row[name]
        both = [f"{best(turns, part):.1f}/{median(turns, part):.1f}" for part in (WALL, CPU)]
        return "; ".join(both)

    return cell


def threads_over_libargon2(part):
    """Returns a column: the ratio of ours, with threads if there are several lanes, by the best
    times and by the medians."""

    def cell(row):
        ours, theirs = row.get("threads") or row["ours"], row.get("libargon2")
        if not theirs:
            return ""
        ratios = [figure(ours, part) / figure(theirs, part) for figure in (best, median)]
        return "/".join(f"{ratio:.2f}" for ratio in ratios)

    return cell


ARGON2_COLUMNS = {
    "Ours, ms": ms("ours"),
    "libargon2, ms": ms("libargon2"),
    "libsodium, ms": ms("libsodium"),
    "Ours over libargon2": over("libargon2", ratio),
    "of processor time": over("libargon2", ratio, CPU),
    "Ours over libsodium": over("libsodium", ratio),
    "of processor time, median: over libargon2": over("libargon2", median_ratio, CPU),
    "over libsodium": over("libsodium", median_ratio, CPU),
}
SCRYPT_COLUMNS = {
    "Ours, ms": ms("ours"),
    "OpenSSL, ms": ms("OpenSSL"),
    "libsodium, ms": ms("libsodium"),
    "Ours over OpenSSL": over("OpenSSL", ratio),
    "Ours over libsodium": over("libsodium", ratio),
    "of processor time, median": over("libsodium", median_ratio, CPU),
}
OTHER_COLUMNS = {
    "Other, ms": ms("other"),
    "Ours over other: best": over("other", ratio),
    "median": over("other", median_ratio),
}
CALLERS_COLUMNS = {
    "one thread": spread("ours"),
    **{name: spread(name) for name in ("threads", "libargon2", "libsodium")},
    "Ours over libargon2": threads_over_libargon2(WALL),
    "of processor time": threads_over_libargon2(CPU),
}


def print_table(what, columns, rows, times):
    """Prints a table: its first columns name a row, which has a call for each library."""
    found = take_turns(rows, times)
    print_head([*what, *columns])
    for names, row in found.items():
        print_row([*names, *(column(row) for column in columns.values())])
    print()


def at_once(callers, way, *setting):
    """Returns wall and processor milliseconds a tag, and the tag that all callers computed."""
    tags, start = set(), threading.Barrier(callers + 1)

    def work():
        start.wait()
        for _ in range(TAGS_A_CALLER):
            tags.add(way(*setting))

    def all_work():
        start.wait()
        for thread in threads:
            thread.join()

    threads = [threading.Thread(target=work) for _ in range(callers)]
    for thread in threads:
        thread.start()
    times, _ = timed(all_work)
    if len(tags) != 1:
        sys.exit(f"the tags differ at {setting}")
    return tuple(it / (callers * TAGS_A_CALLER) for it in times), tags.pop()


def argon2_ways(ours, sodium):
    original = library(ORIGINAL)
    return {
        "ours": libraries.rigzumal_argon2(ours),
        "libargon2": original and libraries.original_argon2(original),
        "libsodium": sodium and libraries.sodium_argon2(sodium),
    }


def calls(ways, call, *setting):
    """Returns the calls of a row, for the installed libraries."""
    return {name: functools.partial(call, way, *setting) for name, way in ways.items() if way}


def argon2_calls(ways, call, *setting):
    """Returns the calls of a row of Argon2: threads need several lanes, and libsodium has one."""
    lanes = setting[-1]
    fits = {"threads": lanes > 1, "libsodium": lanes == 1}
    return calls({name: way for name, way in ways.items() if fits.get(name, True)}, call, *setting)


def without_least_memory(room):
    """Builds the library in a form that starts threads whatever the memory is."""
    path = pathlib.Path(room) / "librigzumal.so"
    files = sorted((C / "src").glob("*.c"))
    sources = [file for file in files if not re.match("libargon2|arm64|build", file.name)]
    builds = sorted((C / "out").glob("v?.o"))
    flags = [
        "-O2",
        "-std=c11",
        "-fPIC",
        "-pthread",
        "-shared",
        "-Wl,-Bsymbolic",
        "-DLEAST_SHARED_MEMORY=1",
    ]
    words = ["cc", *flags, f"-I{C / 'include'}", *sources, *builds, "-o", path]
    subprocess.run([str(it) for it in words], check=True)
    return path


def have_pages(whose):
    """Runs this process with such pages; pages for all need a new process, over the shim."""
    if whose == "none" and ctypes.CDLL(None).prctl(PR_SET_THP_DISABLE, 1, 0, 0, 0) != 0:
        sys.exit("the system doesn't let a process do without huge pages")
    shim = os.environ.get("LD_PRELOAD", "")
    if whose == "all" and "huge_pages" not in shim:
        with tempfile.TemporaryDirectory() as room:
            made = pathlib.Path(room) / "huge_pages.so"
            subprocess.run(
                [
                    "cc",
                    "-O2",
                    "-fPIC",
                    "-shared",
                    pathlib.Path(__file__).with_name("huge_pages.c"),
                    "-o",
                    made,
                ],
                check=True,
            )
            env = {
                **os.environ,
                "LD_PRELOAD": str(made),
                "GLIBC_TUNABLES": "glibc.malloc.hugetlb=1",
            }
            sys.exit(subprocess.run([sys.executable, *sys.argv], env=env).returncode)


def huge_pages():
    """Returns the MiB of this process's memory that are in huge pages."""
    return (
        int(
            re.search(
                r"AnonHugePages: +(\d+)", pathlib.Path("/proc/self/smaps_rollup").read_text()
            )[1]
        )
        // 1024
    )


def shown(*setting):
    return ", ".join(map(str, setting))


def tables(ours, other):
    """Yields Argon2 and scrypt beside the others: the names of the first columns, the others, and
    the rows."""
    more, sodium = OTHER_COLUMNS if other else {}, libsodium()
    ways = {**argon2_ways(ours, sodium), "other": other and libraries.rigzumal_argon2(other)}
    rows = {(shown(*it),): argon2_calls(ways, timed, *it) for it in ARGON2}
    yield ["m (KiB), t, p"], ARGON2_COLUMNS | more, rows
    ways = {
        "ours": libraries.rigzumal_scrypt(ours),
        "OpenSSL": libraries.openssl_scrypt,
        "libsodium": sodium and libraries.sodium_scrypt(sodium),
        "other": other and libraries.rigzumal_scrypt(other),
    }
    rows = {(shown(1 << ln, r, p),): calls(ways, timed, ln, r, p) for ln, r, p in SCRYPT}
    yield ["N, r, p"], SCRYPT_COLUMNS | more, rows


def table_of_callers(ours, other, callers, settings):
    """Returns Argon2 by this many callers at once, as a table of the same form."""
    ways = {
        **argon2_ways(ours, libsodium()),
        "threads": libraries.rigzumal_argon2(ours, most_threads=255),
    }
    columns = dict(CALLERS_COLUMNS)
    if other:
        ways["other"] = libraries.rigzumal_argon2(other)
        columns["other"] = spread("other")
    rows = {}
    for setting, count in itertools.product(settings, callers):
        call = functools.partial(at_once, count)
        rows[shown(*setting), count] = argon2_calls(ways, call, *setting)
    return ["m (KiB), t, p", "Callers"], columns, rows


def main():
    words = argparse.ArgumentParser(usage=__doc__.split("\n\n")[1].strip())
    words.add_argument("--times", type=int, default=15, help="runs of each")
    words.add_argument("--pages", choices=PAGES, default="own")
    words.add_argument("--callers", type=int, nargs="+", metavar="N")
    words.add_argument("--small", action="store_true")
    words.add_argument("--other", type=ctypes.CDLL, metavar="LIBRARY")
    asked = words.parse_args()
    if asked.small and not asked.callers:
        words.error("--small needs --callers")
    before = os.getloadavg()[0]
    have_pages(asked.pages)
    print(f"{PAGES[asked.pages]}.\n")
    with tempfile.TemporaryDirectory() as room:
        ours = ctypes.CDLL(str(without_least_memory(room) if asked.small else OURS))
        if asked.callers:
            settings = SMALL if asked.small else WITH_THREADS
            print_table(*table_of_callers(ours, asked.other, asked.callers, settings), asked.times)
        else:
            for table in tables(ours, asked.other):
                print_table(*table, asked.times)
    print(f"{huge_pages()} MiB are in huge pages.")
    print_load(before)


if __name__ == "__main__":
    main()
