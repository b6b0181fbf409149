#!/usr/bin/env python3
"""Prints the cost of a change: the proofs, wrong bodies, tests and pages that it affects.

    python3 tools/affected.py [COMMIT]

The change is the difference from COMMIT, or from the last commit, including files that aren't
committed. The script prints each part with the command that runs it, and estimates its minutes on
this machine's processors, from tools/build_seconds.json and tools/job_seconds.json.
"""

from __future__ import annotations

import json
import os
import re
import subprocess
import sys
from collections.abc import Collection, Iterable, Mapping

from jobs import FOLDERS, Job, jobs, seconds
from tree import CRATES, TOP, all_below, below, listed, source
from wrong_body import wrong_bodies_of

# The users of the library for C, and of each program and crate of tests: words of jobs.
OF_LIBRARY = ("c/tests", "c/pam/tests", "python/tests", "rust/tests", "docs/tests")
OF_CREDKEEP = ("tests/credkeep", "tests/server", "docs/tests", "tools/readme")
OF_CRATES = {
    "cred_c": OF_LIBRARY,
    "credbook": ("tests/credbook", "tools/readme"),
    "credkeep": OF_CREDKEEP,
    "hash_tests": ("tools/refuse_memory", "tools/peak_memory"),
    "book_tests": ("tools/refuse_memory",),
    "desk_tests": ("tools/refuse_memory",),
    "script_tests": ("tools/refuse_memory",),
}
EVERY = ("",)
PACKAGE = ("python/tests/package", "tests/packages")
PAGES = ("docs/tests", "tools/readme")
# The modules of tests/server that run what docs/SERVERS.md has.
OF_SERVERS = (
    "tests/server/test_sites",
    "tests/server/test_logins",
    "tests/server/test_web",
    "tests/server/test_books",
    "tests/server/test_protocol",
    "tests/server/test_client_fields",
    "tests/server/test_units",
    "tests/server/test_expired",
    "tests/server/test_foreign_records",
)
# The row with the longest beginning of a file's path names the jobs that read the file.
READERS: Mapping[str, Collection[str]] = {
    ".": (),
    ".ci/": ("tests/tools/test_without_rt", "tests/tools/test_gate"),
    "HANDLES": (),
    "VERSION": ("tests/packages", "c/tests/test_package", "tests/server/test_options"),
    "Makefile": ("tests/packages", "docs/tests/test_make"),
    "CHANGELOG.md": PAGES,
    "CONTRIBUTING.md": PAGES,
    "README.md": (*PAGES, "tests/packages/test_install"),
    "SECURITY.md": PAGES,
    "docs/": PAGES,
    "docs/ARCHITECTURE.md": (*PAGES, "tests/tools/test_walks", "frameworks/test_django"),
    "docs/BUILDING.md": (*PAGES, "tests/packages/test_without_rt"),
    "docs/ERRORS.md": (*PAGES, "tests/server/test_protocol"),
    "docs/MIGRATING.md": (*PAGES, "tests/credkeep/test_import"),
    "docs/SERVERS.md": (*PAGES, *OF_SERVERS),
    "docs/SERVING.md": (*PAGES, "tests/server/test_protocol", "tests/server/test_client_fields"),
    "docs/STATEMENTS.txt": (*PAGES, "tests/tools/test_without_rt"),
    "crates/": (),  # read by the programs over the crate
    "crates.txt": ("tests/packages/test_without_rt",),
    "conftest.py": ("tests/tools/test_pytest",),
    "pyproject.toml": ("tests/tools/test_pytest",),
    "bench/": ("tests/tools/test_layout", "tests/tools/test_measures"),
    "bin/": (*PACKAGE, "tests/server"),
    "bin/credkeep-ask": ("tests/server/test_ask", "tests/packages"),
    "bin/rigzumal": (*PACKAGE, "python/tests/accounts/test_commands", "hashers/test_shell"),
    "units/": ("tests/server/test_units", "tests/packages"),
    "man/": ("test_texts", "tests/credbook", "test_commands", "test_options", "c/tests/test_calls"),
    "man/pam_rigzumal.8": ("c/pam/tests/test_manual", "test_texts", "tests/server/test_options"),
    "completions/": ("tests/tools/test_completions", "test_commands", *PACKAGE),
    "packaging/": ("tests/packages",),
    "packaging/rigzumal-tools/": ("tests/packages", "tests/server/test_units"),
    "packaging/pam-profile": ("tests/packages", "tests/server/test_expired"),
    "packaging/python3-rigzumal/": PACKAGE,
    "examples/": ("docs/tests",),
    "examples/postgres/": ("accounts/test_three_servers", "docs/tests"),
    "examples/login_page/": ("frameworks/test_login_page", "docs/tests", "python/tests/package"),
    "tools/": ("tests/tools",),
    "tools/check_proved": ("tests/packages", "c/tests/test_package"),
    "tools/dist.py": ("tests/packages/test_dist",),
    "tests/": EVERY,  # what all tests share
    "tests/shims/": ("tests/credkeep", "tests/credbook", "tools/"),
    "c/": (*OF_LIBRARY, "tests/packages"),
    "c/README.md": PAGES,
    "c/programs/": ("c/tests/test_programs", "tests/packages/test_dist", "tests/credkeep"),
    "c/proved/": EVERY,
    "c/pam/": ("c/pam/tests", "tests/server/test_logins", "tests/packages", "docs/tests/test_make"),
    "rust/": ("rust/tests",),
    "python/": ("python/tests", "docs/tests", "tests/packages"),
    "python/rigzumal/accounts/": ("python/tests/accounts", "frameworks", "docs/tests", *PACKAGE),
    "python/rigzumal/argon2_cffi/": ("hashers/test_argon2_cffi", "test_on_their_own", *PACKAGE),
    "python/rigzumal/django/": ("frameworks", "docs/tests", *PACKAGE),
    "python/rigzumal/passlib.py": ("frameworks/test_passlib", "docs/tests", *PACKAGE),
    "python/rigzumal/server/": ("tests/server", "docs/tests", *PACKAGE),
}
# The assumed seconds of a crate, a job and a wrong body that nobody has measured.
A_CRATE, A_JOB, A_WRONG_BODY = 60, 10, 10


def git(*words: str) -> str:
    return subprocess.run(
        ["git", *words], cwd=TOP, capture_output=True, text=True, check=True
    ).stdout


def changed_files(commit: str) -> list[str]:
    """Lists the files that differ from a commit, or aren't committed; for a moved file, both
    names. Omits what git doesn't know and no row of READERS, such as `a.out`."""
    differ = git("diff", "--name-only", "--no-renames", commit).splitlines()
    others = git("ls-files", "--others", "--exclude-standard").splitlines()
    return sorted({*differ, *(it for it in others if row_of(it))})


def changed_crates(files: Iterable[str], parts: str) -> set[str]:
    """Returns the crates with a changed file in these folders, or of these names."""
    found = (re.match(rf"crates/(\w+)/(?:{parts})(?:/|$)", it) for it in files)
    return {it[1] for it in found if it} & {*listed()}


def proved_again(crates: Collection[str]) -> list[str]:
    """Returns these crates and all crates above them, lowest first."""
    return [it for it in listed() if it in crates or {*all_below(it)} & {*crates}]


def row_of(file: str) -> str:
    """Returns the row of READERS for a file, or nothing."""
    rows = (it for it in READERS if file.startswith(it))
    return max(rows, key=len, default="")


def jobs_of(file: str) -> Collection[str]:
    """Returns the words of the jobs that read a file: of all jobs, for a file without a row."""
    for folder in FOLDERS:
        if file.startswith(f"{folder.path}/"):
            at = file.removesuffix(".py")
            return (at if at.startswith(f"{folder.path}/test_") else folder.path,)
    return READERS.get(row_of(file), EVERY)


def jobs_to_run(files: Iterable[str], proved: Iterable[str]) -> list[Job]:
    """Returns the jobs that read one of these files, or the build results of these crates."""
    words = {word for it in files for word in jobs_of(it)}
    words |= {word for it in proved for word in OF_CRATES.get(it, ())}
    return jobs(words) if words else []


def words_for(chosen: Iterable[Job]) -> str:
    """Returns the words that select these jobs: a folder's word if they include all of its jobs."""
    names = {it.name for it in chosen}
    every = jobs()
    in_part = {job.folder for job in every if job.name not in names}
    if not in_part:
        return ""
    words = set[str]()
    for job in every:
        if job.name in names:
            words.add(job.name.partition(":")[0] if job.folder in in_part else job.folder)
    return " ".join(sorted(words))


def elapsed(parts: Mapping[str, float], longest: float) -> str:
    """Describes the time of these parts in parallel, which is at least that of the longest part."""
    minutes = max(sum(parts.values()) / len(os.sched_getaffinity(0)), longest) / 60
    return f"about {minutes:.0f} min" if minutes >= 1 else "under a minute"


def chain(name: str, proofs: Mapping[str, float]) -> float:
    """Returns the seconds of a proof and of the longest chain of proofs below it."""
    return proofs.get(name, 0) + max((chain(it, proofs) for it in below(name)), default=0)


def of_proofs(again: Collection[str]) -> str:
    known = json.loads(source(TOP / "tools/build_seconds.json"))
    proofs = {it: known.get(it, A_CRATE) for it in again}
    minutes = elapsed(proofs, max(chain(it, proofs) for it in again))
    used = {low for it in again for low in below(it)}
    command = " ".join(["rt ci", *(it for it in again if it not in used)])
    return f"proofs: {', '.join(again)}, {minutes}: {command}"


def count_with_time(wrong_bodies: int) -> str:
    return f"{wrong_bodies}, {elapsed({'all': A_WRONG_BODY * wrong_bodies}, 0)}"


def of_wrong_bodies(changed: Collection[str], again: Iterable[str]) -> str:
    counts = {it: len(wrong_bodies_of(CRATES / it)) for it in {*changed, *again}}
    own = count_with_time(sum(counts[it] for it in changed))
    every = count_with_time(sum(counts.values()))
    more = f" (if a contract or a definition has changed {every})" if every != own else ""
    command = " ".join(["python3 tools/wrong_bodies.py", *sorted(changed)])
    return f"wrong bodies: {own}{more}: {command}"


def of_tests(chosen: Collection[Job]) -> str:
    took = {it.name: seconds().get(it.name, A_JOB) for it in chosen}
    command = f"/usr/bin/python3 tools/run_tests.py {words_for(chosen)}".strip()
    count = f"{len(chosen)} of {len(jobs())} jobs"
    return f"tests: {count}, {elapsed(took, max(took.values()))}: {command}"


def report(files: Collection[str]) -> Iterable[str]:
    """Yields the lines with the costs of these changed files."""
    again = proved_again(changed_crates(files, "src|specs|proofs"))
    if again:
        yield of_proofs(again)
    if changed := changed_crates(files, r"src|specs|proofs|wrong-bodies\.edits"):
        yield of_wrong_bodies(changed, again)
    if chosen := jobs_to_run(files, again):
        yield of_tests(chosen)
    if files:
        yield "pages: python3 tools/pages.py"
        yield "layout, names and types: make lint"


def main() -> int:
    [commit] = sys.argv[1:] or ["HEAD"]
    files = changed_files(commit)
    print("\n".join(report(files)) or f"nothing differs from {commit}")
    return 0


if __name__ == "__main__":
    sys.exit(main())
