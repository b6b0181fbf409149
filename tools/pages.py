#!/usr/bin/env python3
"""Compares the pages' claims about the tree with the tree.

    python3 tools/pages.py

The tool compares the figures, times, versions and places that pages name, their links and pictures,
the code that they include from files, the names in docs/PROMISES.md and docs/PLANTED.md, and the
promises in docs/STATEMENTS.txt. Each check below says what it compares. Each link must lead to a
file, and each picture must have a text for readers who can't see it.

Without rt the tool omits the checks that need the toolchain, and says so on a line. The last line
is `N passed, M failed`, followed by `, K left out` in this case, and the status is 1 if anything
failed.
"""

from __future__ import annotations

import pathlib
import re
import subprocess
import sys
from collections.abc import Iterable, Iterator

import definitions_page
import items
import pictures
import promises
import statements
import tree
from tree import CRATES, TOP, has_test, is_test_or_example, listed, report, source
from wrong_body import wrong_bodies_of

PAGES = [
    *sorted(TOP.glob("*.md")),
    *sorted(TOP.glob("docs/*.md")),
    *sorted(CRATES.glob("*/README.md")),
    *(TOP / it for it in ("bench/RESULTS.md", "examples/login_page/README.md", "tools/README.md")),
]
README, BUILDING = TOP / "README.md", TOP / "docs/BUILDING.md"

# The folders of proofs by hand: each creates values of one struct with ghost data, and its page
# names the trusted part.
WALKS = {"cred_cli/proofs/past"}
MOST = {
    "words in README.md": 650,
    "bytes in README.md": 5000,
    "lines of over 100 columns in src/ and specs/": 25,
    "clauses that two functions share": 7,
    "lines of longer clauses that stand again": 80,
    "lines that tools/english.txt finds": 158,
}
FOLDERS = (
    "crates|c|python|rust|tests|docs|tools|bench|examples|man|bin|units|packaging|completions"
    "|proofs|specs|src"
)
# Names on pages that exist only after an installation.
INSTALLED = {"bin/credkeep"}
# A variable with which a test controls its own programs.
SET_BY_TESTS = {"FRAMEWORKS_ROOM"}
# Code that reads a variable that a user or a tester may set.
VARIABLE = re.compile(
    r"(?:environ(?:\.get\(|\[)|getenv\()"
    r'"((?:RIGZUMAL|TORTURE|FRAMEWORKS|SERVER|TEST|CREDKEEP|CREDBOOK)\w*)"'
)
# The files that have the version, and its form in each.
VERSIONED = {
    "c/include/rigzumal.h": r'RIGZUMAL_LIBRARY_VERSION "(.*)"',
    "man/rigzumal.3": r'^\.TH .* "rigzumal (\S+)"',
    "rust/Cargo.toml": r'^version = "(.*)"',
    "CHANGELOG.md": r"^## (\d+\.\d+\.\d+)",
    "python/rigzumal/server/daemon/options.py": r'^VERSION = "(.*)"',
    "crates/cred_cli/src/arguments.rt": r'\.version\("(.*)"\)',
    "crates/credkeep_words/src/arguments.rt": r'\.version\("(.*)"\)',
}
# The rows of BUILDING's table of times that README repeats: "34 to 79 minutes".
TIMES = ("`.ci/run` from nothing",)

# The faults of the tree; None means a right claim.
Facts = Iterable["str | None"]


def git(*words: str) -> str:
    """Returns the output of git; status 1 means that git found nothing."""
    done = subprocess.run(["git", *words], cwd=TOP, capture_output=True, text=True)
    if done.returncode > 1:
        raise SystemExit(f"git {words[0]}: {done.stderr.strip()}")
    return done.stdout


def name_of(page: pathlib.Path) -> str:
    return str(page.relative_to(TOP))


def versions() -> Facts:
    """Yields the fault of each file that contains the version."""
    there = (TOP / "VERSION").read_text().strip()
    for file, form in VERSIONED.items():
        said = re.search(form, (TOP / file).read_text(), re.M)
        wrong = f"{file} says version {said and said[1]}, and VERSION {there}"
        yield None if said and said[1] == there else wrong


def found_in_english() -> int:
    """Counts the lines of the pages and manuals, outside of code, that tools/english.txt finds."""
    forms = re.compile("|".join(source(TOP / "tools/english.txt").splitlines()))
    pages = [source(TOP / it) for it in git("ls-files", "*.md", "man").splitlines()]
    return sum(bool(forms.search(it)) for page in pages for it in without_code(page).splitlines())


def house() -> Facts:
    """Checks the bounded counts: README's words and bytes, long lines of code, repeated clauses,
    and lines that tools/english.txt finds."""
    readme, lines = README.read_text(), 0
    for file in [*CRATES.glob("*/src/**/*.rt"), *CRATES.glob("*/specs/**/*.antt")]:
        lines += sum(len(it) > 100 and "use " not in it for it in source(file).splitlines())
    counts = {
        "words in README.md": len(readme.split()),
        "bytes in README.md": len(readme.encode()),
        "lines of over 100 columns in src/ and specs/": lines,
        "lines that tools/english.txt finds": found_in_english(),
        **items.shared_clauses(),
    }
    for what, count in counts.items():
        wrong = f"{count} {what}: the limit is {MOST[what]}"
        yield wrong if count > MOST[what] else None


def compiled() -> Facts:
    """Yields the fault of each part of c/proved that is of other sources than these, or damaged."""
    for part in ("library", "programs"):
        for processor in ("x86_64", "arm64"):
            words = [str(TOP / "tools/check_proved"), part, processor]
            done = subprocess.run(words, capture_output=True, text=True)
            yield (done.stdout + done.stderr).strip() if done.returncode else None


def merges() -> Facts:
    """Yields each file that has the marks of a merge which wasn't finished."""
    marked = git("grep", "-lE", "^(<{7}|>{7}) ").splitlines()
    yield from (f"{it} has the marks of a merge" for it in marked)
    yield None


def figures() -> Facts:
    """Checks the counts in README: the crates that the gate proves, the wrong bodies that it tries,
    and its tests. No time may be left open."""
    code = [source(it) for it in CRATES.glob("*/src/**/*.rt")]
    there = {
        "crates": len(listed()),
        "wrong bodies": sum(len(wrong_bodies_of(it)) for it in CRATES.iterdir()),
        "tests": sum(len(re.findall(r"^\s*#\[test\]", it, re.M)) for it in code),
    }
    readme = README.read_text()
    for word, count in there.items():
        said = re.findall(rf"(\d+) {word}", readme)
        yield None if said else f"README.md doesn't say how many {word} there are: {count}"
        for number in said:
            wrong = f"README.md says {number} {word}, and there are {count}"
            yield None if int(number) == count else wrong
    for name in re.findall(r"\b[A-Z_]+_MINUTES\b", readme):
        yield f"README.md: {name} isn't filled in"


def in_minutes(elapsed: str) -> str:
    """`7 min 23 s to 15 min 47 s` in the form of README: `7 to 16`."""
    times = []
    for hours, minutes, seconds in re.findall(r"(?:(\d+) h )?(\d+) min(?: (\d+) s)?", elapsed):
        total = int(hours or 0) * 60 + int(minutes) + int(seconds or 0) / 60
        times.append(f"{total:.0f}")
    return " to ".join(times)


def times() -> Facts:
    """Compares README's times, and the number of processors, with BUILDING's table."""
    readme, building = (" ".join(it.read_text().split()) for it in (README, BUILDING))
    rows = [re.search(rf"\| {re.escape(it)}[^|]*\| ([^|]*) \|", building) for it in TIMES]
    processors = re.search(r"The times below are from [^.]*?(\w+ processors)", building)
    if processors is None or None in rows:
        lost = [it for it, row in zip(TIMES, rows) if row is None] or ["some number of processors"]
        yield f"docs/BUILDING.md has no time of {lost[0]}"
    else:
        minutes = " and ".join(in_minutes(it[1]) for it in rows if it) + " minutes"
        for words in (minutes, processors[1]):
            wrong = f"README.md lacks `{words}`, which docs/BUILDING.md has"
            yield None if re.search(rf"(?<!to ){words}", readme) else wrong


def logic() -> Facts:
    """Yields a fault for each page that doesn't name the logic of the toolchain on this machine."""
    [here] = re.findall(r"\blogic (\w+)", tree.told_by_rt("version"))
    for page in (README, BUILDING):
        named = f"{name_of(page)} doesn't name the toolchain's logic: {here}"
        yield None if f"`{here}`" in page.read_text() else named


def stands(place: str) -> bool:
    """Whether a place exists: a test, `CRATE::TEST`, a file by its path, or a wrong body of the
    gate, `CRATE/NAME`."""
    if "::" in place:
        return has_test(*place.split("::"))
    crate, _, name = place.partition("/")
    is_edit = name in {it.name for it in wrong_bodies_of(CRATES / crate)}
    return is_edit or (TOP / place).is_file()


def planted() -> Facts:
    """Checks the wrong bodies in docs/PLANTED.md. The third column of its tables names the place of
    each wrong body in the gate, or the tests that refuse that body."""
    page = (TOP / "docs/PLANTED.md").read_text()
    rows = re.findall(r"^\| .*", re.sub(r"^\| .*\n\|-.*\n", "", page, flags=re.M), re.M)
    yield None if rows else "docs/PLANTED.md has no table of named wrong bodies"
    for row in rows:
        name, _, where, *_ = row.strip("| ").split(" | ")
        places = re.findall(r"`([^`]+)`", where)
        lost = [it for it in places if not stands(it)]
        wrong = f"docs/PLANTED.md: {name}: {', '.join(lost) or 'no place'} isn't there"
        yield wrong if lost or not places else None


def applied() -> Facts:
    """Yields each wrong body whose old text isn't once in its crate."""
    for crate in sorted(it.parent for it in CRATES.glob("*/wrong-bodies.edits")):
        files = [it for part in ("src", "specs", "proofs") for it in (crate / part).rglob("*.*")]
        texts = {str(it.relative_to(crate)): source(it) for it in files}
        for edit in wrong_bodies_of(crate):
            yield None if edit.planted(texts) else f"{edit} doesn't apply"


def without_code(text: str) -> str:
    return re.sub(r"```.*?```", "", text, flags=re.S)


def anchors(page: pathlib.Path) -> set[str]:
    """Returns the anchors of a page's headings, as forges generate them."""
    heads = re.findall(r"^#+ (.*)$", without_code(source(page)), re.M)
    return {re.sub(r"[^\w -]", "", it.lower()).replace(" ", "-") for it in heads}


def links(page: pathlib.Path) -> Facts:
    """Checks each link and picture of a page."""
    text = without_code(page.read_text())
    for picture, words, target in re.findall(r"(!?)\[([^\]]*)\]\(([^)\s]+)\)", text):
        file, _, place = target.partition("#")
        there = (page.parent / file).resolve() if file else page
        if re.match(r"\w+:", target):
            continue
        if not there.exists() or place and place not in anchors(there):
            yield f"{name_of(page)}: {target} isn't there"
        elif picture and len(words) < 30:
            yield f"{name_of(page)}: the picture {target} has no text"
        else:
            yield None


def places(page: pathlib.Path) -> Facts:
    """Checks each file or folder of the tree that a page names in code, relative to the top, to the
    page or to a crate."""
    text = re.sub(r"```.*?```|\[[^\]]*\]\([^)]*\)", "", source(page), flags=re.S)
    for place in re.findall(rf"(?<![\w/.~-])((?:{FOLDERS})/[\w./-]*\w)", text):
        if place not in INSTALLED and not re.search(r"/out\b|[A-Z]{4}", place):
            tried = [TOP / place, page.parent / place, *CRATES.glob(f"*/{place}")]
            is_there = any(it.exists() for it in tried)
            yield None if is_there else f"{name_of(page)}: {place} isn't there"


def variables() -> Facts:
    """Checks that a page or a manual names each variable that a user or tester may set."""
    pages = [*PAGES, *TOP.glob("*/README.md"), *TOP.glob("man/*")]
    said = "\n".join(source(it) for it in pages)
    files = git("ls-files", "*.py", "*.c", "*.rs").split()
    names = {name for it in files for name in VARIABLE.findall(source(TOP / it))}
    for name in sorted(names - SET_BY_TESTS):
        is_said = re.search(rf"\b{name}\b", said)
        yield None if is_said else f"no page names the variable {name}"


def plain(code: str) -> str:
    """Returns code without its indentation."""
    return re.sub(r"[ \t]+", " ", re.sub(r"^[ \t]+", "", code, flags=re.M)).strip("\n")


def callers(page: pathlib.Path) -> Facts:
    """Checks code after a line `<!-- from FILE -->`. The file must contain the code word for word,
    except for the part that a line of two dots omits."""
    form = r"^<!-- from (\S+) -->\n```\w+\n(.*?)^```$"
    for name, code in re.findall(form, page.read_text(), re.S | re.M):
        parts = re.split(r"^\s*(?://\s*)?\.\.\s*$", code, flags=re.M)
        there = plain(source(TOP / name))
        lost = [it for it in parts if it.strip() and plain(it) not in there]
        first = lost[0].strip().splitlines()[0] if lost else ""
        yield f"{name_of(page)}: code that isn't in {name}: {first}" if lost else None


def rooms() -> Facts:
    """Checks that each crate has a page, and a place in the picture, above those that it uses
    directly: without those that one of them uses."""
    text, picture = (source(TOP / f"docs/pictures/crates.{it}") for it in ("dot", "svg"))
    drawn = {name: lows.split() for name, lows in re.findall(r"^(\w+) -> \{ (.*) \};$", text, re.M)}
    for name in sorted(listed()):
        is_there = (CRATES / name / "README.md").is_file()
        yield None if is_there else f"crates/{name}/README.md isn't there"
        if not is_test_or_example(name):
            used = tree.below(name)
            indirect = {low for it in used for low in tree.all_below(it)}
            direct = sorted({*used} - indirect)
            is_right = sorted(drawn.get(name, [])) == direct
            wrong = f"docs/pictures/crates.dot: {name} is not above {', '.join(direct)} alone"
            yield None if is_right else wrong
            shown = [f">{name}</text>", *(f"<title>{name}&#45;&gt;{low}<" for low in direct)]
            lacks = f"docs/pictures/crates.svg lacks {name} as crates.dot has it: draw it by dot"
            yield None if all(it in picture for it in shown) else lacks


def order() -> Facts:
    """Checks the table in docs/ARCHITECTURE.md: each crate has a row, below the rows of all crates
    that it uses."""
    page = source(TOP / "docs/ARCHITECTURE.md")
    rows = [re.findall(r"\(\.\./crates/(\w+)\)", it) for it in re.findall(r"^\| \[.*", page, re.M)]
    at = {name: number for number, row in enumerate(rows) for name in row}
    for name in listed():
        above = [it for it in tree.below(name) if at.get(it, -1) > at.get(name, len(rows))]
        wrong = f"{name} above {', '.join(above)}, which it uses" if above else f"no {name}"
        yield f"docs/ARCHITECTURE.md's table has {wrong}" if above or name not in at else None


def definitions() -> Facts:
    """Checks that each file of definitions is in its crate's section of docs/DEFINITIONS.md."""
    page = source(TOP / "docs/DEFINITIONS.md")
    sections = dict(re.findall(r"^## (\w+)\n(.*?)(?=^## |\Z)", page, re.S | re.M))
    for file in sorted(CRATES.glob("*/specs/**/*.antt")):
        crate, name = file.relative_to(CRATES).parts[0], file.stem
        if name != "Lib":
            is_named = re.search(rf"\b{name}\b", sections.get(crate, ""))
            yield None if is_named else f"docs/DEFINITIONS.md: {crate} has no {name}"


def walks() -> Facts:
    """Checks the proofs by hand, which may give a ghost field any value: each must be in a folder
    that this file names."""
    for proof in CRATES.glob("*/proofs/**/Proof.antt"):
        place = proof.relative_to(CRATES).as_posix()
        is_known = any(place.startswith(f"{it}/") for it in WALKS)
        wrong = f"crates/{place}: a proof by hand, outside of {', '.join(sorted(WALKS))}"
        yield None if is_known else wrong


OF_TREE = (
    house,
    merges,
    compiled,
    figures,
    times,
    variables,
    planted,
    applied,
    rooms,
    order,
    definitions,
    definitions_page.check,
    walks,
    versions,
    pictures.check,
    promises.check,
    statements.check,
)
# The checks that need the toolchain.
OF_TOOLCHAIN = {
    logic: "the logic that README and BUILDING name",
    promises.check_trusted: "the crates of the toolchain that PROMISES has as trusted",
}


def facts() -> Iterator[str | None]:
    for check in (*OF_TREE, *(OF_TOOLCHAIN if tree.has_rt() else ())):
        yield from check()
    for page in PAGES:
        for look in (links, callers, places):
            yield from look(page)


def main() -> int:
    unseen = [] if tree.has_rt() else OF_TOOLCHAIN.values()
    return report([*facts()], [f"omitted, since {tree.RT} is missing: {it}" for it in unseen])


if __name__ == "__main__":
    sys.exit(main())
