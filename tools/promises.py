#!/usr/bin/env python3
"""Compares the names in docs/PROMISES.md with the tree; tools/pages.py runs it.

    python3 tools/promises.py

The page names a call by its path, `cred_argon::argon::argon2` (`input_len`, `err`). The function
must be in that file, within the type that the path names, if it names one. Its contract must have
the clauses in brackets, or be a record of specs/ with these fields. Each test `CRATE::TEST`, each
file, and each definition that a file "has" must exist. The list of trusted code must contain each
crate of the toolchain that our crates use, and no others. No table cell may have over 120
characters. The last line is `N passed, M failed`, and the status is 1 if anything failed.
"""

import fnmatch
import re
import sys

import items
from tree import CRATES, TOP, has_test, is_test_or_example, kit, listed, need_rt, report, source

PAGE = TOP / "docs/PROMISES.md"
FILES = re.compile(
    r"(?<![\w/.-])((?:crates|tools|tests|c|docs|bench)/[\w/.-]*\.(?:txt|rt|antt|py|c|md|h))"
)


def file_of(path):
    """Returns the file with the function that a path names."""
    crate, *modules, _ = path.split("::")
    modules = [it for it in modules if it.islower()]
    return CRATES / crate / "src" / f"{'/'.join(modules) or 'lib'}.rt"


def functions(path):
    """Returns the functions with this path: within the type that the path names, or outside any
    type."""
    *modules, name = path.split("::")
    types = [it for it in modules if not it.islower()]
    found = items.File(source(file_of(path))).items()
    owners = [it for it in found if types and it.kind in ("impl", "trait") and types[-1] in it.head]
    inner = [it for owner in owners for it in owner.inner] if types else found
    return [it for it in inner if it.kind == "fn" and it.name == name]


def fields(name):
    """Returns the field names of each record with this name."""
    texts = (source(it) for it in CRATES.glob("*/specs/**/*.antt"))
    records = re.compile(rf"^pub record {name}\b.*?(?=^\S|\Z)", re.S | re.M)
    found = [it for text in texts for it in records.findall(text)]
    return {it for record in found for it in re.findall(r"^  pub (\w+) :", record, re.M)}


def has_clause(function, name):
    """Whether a contract has a clause with this name, or is a single record with this field."""
    clauses = [it for it in function.clauses if it.kind == "ensures"]
    records = [re.match(r"\s*(\w*)", it.text)[1] for it in clauses if not it.name]
    is_field = len(records) == 1 and name in fields(records[0])
    return is_field or name in [it.name for it in clauses]


def is_clause_of_one(functions, name):
    return any(has_clause(function, name) for function in functions)


def calls(text):
    """Yields the faults of the calls that a text names, and of the clauses in brackets after each
    call."""
    for path, clauses in re.findall(r"`(\w+(?:::\w+)+)`(?:\s*\(((?:`\w+`(?:,\s*)?)+)\))?", text):
        crate, *middle = path.split("::")
        if crate not in listed():
            yield f"`{path}`: there is no crate {crate}" if crate.islower() else None
        elif crate.endswith("_tests"):
            yield None if has_test(crate, middle[-1]) else f"the test `{path}` isn't there"
        elif not (found := functions(path)):
            yield f"the call `{path}` isn't there"
        else:
            names = re.findall(r"\w+", clauses)
            lost = [name for name in names if not is_clause_of_one(found, name)]
            yield f"`{path}` has no clause {', '.join(lost)}" if lost else None


def words(text):
    """Yields the faults of the bare names that carry a promise: each name belongs to the crate
    named before it."""
    for item in re.findall(r"^- \*Carried by\*.*?(?=^- |^#|^$|\Z)", text, re.S | re.M):
        crate = None
        for named, word in re.findall(
            r"crates/(\w+)/|`([\w:]+)`", re.sub(r"\(`[^()]*`\)", "", item)
        ):
            path = word.split("::")
            first, name = path[0], path[-1]
            if named or first in listed():
                crate = named or first
            if crate and word and crate != first:
                found = name in listed() or is_word_of(crate, name)
                yield None if found else f"`{word}` isn't in {crate}"


def is_word_of(crate, name):
    """Whether a name stands in a crate's code or definitions."""
    folder = CRATES / crate
    files = [*folder.glob("src/**/*.rt"), *folder.glob("specs/**/*.antt")]
    return any(re.search(rf"\b{name}\b", source(file)) for file in files)


def files(text):
    """Yields the faults of the files that a text names, and of the definitions that the text
    attributes to them."""
    for name in FILES.findall(text):
        yield None if (TOP / name).is_file() else f"the file {name} isn't there"
    for name, words in re.findall(
        r"(crates/[\w/.-]+\.antt)\s+has\s+((?:`\w+`(?:,|\s+and)?\s*)+)", text
    ):
        for word in re.findall(r"\w+", words.replace(" and", "")):
            yield None if re.search(rf"\b{word}\b", source(TOP / name)) else f"{name} has no {word}"


def cells(text):
    """Yields each cell that is too long."""
    for row in text.splitlines():
        if not row.startswith("|"):
            continue
        for cell in row.split("|"):
            words = cell.strip()
            if len(words) > 120:
                yield f"a cell of over 120 characters: {words[:60]}.."


def reached(libraries):
    """Returns the toolchain's crates that our crates use: those in crates.txt, and all crates below
    them."""
    more = {"std"}
    for name, (_, below) in listed().items():
        if not is_test_or_example(name):
            more.update(below)
    more.difference_update(listed())
    found = set()
    while more:
        found |= more
        folders = [libraries / f"{crate}.rlib/below" for crate in more]
        more = {low.name for folder in folders for low in folder.glob("*")} - found
    return found


def trusted(text, crates):
    """Yields the faults of the list of trusted code: a line that begins with the names of crates,
    or with `NAME_*` for several, trusts these."""
    heads = re.findall(
        r"^- ((?:`[^`]+`(?:, )?)+):", text.partition("\n## What is trusted\n")[2], re.M
    )
    named = [it for head in heads for it in re.findall(r"`([^`]+)`", head)]
    for crate in sorted(crates):
        is_named = any(fnmatch.fnmatch(crate, name) for name in named)
        yield None if is_named else f"the list of what is trusted lacks `{crate}`"
    for name in named:
        is_used = bool(fnmatch.filter(crates, name))
        unused = f"the list of what is trusted has `{name}`, which no crate uses"
        yield None if is_used else unused


def check():
    """Returns the faults of the names on the page."""
    text = PAGE.read_text()
    faults = (*calls(text), *words(text), *files(text), *cells(text))
    return [fault and f"docs/PROMISES.md: {fault}" for fault in faults]


def check_trusted():
    """Returns the faults of the list of trusted code, compared with the toolchain."""
    faults = trusted(PAGE.read_text(), reached(kit() / "rlibs"))
    return [fault and f"docs/PROMISES.md: {fault}" for fault in faults]


def main():
    need_rt("tell which of its crates are trusted")
    return report([*check(), *check_trusted()])


if __name__ == "__main__":
    sys.exit(main())
