"""Links each name in docs/PROMISES.md to its place: a call, a clause, a test, a file or a
definition. tools/promises.py checks that each name exists."""

import re

from promises import FILES, file_of, functions
from tree import CRATES, TOP, listed, source

CALL = re.compile(r"`(\w+(?:::\w+)+)`(\s*\((?:`\w+`(?:,\s*)?)+\))?")
CARRIED = re.compile(r"^- \*Carried by\*.*?(?=^- |^#|^$|\Z)", re.S | re.M)
# A name in code, outside of a link, or the words that name the crate of the next names.
NAMED = re.compile(r"crates/(\w+)/|\[`(\w+)::[^`]*`\]|`([\w:]+)`(?!\])")
HELD = re.compile(rf"{FILES.pattern}(\s+has\s+)((?:`\w+`(?:,|\s+and)?\s*)+)")
# The path of a file outside of links, in code or not.
LEFT = re.compile(rf"(?<!source:)(`?){FILES.pattern}\1")


def link(words, file, at=None):
    """Returns a link to a file, or to the line of a place in that file."""
    line = "" if at is None else f"#L-{source(file).count(chr(10), 0, at) + 1}"
    return f"[{words}](source:{file.relative_to(TOP)}{line})"


def place(crate, name):
    """Finds the file and the place of a crate's function or definition of this name."""
    kinds = {"src/**/*.rt": rf"\bfn {name}\b", "specs/**/*.antt": rf"^(?:\w+ )*{name}\b.*:"}
    for files, form in kinds.items():
        for file in sorted((CRATES / crate).glob(files)):
            if found := re.search(form, source(file), re.M):
                return file, found.start()
    return None


def call(found):
    """Links a call and its clauses, or a test."""
    path, clauses = found[1], found[2] or ""
    crate = path.split("::")[0]
    if crate.endswith("_tests") and (test := place(crate, path.split("::")[-1])):
        return link(f"`{path}`", *test)
    if crate not in listed() or not (named := functions(path)):
        return found[0]
    file = file_of(path)

    def clause(word):
        of_all = [it for function in named for it in function.clauses if it.kind == "ensures"]
        starts = [it.start for it in of_all if it.name == word[1]]
        return link(word[0], file, starts[0]) if starts else word[0]

    return link(f"`{path}`", file, named[0].start) + re.sub(r"`(\w+)`", clause, clauses)


def carried(item):
    """Links the names that carry a promise: a bare name belongs to the crate named before it."""
    crate = None

    def name(found):
        nonlocal crate
        crate = found[1] or found[2] or crate
        if not found[3] or not crate:
            return found[0]
        at = place(crate, found[3].split("::")[-1])
        return link(found[0], *at) if at else found[0]

    return NAMED.sub(name, item[0])


def held(found):
    """Links the definitions that the page attributes to a file."""
    file = TOP / found[1]

    def definition(word):
        at = re.search(rf"\b{word[1]}\b", source(file))
        return link(word[0], file, at.start()) if at else word[0]

    return found[1] + found[2] + re.sub(r"`(\w+)`", definition, found[3])


def linked(text):
    """Returns the text of the page with its links."""
    text = HELD.sub(held, text)
    text = CALL.sub(call, text)
    text = CARRIED.sub(carried, text)
    return LEFT.sub(lambda found: link(found[0], TOP / found[2]), text)
