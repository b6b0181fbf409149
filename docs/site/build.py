#!/usr/bin/env python3
"""Builds the site of these pages in out/html with Debian's Sphinx, for `make html`.

    /usr/bin/python3 docs/site/build.py [FOLDER]                 (FOLDER: out)

The tool writes the input of Sphinx to FOLDER/site. The input is the pages in their folders, with
README.md as index.md, a page for each manual, and the references for C, from its header, and for
Python, from docstrings. The last line of output is the path of the first page. A warning is an
error.
"""

import pathlib
import re
import shutil
import subprocess
import sys

HERE = pathlib.Path(__file__).resolve().parent
TOP = HERE.parent.parent
sys.path = [str(HERE), str(TOP / "tools"), *sys.path]
import clauses  # noqa: E402
import header  # noqa: E402
import pages  # noqa: E402
import promises  # noqa: E402

PAGES = [*pages.PAGES, *(TOP / it / "README.md" for it in ("c", "python", "rust"))]
HEADER, MANUALS = TOP / "c/include/rigzumal.h", sorted(TOP.glob("man/*"))
# The places of these pages on the site.
PLACES = {TOP / "README.md": "index.md", HEADER: "c/include/rigzumal.rst"}
PLACES |= {it: f"man/{it.name}.rst" for it in MANUALS}
CODE = re.compile(r"(^ *```.*?^ *```$|`[^`\n]+`)", re.S | re.M)
LINK = re.compile(r"(\]\()([^)\s#:]+)((?:#[^)\s]*)?\))")


def place(path):
    """Returns a file's place on the site, or None if the file isn't a page."""
    return PLACES.get(path) or (str(path.relative_to(TOP)) if path in PAGES else None)


def link(page, target):
    """Returns a page's link, to another page, a picture or a source, in the form of the site."""
    path = (page.parent / target).resolve()
    path = path / "README.md" if path.is_dir() else path
    if path.suffix in (".svg", ".png"):
        return target
    if name := place(path):
        up = pathlib.PurePath(place(page)).parent.parts
        return "/".join([*[".."] * len(up), name])
    return f"source:{path.relative_to(TOP)}"


def staged(page):
    """Returns the text of a page, with links in the form of the site."""
    text = page.read_text()
    if page == promises.PAGE:
        text = clauses.linked(text)

    def of_site(found):
        before, target, after = found.groups()
        return before + link(page, target) + after

    parts = CODE.split(text)
    for at in range(0, len(parts), 2):  # outside code
        parts[at] = LINK.sub(of_site, parts[at])
    return "".join(parts)


def index(title, names):
    """Returns a page that lists other pages."""
    lines = [title, "=" * len(title), "", ".. toctree::", "   :maxdepth: 1", ""]
    return "\n".join([*lines, *(f"   {it}" for it in names), ""])


def manual(file):
    name, _, section = file.name.rpartition(".")
    title = f"{name}({section})"
    return f"{title}\n{'=' * len(title)}\n\n.. manual:: {file}\n"


def all_pages():
    """Returns the text of each page, by the page's place."""
    found = {place(it): staged(it) for it in PAGES}
    found["index.md"] += "\n" + (HERE / "index.md").read_text()
    found["docs/site/python.rst"] = (HERE / "python.rst").read_text()
    found[place(HEADER)] = header.page(HEADER.read_text())
    found |= {place(it): manual(it) for it in MANUALS}
    found["man/index.rst"] = index("Manual pages", [it.name for it in MANUALS])
    crates = sorted(it.parent.name for it in PAGES if it.parent.parent == pages.CRATES)
    found["crates/index.rst"] = index("The crates", [f"{it}/README" for it in crates])
    return found


def lay_out(stage):
    """Writes the input of Sphinx."""
    shutil.rmtree(stage, ignore_errors=True)
    for name, text in all_pages().items():
        (stage / name).parent.mkdir(parents=True, exist_ok=True)
        (stage / name).write_text(text)
    shutil.copytree(TOP / "docs/pictures", stage / "docs/pictures")


def main(folder):
    stage, site = folder / "site", folder / "html"
    lay_out(stage)
    words = ["-q", "-W", "--keep-going", "-c", HERE, "-d", folder / "doctrees"]
    done = subprocess.run([sys.executable, "-m", "sphinx", *words, stage, site])
    if done.returncode == 0:
        print(site / "index.html")
    return done.returncode


if __name__ == "__main__":
    sys.exit(main(pathlib.Path(*sys.argv[1:2] or [TOP / "out"]).resolve()))
