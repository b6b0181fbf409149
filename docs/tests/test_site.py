"""The site of these pages, as `make html` builds it: it has each page, and no link is broken."""

import collections
import html
import importlib
import pathlib
import re
import sys
import unittest
import urllib.parse

TOP = pathlib.Path(__file__).resolve().parent.parent.parent
sys.path.insert(0, str(TOP))
from tests.helpers import LIBRARIES, Case, need_module, run  # noqa: E402
from tests.needs import need_file  # noqa: E402

sys.path = [str(TOP / "docs/site"), str(TOP / "tools"), str(TOP / "python"), *sys.path]
import build  # noqa: E402

need_module("sphinx", "myst_parser")
need_file(LIBRARIES / "librigzumal.so.1")

CALLS = re.compile(r"^\w[\w ]*[ *](rigzumal_\w+)\(", re.M)


class Site(Case):
    seconds = 600

    def setUp(self):
        super().setUp()
        room = self.room()
        self.site = room / "html"
        # a warning is an error
        written = run(sys.executable, TOP / "docs/site/build.py", room)
        self.assertEqual(written, f"{self.site / 'index.html'}\n")

    def text(self, name):
        return (self.site / name).read_text()

    def test_site(self):
        """All checks use one build, which takes long."""
        self.check_pages()
        self.check_references()
        self.check_search()
        self.check_promises()
        self.check_links()

    def check_pages(self):
        for page in [*build.PAGES, *build.MANUALS]:
            name = str(pathlib.PurePath(build.place(page)).with_suffix(".html"))
            if page in build.MANUALS:
                name = f"man/{page.name}.html"
            with self.subTest(name):
                self.assertRegex(self.text(name), "<h1>.+<")

    def check_references(self):
        """The references have every call of the header, and every public name with its methods."""
        found = self.text("c/include/rigzumal.html")
        calls = set(CALLS.findall(build.HEADER.read_text()))
        self.assertLess(25, len(calls))
        self.assertEqual({it for it in calls if f'id="c.{it}"' not in found}, set())
        found = self.text("docs/site/python.html")
        for name in ("rigzumal", "rigzumal.accounts", "rigzumal.server"):
            module = importlib.import_module(name)
            names = [it for it in module.__all__ if callable(getattr(module, it))]
            lost = [it for it in names if f'id="{module.__name__}.{it}"' not in found]
            self.assertEqual(lost, [])
        for name in ("PasswordHasher.verify_and_rehash", "accounts.Accounts.login"):
            self.assertIn(f'id="rigzumal.{name}"', found)

    def check_search(self):
        index = self.text("searchindex.js")
        for word in ("pepper", "rigzumal_check_with_secret", "credkeep"):
            self.assertRegex(index, rf'\b{word}"?:')

    def check_promises(self):
        """Each call that a promise names, and each of its clauses, is a link to its line."""
        page = self.text("docs/PROMISES.html")
        code = r"<code[^>]*>(?:<span[^>]*>)*"
        calls = re.findall(rf"(<a [^>]*>)?{code}(cred_\w+::\w+::[\w:]+)", page)
        self.assertLess(200, len(calls))
        self.assertEqual([name for link, name in calls if "#L-" not in link], [])
        line = re.search(rf'argon.rt.html#L-(\d+)">{code}cred_argon::argon::argon2<', page)[1]
        source = (TOP / "crates/cred_argon/src/argon.rt").read_text().splitlines()
        self.assertIn("pub fn argon2<", source[int(line) - 1])
        self.assertNotIn("](source:", page)

    def check_links(self):
        """Each link to a page, a place on it, a picture or a style."""
        places, broken = collections.defaultdict(set), []
        files = {it: it.read_text() for it in self.site.rglob("*.html")}
        for file, text in files.items():
            places[file] = set(re.findall(r'\b(?:id|name)="([^"]+)"', text))
        for file, text in files.items():
            for link in set(re.findall(r'\b(?:href|src)="([^"]+)"', text)):
                target, _, place = html.unescape(link).partition("#")
                if re.match(r"\w+:", target):
                    continue
                there = (file.parent / urllib.parse.unquote(target)).resolve() if target else file
                place = urllib.parse.unquote(place)
                if not there.is_file() or place and place not in places[there]:
                    broken.append(f"{file.relative_to(self.site)}: {link}")
        self.assertEqual(broken, [])


if __name__ == "__main__":
    unittest.main()
