"""The code on the pages: the tests compile or run each piece of C, Python, Rust and PHP that a page
shows, and its shell commands for a move.

    /usr/bin/python3 docs/tests/test_pages.py [-k NAME ..]

The tests need `make -C c`, and some need credkeep. The tests skip themselves if this machine lacks
a program or a package: tools/debian-packages.txt lists Debian's packages.
"""

import functools
import os
import pathlib
import re
import shutil
import sys
import unittest

HERE = pathlib.Path(__file__).resolve().parent
sys.path = [str(HERE), str(HERE.parent.parent), *sys.path]

import services  # noqa: E402
from tests.helpers import LIBRARIES, PYTHON, TOP, Case  # noqa: E402
from tests.helpers import need, need_module, run, write_files  # noqa: E402
from tests.needs import lacking, need_file  # noqa: E402

OVER_PACKAGE = {"PYTHONPATH": str(PYTHON)}
BLOCK = re.compile(r"^```(c|python|rust)\n(.*?)^```$", re.MULTILINE | re.DOTALL)
FROM_FILE = re.compile(r"^<!-- from \S+ -->\n```.*?^```$", re.MULTILINE | re.DOTALL)

# The tests of each piece, page by page and in their order. tools/pages.py compares code that a page
# takes from a file with the file.
TESTED = {
    "README.md": (
        ("python", "test_samples_of_hashing"),
        ("c", "test_sample_of_c"),
        ("python", "test_sample_of_accounts"),
    ),
    "docs/DJANGO.md": (
        ("python", "test_django_page"),
        *(("python", "test_samples_of_django"),) * 7,
    ),
    "docs/SCALE.md": (("python", "test_sample_of_a_transaction"),),
    "docs/SERVERS.md": (("python", "tests/server/test_client_fields.py"),),
    "docs/SERVING.md": (
        ("python", "tests/server/test_client_fields.py"),
        ("python", "test_sample_of_a_co_process"),
    ),
    "python/README.md": (
        ("python", "test_samples_of_hashing"),
        *(("python", "test_samples_of_asyncio"),) * 3,
        ("python", "test_sample_of_flask"),
    ),
    "rust/README.md": (("rust", "test_sample_of_rust"),),
}


def samples(page):
    """Returns the pieces of code on a page with their languages, except those from a file."""
    return BLOCK.findall(FROM_FILE.sub("", (TOP / page).read_text()))


def sample_for(page, test):
    """Returns the pieces of code on a page that belong to a test."""
    return [code for (_, code), (_, named) in zip(samples(page), TESTED[page]) if named == test]


# For the pieces of docs/DJANGO.md: the imports of hashers, a model and URLs, and the settings of a
# project with its own model, on a machine without argon2-cffi.
HASHER_IMPORTS = """from django.contrib.auth.hashers import MD5PasswordHasher
from people.models import User
from rigzumal.django.hashers import Argon2PasswordHasher

"""
MODEL_IMPORTS = """from django.contrib.auth.models import AbstractUser
from rigzumal.django.users import CompareAndSetMixin

"""
URL_IMPORTS = """from django.contrib import admin
from django.urls import include, path
from people.models import User
import rigzumal.django.admin

"""
OWN_MODEL = """
import sys
sys.modules["argon2"] = None
INSTALLED_APPS.append("people")
AUTH_USER_MODEL = "people.User"
del RIGZUMAL_USER_COMPARES
"""

# The costs of a record, and the typed password: the four cases of a sample that logs in.
OLD_COSTS, RIGHT, GUESS = "$argon2id$v=19$m=64,t=1,p=1", "correct horse", "a guess"
# printf 'correct horse' | argon2 somesalt -id -t 1 -k 64 -p 1 -l 32 -e
OLD_RECORD = f"{OLD_COSTS}$c29tZXNhbHQ$3j0+S6gGV20Zdm+eoztdkLUvOKbucBG7gA8asDqV4P8"
LOGINS = [(is_old, typed) for is_old in (False, True) for typed in (RIGHT, GUESS)]

# A program around a sample of C, with code instead of its dots. The program prints the sample's
# actions; its arguments are the record's costs and the typed password.
PROGRAM = """#include "rigzumal.h"
#include <stdio.h>
#include <string.h>

static void let_in(void) { puts("let in"); }
static void store_a_new_record(void) { puts("stored"); }

int main(int count, char **words) {
    const char *costs = words[1], *typed = words[2], *password = "correct horse";
    size_t size = strlen(password), password_size = size;
    (void)count, (void)size, (void)password_size, (void)store_a_new_record;
%s
    return 0;
}
"""
TYPED = "password = typed; size = password_size = strlen(typed);"

# The parts that the sample at the crate's head leaves to its caller.
RUST_CALLER = """
fn word(place: usize) -> String { std::env::args().nth(place).unwrap() }
fn store(record: &Record) { println!("{record}"); }
fn stored() -> String { word(1) }
"""


class PagesTest(Case):
    seconds = 900

    def setUp(self):
        super().setUp()
        self.folder = self.room()

    def test_samples(self):
        """Each piece of code on a page has a test here, or a file that runs it."""
        pages = [TOP / "README.md", *(TOP / "docs").glob("*.md")]
        pages += [it for name in ("c", "python", "rust") for it in (TOP / name).rglob("*.md")]
        for path in pages:
            page = str(path.relative_to(TOP))
            known = [language for language, _ in TESTED.get(page, ())]
            self.assertEqual((page, [it for it, _ in samples(page)]), (page, known))
        for page, test in ((page, test) for page, tests in TESTED.items() for _, test in tests):
            if not hasattr(self, test):
                self.assertIn(pathlib.Path(page).name, (TOP / test).read_text(), test)

    def test_samples_of_hashing(self):
        """On both pages only a right password replaces a record, and only an old record."""
        made, word = 'record = hasher.hash("correct horse")', 'rehash(record, "correct horse")'
        old = made.replace("hasher", "hasher.replace(time_cost=1, memory_cost=8192)")
        for page in ("README.md", "python/README.md"):
            (code,) = sample_for(page, "test_samples_of_hashing")
            self.assertEqual((code.count(made), code.count(word)), (1, 1))
            for record, typed, said, is_old in (
                (made, word, "", False),
                (old, word, "", False),
                (made, 'rehash(record, "a guess")', "another password\n", False),
                (old, 'rehash(record, "a guess")', "another password\n", True),
            ):
                with self.subTest(page=page, record=record, typed=typed):
                    text = f"""{code.replace(made, record).replace(word, typed)}
hasher.verify(record, "correct horse")
assert hasher.check_needs_rehash(record) is {is_old}
"""
                    self.assertEqual(run(sys.executable, "-c", text, env=OVER_PACKAGE), said)

    def check_logins(self, code, program):
        """Runs a page's service, over a table in which Ada has a password, with a program."""
        text = f"{services.BEFORE}{code}{program}"
        run(sys.executable, "-c", text, env=OVER_PACKAGE, at=self.folder)

    def test_samples_of_asyncio(self):
        """The samples of asyncio with a right and a wrong password, with unknown names, and for a
        hash alone."""
        need_module("aiosqlite", "fastapi", "httpx")
        code = "\n".join(sample_for("python/README.md", "test_samples_of_asyncio"))
        self.check_logins(code, services.ASYNCIO)

    def test_sample_of_flask(self):
        need_module("flask")
        (code,) = sample_for("python/README.md", "test_sample_of_flask")
        self.check_logins(code, services.FLASK)

    def check_c(self, code, rehashes):
        """Tests that a sample of C accepts only the right password, and rehashes only old
        records."""
        self.assertEqual(code.count("RIGZUMAL_ARGON2_COSTS"), 1 + rehashes)
        code = code.replace("RIGZUMAL_ARGON2_COSTS", "costs", 1)
        source, program = self.folder / "sample.c", self.folder / "sample"
        source.write_text(PROGRAM % code)
        words = ["-std=c11", "-Wall", "-Wextra", "-Wpedantic", "-Werror", f"-I{TOP / 'c/include'}"]
        compiler = os.environ.get("CC", "cc")
        run(compiler, *words, source, f"-L{LIBRARIES}", "-lrigzumal", "-o", program)
        for is_old, typed in LOGINS:
            with self.subTest(is_old=is_old, typed=typed):
                costs = OLD_COSTS if is_old else "$argon2id$v=19$m=65536,t=3,p=4"
                said = run(program, costs, typed, env={"LD_LIBRARY_PATH": str(LIBRARIES)})
                stored = "stored\n" if rehashes and is_old else ""
                self.assertEqual(said, f"{stored}let in\n" if typed == RIGHT else "")

    def test_sample_of_c(self):
        """The page's C, built with the flags of `make install`."""
        (code,) = sample_for("README.md", "test_sample_of_c")
        made, checked = code.rsplit("\n", 2)[0], code.splitlines()[-1]
        checked = checked.replace("...", "let_in();")
        self.check_c(f"{made}\n{TYPED}\n{checked}", rehashes=False)

    def test_sample_of_the_header(self):
        """The sample of C in the comment at the head of rigzumal.h."""
        head = (TOP / "c/include/rigzumal.h").read_text().partition("*/")[0]
        code = "\n".join(re.findall(r"^ \*     (.*)$", head, re.M))
        self.assertEqual(code.count("..."), 1)
        self.check_c(code.replace("...", TYPED), rehashes=True)

    def built_rust(self, name, code):
        """Builds a program over the crate, as one of its examples."""
        need("cargo")
        crate = self.folder / "crate"
        shutil.copytree(TOP / "rust", crate, ignore=shutil.ignore_patterns("target"))
        (crate / "examples").mkdir(exist_ok=True)
        (crate / f"examples/{name}.rs").write_text(code)
        env = {"CARGO_TARGET_DIR": str(self.folder / "cargo"), "RIGZUMAL_LIB_DIR": str(LIBRARIES)}
        words = ("build", "-q", "--offline", "--locked", "--example", name)
        run("cargo", *words, env=env, at=crate)
        return self.folder / "cargo/debug/examples" / name

    def test_sample_of_rust(self):
        """The page's Rust runs as a program."""
        (code,) = sample_for("rust/README.md", "test_sample_of_rust")
        used, rest = code.split("\n\n", 1)
        main = f"{used}\n\nfn main() -> Result<(), Error> {{\n{rest}\n    Ok(())\n}}\n"
        run(self.built_rust("page", main), env={"LD_LIBRARY_PATH": str(LIBRARIES)})

    def test_sample_of_the_crate(self):
        """The login in the documentation of the crate stores a record only for the right
        password."""
        head = (TOP / "rust/src/lib.rs").read_text().split("//! ```\n")[1]
        code = "\n".join(it[4:] for it in head.splitlines() if not it.startswith("//! #"))
        used, rest = code.split("\n\n", 1)
        asked = 'match verify(b"correct horse"'
        self.assertEqual(rest.count(asked), 1)
        rest = rest.replace(asked, "match verify(word(2).as_bytes()")
        main = f"{used}\n{RUST_CALLER}\nfn main() -> Result<(), Error> {{\n{rest}\nOk(())\n}}\n"
        program = self.built_rust("head", main)
        env = {"LD_LIBRARY_PATH": str(LIBRARIES)}
        new, *_ = run(program, OLD_RECORD, RIGHT, env=env).splitlines()
        for is_old, typed in LOGINS:
            with self.subTest(is_old=is_old, typed=typed):
                _, *said = run(program, OLD_RECORD if is_old else new, typed, env=env).splitlines()
                if typed == GUESS:
                    self.assertEqual(said, ["the password is wrong"])
                else:
                    self.assertEqual(len(said), is_old)

    def check_accounts(self, code):
        """Tests a login over a table in PostgreSQL."""
        need_module("psycopg")
        page = self.folder / "accounts.py"
        page.write_text(code)
        path = os.pathsep.join(map(str, (PYTHON, PYTHON / "tests/accounts")))
        said = run(sys.executable, HERE / "sample_of_accounts.py", page, env={"PYTHONPATH": path})
        if said.startswith("not there: "):
            self.skipTest(said.removeprefix("not there: ").strip())

    def test_sample_of_accounts(self):
        (code,) = sample_for("README.md", "test_sample_of_accounts")
        self.check_accounts(code)

    def test_docstring_of_accounts(self):
        head = (PYTHON / "rigzumal/accounts/__init__.py").read_text().split('"""')[1]
        self.check_accounts("\n".join(re.findall(r"^    (.*)$", head, re.M)))

    def test_sample_of_a_transaction(self):
        """A change commits with rows of the caller's in the transaction of an ORM, or not at
        all."""
        need_module("sqlalchemy")
        (code,) = sample_for("docs/SCALE.md", "test_sample_of_a_transaction")
        page, program = self.folder / "transaction.py", HERE / "sample_of_a_transaction.py"
        page.write_text(code)
        run(sys.executable, program, page, env=OVER_PACKAGE, at=self.folder)

    def check_django(self, settings, warned="no issues (0 silenced)"):
        """Runs `check` and the tests of a project with these settings after its own: only the named
        messages may appear."""
        with open(self.folder / "service/settings.py", "a") as file:
            file.write(settings)
        env = {**OVER_PACKAGE, "DJANGO_SETTINGS_MODULE": "service.settings"}
        manage = functools.partial(run, sys.executable, "manage.py", at=self.folder, env=env)
        manage("migrate", "--run-syncdb", "-v", "0")
        said = manage("check", "--database", "default").strip()
        self.assertIn(f"System check identified {warned}", said)
        self.assertLessEqual(said.count("(rigzumal."), 1)
        self.assertRegex(manage("test"), r"Ran [1-9]\d* tests? in")

    def begin_django(self):
        """Creates a project, and returns the pieces of docs/DJANGO.md."""
        need_module("django")
        need("django-admin")
        run("django-admin", "startproject", "service", ".", at=self.folder, env=OVER_PACKAGE)
        return [code for _, code in samples("docs/DJANGO.md")]

    def test_samples_of_django(self):
        """docs/DJANGO.md's model, URLs, views and hashers, with a model that compares by itself."""
        settings, model, urls, views, costs, _, wrap, changed = self.begin_django()
        route, registered = urls.strip().split("\n")
        urls = f"{URL_IMPORTS}urlpatterns = [\n{route}\n]\n{registered}\n"
        people = {
            "__init__.py": "",
            "models.py": MODEL_IMPORTS + model,
            "hashers.py": f"{HASHER_IMPORTS}{costs}\n\n{wrap}",
            "tests.py": (HERE / "django_samples.py").read_text(),
        }
        write_files(self.folder / "people", people)
        write_files(self.folder, {"service/urls.py": urls, "views": views, "changed": changed})
        self.check_django(settings + OWN_MODEL)

    def test_sample_of_a_co_process(self):
        """The page's co-process over a new book, if credkeep is built."""
        built = TOP / "crates/credkeep/out"
        env = {"PATH": os.pathsep.join((str(built), os.environ["PATH"]))}
        need_file(built / "credkeep")
        (code,) = sample_for("docs/SERVING.md", "test_sample_of_a_co_process")
        run("credkeep", "users.db", "init", env=env, at=self.folder)
        self.assertEqual(run(sys.executable, "-c", code, env=env, at=self.folder), "ok\nnone\n")

    def test_django_page(self):
        """docs/DJANGO.md's settings and the tests to copy pass in new projects: with either form of
        the admin's app, without the admin, with a tuple of apps, and with a cheap hasher."""
        settings, _, _, _, _, cheap, *_ = self.begin_django()
        shutil.copy(HERE / "django_page.py", self.folder / "tests.py")
        own, urls = ((self.folder / "service" / it) for it in ("settings.py", "urls.py"))
        begun, begun_urls = own.read_text(), urls.read_text()
        admin = "'django.contrib.admin'"
        no_admin = f"INSTALLED_APPS.remove({admin})\nTEMPLATES[0]['OPTIONS'] = {{}}\n"
        for before, has_admin in (
            ("", True),
            (f"INSTALLED_APPS[0] = {admin[:-1]}.apps.AdminConfig'\n", True),
            (no_admin, False),
            ("INSTALLED_APPS = tuple(INSTALLED_APPS)\n", True),
        ):
            with self.subTest(before=before):
                own.write_text(begun)
                urls.write_text(begun_urls if has_admin else "urlpatterns = []\n")
                self.check_django(before + settings)
        self.check_django(cheap, "some issues:\n\nWARNINGS:\n?: (rigzumal.W004)")

    def php(self, code, test):
        """Runs a test over a file in PHP."""
        run("php", HERE / test, code, env={"LD_LIBRARY_PATH": str(LIBRARIES)})

    def need_php(self, page=None):
        need("php")
        if "pdo_sqlite" not in run("php", "-m"):
            raise lacking("a PHP with pdo_sqlite")
        if page:
            need_file(f"/usr/share/php/{page}")

    def test_php(self):
        """The plain PHP code, on SQLite."""
        self.need_php()
        self.php(TOP / "examples/php/accounts.php", "php_accounts.php")

    def test_php_tokens(self):
        """PHP accepts each token of a reset, and no altered one."""
        self.need_php()
        self.php(TOP / "examples/php/accounts.php", "php_tokens.php")

    def test_laravel(self):
        """The provider for Laravel, on SQLite."""
        self.need_php("Illuminate/autoload.php")
        code = TOP / "examples/php/CompareAndSetUserProvider.php"
        self.php(code, "php_laravel.php")

    def test_symfony(self):
        """docs/PHP.md's upgrader for Symfony, on SQLite."""
        self.need_php("Symfony/Component/Security/Http/autoload.php")
        (code,) = re.findall(
            r"^```php\n(<.*?)```", (HERE.parent / "PHP.md").read_text(), re.S | re.M
        )
        page = self.folder / "CompareAndSetUpgrader.php"
        page.write_text(code)
        self.php(page, "php_symfony.php")

    def test_migrating(self):
        """The commands of docs/MIGRATING.md write the output on the page."""
        need("doveadm", "htpasswd", "php")
        need_module("django", "passlib", "argon2", "bcrypt")
        said = run(sys.executable, TOP / "tools/readme.py", "docs/MIGRATING.md")
        self.assertNotIn("not run", said)


if __name__ == "__main__":
    unittest.main()
