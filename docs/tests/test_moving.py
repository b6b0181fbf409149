"""The hooks and lines of docs/MIGRATING.md, with users who must not log in and with hostile fields.
test_pages.py tests the output of its commands."""

import contextlib
import os
import pathlib
import re
import sqlite3
import sys
import textwrap
import unittest

HERE = pathlib.Path(__file__).resolve().parent
sys.path.insert(0, str(HERE.parent.parent))
from tests.helpers import PYTHON, TOP, Case, ended, need, need_module, run  # noqa: E402
from tests.hostile_fields import NAMES  # noqa: E402

PAGE = TOP / "docs/MIGRATING.md"
# Django's table in a database that ignores the case of names, and a project without a manage.py.
FOLDED = """CREATE TABLE auth_user (id INTEGER PRIMARY KEY, password TEXT,
last_login TEXT, is_superuser BOOL, username TEXT COLLATE NOCASE UNIQUE, first_name TEXT,
last_name TEXT, email TEXT, is_staff BOOL, is_active BOOL, date_joined TEXT)"""
PROJECT = """
import django
from django.conf import settings
of_sqlite = {"ENGINE": "django.db.backends.sqlite3", "NAME": "db"}
apps = ["django.contrib.auth", "django.contrib.contenttypes"]
settings.configure(DATABASES={"default": of_sqlite}, INSTALLED_APPS=apps, USE_TZ=True)
django.setup()
exec(open("to_django.py").read())
"""
ENVIRONMENT = {"PYTHONPATH": os.pathsep.join(map(str, (PYTHON, TOP)))}


class MovingTest(Case):
    seconds = 900

    def run_sample(self, name, page):
        run(sys.executable, HERE / name, page, env=ENVIRONMENT, at=self.room())

    def test_hook_of_htpasswd(self):
        """The page's hook accepts only the right password, whatever a visitor sends."""
        need_module("passlib", "bcrypt")
        form = r"^cat > from_htpasswd.py <<'END'\n(.*?)^END$"
        (code,) = re.findall(form, PAGE.read_text(), re.S | re.M)
        page = self.room() / "from_htpasswd.py"
        page.write_text(code)
        self.run_sample("sample_of_a_hook.py", page)

    def test_a_table_with_bcrypt_and_an_ldif(self):
        """No user can log in whom the old store bars."""
        need("perl")
        need_module("passlib", "bcrypt")
        self.run_sample("sample_of_moving.py", PAGE)

    def lines_of(self, title, command, lines):
        """Runs a command of the page over a file with these lines, and returns its records."""
        part = PAGE.read_text().split(f"\n## {title}\n", 1)[1].split("\n## ", 1)[0]
        (found,) = re.findall(rf"^{command}.*> records$", part, re.M)
        room = self.room()
        for name in ("users", "users.htpasswd"):
            (room / name).write_text("\n".join(lines) + "\n")
        run("sh", "-c", found, at=room)
        return (room / "records").read_text().splitlines()

    def test_lines_of_dovecot(self):
        """A user who may log in from everywhere moves, with only the record."""
        rest = "1000:1000::/home/x::"
        moves = [f"a{it}:{{{it}}}$argon2x:{rest}" for it in ("ARGON2ID", "argon2i", "Argon2")]
        moves += [f"ann:{{ARGON2ID}}$argon2x:{rest}x=nologins", "bare:{ARGON2ID}$argon2x"]
        shut = [
            "nologin",
            "nologin=y",
            "noauthenticate",
            "allow_nets=10.0.0.0/8",
            "allow_real_nets=::1",
        ]
        shut += [f"y=1 {it}" for it in shut]
        out = [f"x:{{ARGON2ID}}$argon2x:{rest}{it}" for it in shut]
        out += [f"#x:{{ARGON2ID}}$argon2x:{rest}", f"x:!{{ARGON2ID}}$argon2x:{rest}"]
        out += [f"x:{{PLAIN}}secret:{rest}", f"x:{{ARGON2ID.HEX}}24:{rest}", "", "x", "x:"]
        found = self.lines_of("Dovecot's passwd-file", "grep -vE", [*moves, *out])
        self.assertEqual(found, [f"{it.partition(':')[0]} $argon2x" for it in moves])

    def test_other_schemes_of_dovecot(self):
        """Without Dovecot's prefix a record is one that htpasswd's hook and the server know."""
        (command,) = re.findall(r"`(sed -E 's/:[^`]*-CRYPT[^`]* users)`", PAGE.read_text())
        kinds = {"BLF": "$2y$05$x", "SHA256": "$5$x$y", "SHA512": "$6$x$y"}
        lines = [f"ann:{{{kind}-CRYPT}}{record}:1:1" for kind, record in kinds.items()]
        others = ["ann:{SSHA}x=:1:1", "ann:{ARGON2ID}$argon2x:1:1"]
        room = self.room()
        (room / "users").write_text("\n".join([*lines, *others]) + "\n")
        found = run("sh", "-c", command, at=room).splitlines()
        self.assertEqual(found, [*(f"ann:{it}:1:1" for it in kinds.values()), *others])

    def test_lines_of_htpasswd(self):
        """Text after a record and a colon is a comment, as in Apache and nginx."""
        moves = ["ann:$apr1$x$y", "ben:$2y$05$z:his comment", "c d:{SHA}x=:a:b"]
        out = ["#x:$apr1$x$y", "x:!$apr1$x$y", "x:*", "x:!"]
        found = self.lines_of("htpasswd", "grep -vE", [*moves, *out])
        self.assertEqual(found, ["ann $apr1$x$y", "ben $2y$05$z", "c d {SHA}x="])

    def test_names_in_a_table_of_django(self):
        """No name becomes a line for another user, whatever names a service accepted."""
        need("sqlite3")
        (query,) = re.findall(r"^    (sqlite3 -separator .*) \| credkeep", PAGE.read_text(), re.M)
        room = self.room()
        names = [it.decode(errors="replace") for it in NAMES.values()]
        names += ["x:\nann", "ann:", "x\r\nann", "Ann.B+c@x.org", "b_c-d"]
        with contextlib.closing(sqlite3.connect(room / "db.sqlite3")) as conn, conn:
            conn.execute("CREATE TABLE auth_user (username TEXT, password TEXT, is_active BOOL)")
            rows = [(name, "argon2$argon2id$x", 1) for name in names]
            conn.executemany("INSERT INTO auth_user VALUES (?, ?, ?)", rows)
        lines = run("sh", "-c", query, at=room).splitlines()
        moved = [it for it in names if re.fullmatch("[a-zA-Z0-9@._+-]*", it)]
        self.assertEqual(lines, [f"{it}:argon2$argon2id$x" for it in moved])
        self.assertEqual(moved[-2:], ["Ann.B+c@x.org", "b_c-d"])

    def test_names_that_are_one_to_a_database_of_django(self):
        """No login gets the user of another name, even if the database treats both names as one."""
        need_module("django")
        form = r"^    # to_django.py\n((?:    .*\n)+)"
        (code,) = re.findall(form, PAGE.read_text(), re.M)
        room = self.room()
        (room / "to_django.py").write_text(textwrap.dedent(code))
        with contextlib.closing(sqlite3.connect(room / "db")) as conn:
            conn.execute(FOLDED)
        for lines, said, stands in (
            ("ann:$argon2id$one\nben:\n", "", "argon2$argon2id$one"),
            ("Ann:$argon2id$two\n", "ann and Ann are one user here", "argon2$argon2id$one"),
            ("ann:$argon2id$two\n", "", "argon2$argon2id$two"),
        ):
            with self.subTest(lines=lines):
                (room / "passwd").write_text(lines)
                done = ended([sys.executable, "-c", PROJECT], cwd=room)
                self.assertEqual((done.faults.strip(), bool(done.status)), (said, bool(said)))
                with contextlib.closing(sqlite3.connect(room / "db")) as conn:
                    rows = conn.execute("SELECT username, password, is_active FROM auth_user")
                    found = {name: more for name, *more in rows}
                self.assertEqual(found["ann"], [stands, 1])
                self.assertFalse(found["ben"][1])
                self.assertEqual(len(found), 2)


if __name__ == "__main__":
    unittest.main()
