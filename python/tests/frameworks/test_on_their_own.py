"""The tests that need a separate process or server: the tests of Django and of the login page on
PostgreSQL, and Django's own tests."""

import functools
import sys
import tempfile
import unittest

import here

sys.path.insert(0, str(here.HERE.parent / "accounts"))

import servers

from tests.helpers import each, need_module, run
from tests.needs import need_variable


@functools.cache
def server():
    return servers.PostgresServer("frameworks").start()


def postgres():
    """The port of a server of PostgreSQL with empty databases one and two."""
    with server().connect() as conn:
        for name in ("one", "two"):
            conn.execute(f"DROP DATABASE IF EXISTS {name}")
            conn.execute(f"CREATE DATABASE {name}")
    return str(server().port)


class Runs(unittest.TestCase):
    """Runs that must end with status 0."""

    def run_python(self, *words, **env):
        room = self.enterContext(tempfile.TemporaryDirectory(prefix="rigzumal-"))
        given = {"FRAMEWORKS_ROOM": room, "PYTHONDONTWRITEBYTECODE": "1", **env}
        return run(sys.executable, *words, env=given, at=here.HERE)

    def discover(self, pattern, **env):
        self.run_python("-m", "unittest", "discover", "-p", pattern, **env)

    def test_django_on_postgres(self):
        need_module("django", "psycopg2")
        self.discover("test_django*.py", FRAMEWORKS_POSTGRES=postgres())

    def test_the_login_page_on_postgres(self):
        need_module("psycopg", "flask", "waitress", "django")
        url = f"postgresql://store@127.0.0.1:{postgres()}/one"
        self.discover("test_login_page*.py", DATABASE=url)

    @each("sqlite", "postgresql")
    def test_djangos_own(self, vendor):
        """Django's tests of auth, over this backend and these hashers."""
        source = need_variable("DJANGO_SOURCE")
        need_module("django", *(["psycopg2"] if vendor == "postgresql" else []))
        env = {"FRAMEWORKS_POSTGRES": postgres()} if vendor == "postgresql" else {}
        self.run_python("django_own.py", source, **env)
