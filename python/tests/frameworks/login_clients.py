"""The login page as its tests serve it, and the requests of a browser, written by hand.

DATABASE may name a PostgreSQL database.
"""

import contextlib
import http.client
import itertools
import os
import re
import subprocess
import sys
import urllib.parse
from unittest import mock

import here

from tests.helpers import Case, common_folder, need_module

EXAMPLE = here.TOP / "examples" / "login_page"
sys.path.insert(0, str(EXAMPLE))
need_module("flask", "waitress", "django")

import login_page
import store
from rigzumal import PasswordHasher

DATABASE = os.environ.get("DATABASE", str(common_folder() / "data" / "page.db"))
CHEAP = PasswordHasher(memory_cost=64, time_cost=1, parallelism=1)
STORE = store.Store(DATABASE, CHEAP)
OLD, NEW, GUESS = "the old password", "another password", "a guess of mine"
NUMBERS = itertools.count()
# A shell's & has SIGINT ignored in what it starts.
IN_BACKGROUND = 'trap "" INT; exec "$0" "$@"'
PROGRAM = ["sh", "-c", IN_BACKGROUND, sys.executable, EXAMPLE / "login_page.py"]


class Browser:
    """A browser of this address, whose requests a server hands to the application."""

    def __init__(self, address="127.0.0.1", scheme="http"):
        application = login_page.application(STORE, b"secret")
        self.client, self.cookie = application.test_client(use_cookies=False), ""
        self.environ = {"REMOTE_ADDR": address, "wsgi.url_scheme": scheme}

    def answer(self, method, path, body, headers):
        given = {"method": method, "data": body, "headers": headers}
        with self.client.open(path, environ_overrides=self.environ, **given) as answer:
            return answer.status_code, answer.headers, answer.get_data(as_text=True)

    def ask(self, method, path, form=None, headers=()):
        """Sends a request and returns the status; stores the answer's text, headers and cookie."""
        given = {"Cookie": self.cookie, **dict(headers)}
        if form is not None:
            given["Content-Type"] = "application/x-www-form-urlencoded"
        body = urllib.parse.urlencode(form) if isinstance(form, dict) else form
        status, self.headers, self.text = self.answer(method, path, body, given)
        self.cookie = self.headers.get("Set-Cookie", self.cookie).partition(";")[0]
        return status

    def csrf(self, path="/login"):
        """The token in the first form that this browser receives."""
        for page in (path, "/login", "/"):
            self.ask("GET", page)
            found = re.search('name="csrf" value="([^"]*)"', self.text)
            if found:
                return found[1]
        raise AssertionError("no form")

    def post(self, path, headers=(), **form):
        return self.ask("POST", path, {"csrf": self.csrf(path), **form}, headers)

    def sign_up(self, name, password=OLD):
        return self.post("/signup", name=name, **twice(password))

    def login(self, name, password, **headers):
        return self.post("/login", headers, name=name, password=password)

    def change(self, old=OLD, new=NEW):
        return self.post("/change", old=old, **twice(new))

    def is_in(self):
        return self.ask("GET", "/") == 200

    def error(self, field):
        """The error at a field."""
        found = re.search(f'id="{field}-error">([^<]*)<', self.text)
        return found[1] if found else None


class Remote(Browser):
    """A browser of the page that is served at a port."""

    def __init__(self, port, cookie=""):
        self.port, self.cookie = port, cookie

    def answer(self, method, path, body, headers):
        conn = http.client.HTTPConnection("127.0.0.1", self.port, timeout=300)
        with contextlib.closing(conn):
            conn.request(method, path, body, headers)
            answer = conn.getresponse()
            return answer.status, answer.headers, answer.read().decode()


def twice(new, again=None):
    """The fields of a new password."""
    return {"new": new, "again": new if again is None else again}


class Page(Case):
    """A page without counted tries, an account of this test, and its browser."""

    def setUp(self):
        super().setUp()
        STORE._do("DELETE FROM try")
        self.name, self.ann = f"ann{next(NUMBERS)}", Browser()
        self.assertEqual(self.ann.sign_up(self.name), 303)

    def at(self, moment):
        """Sets the clock to this time during a `with` block."""
        return mock.patch.object(store.time, "time", lambda: moment)

    def opens(self, password, name=None):
        """Whether a new browser logs in with this password."""
        return Browser().login(name or self.name, password) == 303


class Served(Case):
    """The program in a separate process and folder."""

    seconds = 900

    def setUp(self):
        super().setUp()
        self.folder = self.room()
        self.database = self.folder / "data" / "page.db"
        self.database.parent.mkdir()

    @contextlib.contextmanager
    def started(self, **env):
        """Starts the process; returns it with its port. A setting of None is left out."""
        given = {**os.environ, "PORT": "0", "MEMORY": "64", "DATABASE": str(self.database), **env}
        given = {name: value for name, value in given.items() if value is not None}
        with open(self.folder / "log", "ab") as log:
            streams = {"stdout": subprocess.PIPE, "stderr": log}
            process = subprocess.Popen(PROGRAM, env=given, cwd=self.folder, **streams)
        try:
            yield process, int(re.search(rb":(\d+)/", process.stdout.readline())[1])
        finally:
            process.kill()
            process.wait()
            process.stdout.close()
