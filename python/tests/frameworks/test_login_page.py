"""examples/login_page as an application: the answers of its forms, the ends of sessions, and the
refused tries. DATABASE may name a PostgreSQL database."""

import hashlib
import itertools
import os
import pathlib
import re
import sqlite3
import stat
import time
import unittest
import urllib.parse
from concurrent.futures import ThreadPoolExecutor
from unittest import mock

from login_clients import CHEAP, DATABASE, EXAMPLE, GUESS, NEW, NUMBERS, OLD, STORE, Browser, Page
from login_clients import login_page, store, twice
from markupsafe import escape

from rigzumal.accounts._judgement import Judge
from tests.helpers import common_folder, each

PASSWORDS = ("new password new-password", "again password new-password")
EMOJI, UMLAUT = "\N{GRINNING FACE}", "ä"
GUESSED = "first that attackers guess"
# A field of Ann's form with a refused value, and the error that the form shows.
REFUSED = [
    ("/login", {"password": NEW}, "password", login_page.NO),
    ("/login", {"name": '<"Ann">', "password": GUESS}, "password", login_page.NO),
    ("/change", {"old": NEW, **twice(NEW)}, "old", "old password is wrong"),
    ("/change", {"old": "x" * 257, **twice(NEW)}, "old", "old password is wrong"),
    ("/change", {"old": OLD, **twice(NEW, NEW + "x")}, "again", "not the same"),
    ("/change", {"old": OLD, **twice("shorter")}, "new", "at least 8"),
    ("/change", {}, "new", "at least 8"),
    ("/signup", twice(NEW), "name", "taken"),
    ("/signup", {"name": "x y", **twice(NEW, OLD)}, "again", "not the same"),
    ("/signup", {"name": "x", **twice(OLD, NEW)}, "again", "not the same"),
    *(
        ("/signup", {"name": it, **twice(OLD)}, "name", "1 to 32")
        for it in ("", "a" * 33, "a b", "<b>", "?", "ä", "\N{KELVIN SIGN}", "a\0b")
    ),
    *(
        ("/signup", {"name": "new.wxyz", **twice(password)}, "new", error)
        for password, error in (
            ("abcdefg", "at least 8 characters"),
            (EMOJI * 65, "260 bytes"),
            (UMLAUT * 129, "258 bytes"),
            ("x1" * 128 + "y", "257 bytes"),
            ("password", GUESSED),
            ("PassWord", GUESSED),
            ("iloveyou", GUESSED),
            (" " * 8, GUESSED),
            ("abababab", GUESSED),
            ("new.wxyz", GUESSED),
        )
    ),
]


def linear(part):
    """The light of a colour's part, from 0 to 1, as WCAG 2 defines it."""
    return part / 12.92 if part <= 0.04045 else ((part + 0.055) / 1.055) ** 2.4


def fields(text, attribute=""):
    """The names of the visible fields with an attribute."""
    return re.findall(f'<input id="([a-z]+)"[^>]*{attribute}', text)


class Forms(Page):
    @each(
        ("/login", ["name text username", "password password current-password"]),
        ("/signup", ["name text username", *PASSWORDS]),
        ("/change", ["old password current-password", *PASSWORDS]),
    )
    def test_fields(self, path, wanted):
        """The attributes that password managers and screen readers need."""
        self.ann.ask("GET", path)
        text, form = self.ann.text, '<input id="(.*?)".* type="(.*?)".* autocomplete="(.*?)"'
        self.assertEqual([" ".join(it) for it in re.findall(form, text)], wanted)
        names = fields(text)
        label, described, error = '<label for="', 'describedby="', 'p .* id="'
        for front, back in ((label, '">[^<]'), (described, "-error"), (error, '-error"')):
            self.assertEqual(re.findall(f"{front}(.*?){back}", text), names)
        self.assertEqual((fields(text, "autofocus"), fields(text, "invalid")), (names[:1], []))
        hidden = f'<input type="text" value="{self.name}" autocomplete="username" hidden>'
        self.assertEqual(hidden in text, path == "/change")

    def test_refused(self):
        """The form shows the error at its field, and the name again, and never a password."""
        for path, form, field, error in REFUSED:
            with self.subTest(path=path, form=form):
                browser = self.ann if path == "/change" else Browser()
                name = form.get("name", self.name)
                self.assertEqual(browser.post(path, **{"name": name, **form}), 200)
                self.assertIn(error, browser.error(field))
                self.assertIn("<title>Error: ", browser.text)
                wrong = fields(browser.text, "aria-invalid")
                self.assertIn(field, wrong)
                self.assertEqual(fields(browser.text, "autofocus"), wrong[:1])
                self.assertTrue(f'value="{escape(name)}"' in browser.text or path == "/change")
                self.assertNotIn("<b>", browser.text)
                for secret in {GUESS, OLD, NEW, *form.values()} - {"", "password", name}:
                    self.assertNotIn(str(escape(secret)), browser.text)
                self.assertEqual(browser.is_in(), browser is self.ann)
        self.assertTrue(self.opens(OLD))

    def test_passwords(self):
        """A password counts in RFC 8265's form of the typed text: NFC, and one kind of space."""
        alike = [EMOJI * 61 + "abcd", UMLAUT * 120 + "abcd", "xyz" * 85 + "x", "  a b c  "]
        pairs = [("caf\u00e9 caf\u00e9", "cafe\u0301\u00a0cafe\u0301"), *zip(alike, alike)]
        for number, (one, two) in enumerate([*pairs, pairs[0][::-1]]):
            with self.subTest(one=one, two=two):
                name, ann = f"{self.name}.{number}", Browser()
                self.assertEqual(Browser().sign_up(name, one), 303)
                self.assertEqual(ann.login(name, two), 303)
                for other in (one.strip() + "!", one[:-1], one.strip() + " "):
                    self.assertFalse(self.opens(other, name), other)
                self.assertEqual(ann.change(two, f"?{one[1:]}"), 303)
                self.assertTrue(self.opens(f"?{two[1:]}", name))
                self.assertFalse(self.opens(one, name))

    def test_unknown_names(self):
        """Known and unknown names get the same page, after one hash at the store's own costs."""
        work, pages, none = Judge.work, set(), ("no name", "\N{KELVIN SIGN}", "")
        names = (self.name, f"no{self.name}", *none)
        for name, password in itertools.product(names, (NEW, "x" * 300)):
            with mock.patch.object(Judge, "work", autospec=True, side_effect=work) as worked:
                self.assertEqual(self.ann.login(name, password), 200)
            ((_, ticket),) = [it.args for it in worked.mock_calls]
            self.assertEqual(ticket.request.key, login_page.NOBODY if name in none else name)
            pages.add(re.sub('value="[^"]*"', "", self.ann.text))
        self.assertEqual(len(pages), 1)

    def test_csrf(self):
        """Each form needs the whole token of its own browser."""
        mine, strange = self.ann.csrf("/change"), Browser().csrf()
        self.assertRegex(mine, "^[0-9a-f]{64}$")
        self.assertNotEqual(strange, Browser().csrf())
        other_end = "0" if mine[-1] != "0" else "1"
        bad = ["", strange, "ä", mine[:-1], mine[:-1] + other_end]
        bad += [mine[:4] + strange[4:], strange[:-4] + mine[-4:]]
        for path, form in (
            ("/change", {"old": OLD, **twice(NEW)}),
            ("/logout", {}),
            ("/login", {"name": self.name, "password": OLD}),
            ("/signup", {"name": "eve", **twice(OLD)}),
        ):
            for given in (form, *({**form, "csrf": it} for it in bad)):
                with self.subTest(path=path, given=given):
                    self.assertEqual(self.ann.ask("POST", path, given), 403)
                    self.ann.ask("GET", f"{path}?{urllib.parse.urlencode(given)}")
                    self.assertTrue(self.ann.is_in())
        self.assertTrue(self.opens(OLD))


class Sessions(Page):
    def test_cookies(self):
        """No cookie known before becomes a session, and a session's own cookie is stored as a
        hash."""
        secure = Browser(scheme="https"), "__Host-login", {"Secure"}
        for browser, name, flags in ((Browser(), "login", set()), secure):
            browser.ask("GET", "/login")
            visitor = browser.cookie
            self.assertEqual(browser.login(self.name, OLD), 303)
            self.assertNotEqual(browser.cookie, visitor)
            cookie, *found = browser.headers["Set-Cookie"].split("; ")
            self.assertEqual(set(found), {"Path=/", "HttpOnly", "SameSite=Lax"} | flags)
            given, _, token = cookie.partition("=")
            self.assertEqual((given, len(token)), (name, 43))
            kept = STORE._do("SELECT token FROM session WHERE name = ?", self.name)
            self.assertIn((hashlib.sha256(token.encode()).hexdigest(),), kept)
            self.assertNotIn((token,), kept)
            self.assertTrue(browser.is_in())
        self.assertIn("max-age=31536000", browser.headers["Strict-Transport-Security"])
        browser.environ["wsgi.url_scheme"] = "http"  # whose cookie isn't Secure's
        self.assertEqual(browser.ask("GET", "/"), 303)
        self.assertNotIn("Strict-Transport-Security", browser.headers)

    def test_who_is_in(self):
        """The sessions that go on after each act: of the acting browser, of a copy of its cookie,
        and of two others."""
        self.assertEqual(Browser().sign_up(f"b{self.name}"), 303)
        for act, left in (
            (lambda own: own.ask("GET", "/logout"), "own copy account another"),
            (lambda own: own.post("/logout"), "account another"),
            (lambda own: own.login(f" {self.name.upper()} ", OLD), "own account another"),
            (lambda own: own.change(OLD, OLD), "own another"),
        ):
            with self.subTest(left=left):
                browsers = {it: Browser() for it in ("own", "copy", "account", "another")}
                own = browsers["own"]
                for it, browser in browsers.items():
                    name = f"b{self.name}" if it == "another" else self.name
                    self.assertEqual(browser.login(name, OLD), 303)
                browsers["copy"].cookie = before = own.cookie
                self.assertEqual(act(own), 303)
                found = [it for it, browser in browsers.items() if browser.is_in()]
                self.assertEqual(found, left.split())
                self.assertEqual(own.cookie == before, "copy" in found)
                self.assertIn(f"Hello, b{self.name}", browsers["another"].text)

    def test_time(self):
        now = time.time()
        with self.at(now + 12 * 3600 - 60):
            self.assertTrue(self.ann.is_in())
        with self.at(now + 12 * 3600 + 60):
            self.assertEqual((self.ann.is_in(), self.opens(OLD)), (False, True))
            left = STORE._do("SELECT * FROM session WHERE until < ?", store.time.time())
            self.assertEqual(left, [])

    def test_note(self):
        """The page reports a change once, to the browser that made it."""
        self.assertEqual(Browser().ask("GET", "/?changed"), 303)
        for path in ("/", "/?changed", "/?note=changed"):
            self.ann.ask("GET", path)
            self.assertNotIn("has been changed", self.ann.text)
        self.assertEqual(self.ann.change(), 303)
        self.assertEqual(self.ann.headers["Location"], "/")
        for is_told in (True, False):
            self.ann.ask("GET", "/")
            self.assertEqual("has been changed" in self.ann.text, is_told)
        self.assertEqual((self.opens(OLD), self.opens(NEW)), (False, True))

    def test_session_and_change_are_one(self):
        """A session and a change are stored together: a failure between them leaves neither."""
        fault = mock.patch.object(store.Store, "_begin_session", side_effect=OSError("no"))
        with fault, self.assertLogs("login_page") as logged:
            self.assertEqual(self.ann.change(), 500)
        self.assertNotIn(NEW, str(logged.output) + self.ann.text)
        self.assertTrue(self.ann.is_in() and self.opens(OLD))

    @unittest.skipIf("DATABASE" in os.environ, "needs no variable DATABASE")
    def test_file(self):
        """Only its owner can read the file and SQLite's files beside it; commits are synced to the
        disk."""
        folder, file = pathlib.Path(DATABASE).parent, common_folder() / "old.db"
        for path in (folder, *folder.iterdir()):
            self.assertEqual(stat.S_IMODE(path.stat().st_mode) & 0o077, 0, path)
        file.touch(0o644)
        kept = store.Store(str(file), CHEAP)
        self.assertEqual(stat.S_IMODE(file.stat().st_mode), 0o600)
        self.assertEqual(kept._do("PRAGMA synchronous"), [(2,)])
        self.assertEqual(kept._do("PRAGMA journal_mode"), [("wal",)])
        with kept._transaction(), self.assertRaises(sqlite3.OperationalError):
            sqlite3.connect(file, timeout=0).execute("BEGIN IMMEDIATE")

    @unittest.skipUnless("DATABASE" in os.environ, "needs the variable DATABASE")
    def test_connections_that_are_closed(self):
        """A closed connection causes no visitor an error."""
        import psycopg

        for act, *given in (("is_in",), ("login", self.name, OLD), ("change", OLD, OLD)):
            self.assertTrue(self.ann.is_in())
            with psycopg.connect(DATABASE, autocommit=True) as conn:
                conn.execute(
                    "SELECT pg_terminate_backend(pid) FROM pg_stat_activity"
                    " WHERE datname = current_database() AND pid <> pg_backend_pid()"
                )
            self.assertIn(getattr(self.ann, act)(*given), (True, 303))


class Limits(Page):
    def guess(self, name):
        return Browser().login(name, NEW)

    def refused_after(self, limit, act, right=200):
        """This many tries get an answer, and one more is refused."""
        found = [act(turn) for turn in range(limit + 1)]
        self.assertEqual(found, [right] * limit + [429])

    def test_accounts(self):
        """Tries count for a name however it is typed, known or not, and for a text that is no name.
        The logged-in owner can still change the password, which forgives this account alone."""
        names, other = (self.name, self.name.upper(), f" {self.name} "), f"b{self.name}"
        self.assertEqual(Browser().sign_up(other), 303)
        self.refused_after(10, lambda turn: self.guess(names[turn % 3]))
        for name in (other, f"no{self.name}", f"{self.name}@example.org"):
            self.refused_after(10, lambda turn: self.guess(name))
        self.assertNotIn(self.name, str(STORE._do("SELECT * FROM try")))
        self.assertFalse(self.opens(OLD) or self.opens(OLD, self.name.title()))
        self.assertEqual(self.ann.change(), 303)
        self.assertTrue(self.opens(NEW))
        self.assertEqual((self.opens(OLD, other), self.guess(other)), (False, 429))

    def test_a_stolen_session(self):
        """A stolen session allows ten guesses of the old password, and the owner has ten more."""
        owner = Browser()
        self.assertEqual(owner.login(self.name, OLD), 303)
        self.refused_after(10, lambda turn: self.ann.change(old=NEW))
        self.assertEqual(self.ann.change(), 429)
        self.assertEqual(owner.change(), 303)

    def test_a_right_login_forgives(self):
        for _ in range(3):
            self.assertEqual([self.guess(self.name) for _ in range(9)], [200] * 9)
            self.assertTrue(self.opens(OLD))

    def test_addresses(self):
        """Right logins don't count. Fifty wrong logins from an address do count, whatever the name,
        and so do tries to sign up with a taken name, which are guesses too. An address's sign-ups
        count as well."""
        taken = {"name": self.name, **twice(NEW)}
        guess = lambda office, turn: office.login(f"x{turn}{self.name}", NEW)
        for act in (guess, lambda office, turn: office.post("/signup", **taken)):
            office = Browser(f"10.0.0.{next(NUMBERS)}")
            for _ in range(60):
                self.assertEqual(office.login(self.name, OLD), 303)
            office.cookie = ""
            self.refused_after(50, lambda turn: act(office, turn))
            self.assertEqual(office.login(self.name, OLD), 429)
            self.assertEqual(office.post("/signup", **taken), 429)
            self.assertEqual(Browser(f"10.0.0.{next(NUMBERS)}").login(self.name, OLD), 303)
        office, last = Browser(f"10.1.0.{next(NUMBERS)}"), f"{self.name}.50"
        self.refused_after(50, lambda turn: office.sign_up(f"{self.name}.{turn}"), 303)
        self.assertEqual(STORE._do("SELECT name FROM account WHERE name = ?", last), [])
        self.assertEqual(office.login(self.name, OLD), 303)

    def test_when_to_try_again(self):
        """A try counts for a quarter of an hour; a refused try doesn't count."""
        begun, guesser = time.time(), Browser()
        for minute, status in enumerate([200] * 10 + [429] * 5):
            with self.at(begun + 60 * minute):
                self.assertEqual(guesser.login(self.name, NEW), status)
                for at, left, text in ((10, "300", "in 5 minutes."), (14, "60", "in a minute.")):
                    if minute == at:
                        self.assertEqual(guesser.headers["Retry-After"], left)
                        self.assertIn(text, guesser.text)
        what = store._hash("address 127.0.0.1")
        (counted,) = STORE._do("SELECT count(*) FROM try WHERE what = ? AND at >= ?", what, begun)
        self.assertEqual(counted[0], 10)
        with self.at(begun + 15 * 60 + 1):
            self.assertEqual([self.guess(self.name) for _ in range(2)], [200, 429])
        with self.at(begun + 16 * 60 + 1):
            self.assertTrue(self.opens(OLD))
            self.refused_after(10, lambda turn: self.guess(self.name))

    def test_tries_count_before_the_hash(self):
        """The same number of simultaneous tries are answered as of successive ones. Each further
        try costs no hash, no connection and no write."""
        work = mock.patch.object(Judge, "work", autospec=True, side_effect=Judge.work)
        with work as worked, ThreadPoolExecutor(20) as pool:
            found = list(pool.map(self.guess, [self.name] * 20))
        self.assertEqual(sorted(found), [200] * 10 + [429] * 10)
        self.assertEqual(worked.call_count, 10)
        counted = STORE._do("SELECT count(*) FROM try")
        with mock.patch.object(STORE._pool, "_connect") as connected:
            self.assertEqual(self.guess(self.name), 429)
        self.assertEqual(STORE._do("SELECT count(*) FROM try"), counted)
        self.assertEqual(connected.mock_calls, [])

    def test_accounts_that_exist(self):
        """Nobody signs up with the name of an existing account, even of one without a record,
        removed or invited."""
        STORE._do("DELETE FROM account")
        STORE._do("INSERT INTO account VALUES ('ann', NULL)")
        self.assertIsNone(STORE.sign_up("ann", "evil password", "old"))
        self.assertIsNone(STORE.log_in("ann", "evil password", "old"))
        self.assertEqual(STORE.who(STORE.sign_up("ben", "a password", "old")), "ben")


class Style(unittest.TestCase):
    """The contrast of visible parts, by WCAG 2.2: 1.4.11 for the focus, and a button under forced
    colours."""

    def setUp(self):
        style = (EXAMPLE / "static/style.css").read_text()
        light, _, dark = style.partition("@media (prefers-color-scheme: dark)")
        self.rules = dict(re.findall(r"^([^{}@]+?) \{ (.*) \}$", light, re.M))
        colours = [dict(re.findall(r"(--\w+): (#\w{6})", it)) for it in (light, dark)]
        # Browsers' own grounds.
        self.looks = (("#ffffff", colours[0]), ("#121212", {**colours[0], **colours[1]}))

    def luminance(self, colour):
        red, green, blue = (linear(int(colour[at : at + 2], 16) / 255) for at in (1, 3, 5))
        return 0.2126 * red + 0.7152 * green + 0.0722 * blue

    def test_focus(self):
        """The focus ring has a contrast of at least 3 to 1, in light and dark."""
        (name,) = re.findall(r"outline: \dpx solid var\((--\w+)\)", self.rules[":focus-visible"])
        for ground, colours in self.looks:
            lights = [self.luminance(it) + 0.05 for it in (ground, colours[name])]
            with self.subTest(ground):
                self.assertLess(3, max(lights) / min(lights))

    def test_button(self):
        """A button's border is transparent, so forced colours can colour it."""
        self.assertRegex(self.rules["button"], r"\bborder: 1px solid transparent;")
