"""Three web servers on one PostgreSQL: the example of docs/POSTGRES.md in three processes."""

import multiprocessing
import pathlib
import sys
import unittest
from multiprocessing.managers import BaseManager

import servers
from support import module, server
from rigzumal import PasswordHasher
from tests.hostile_fields import NAMES, PASSWORDS, text_of

EXAMPLE = pathlib.Path(__file__).resolve().parents[3] / "examples/postgres"
ADA = "ada@example.org"
NO_ADDRESSES = ("", " ", "\n", "ada@x.org ", " ada@x.org", "ada@x.org\n", "\u00a0ada@x.org")
# An index of PostgreSQL holds 2,704 bytes of one.
NO_ADDRESSES += ("a" * 255, "a" * 1100, "\U0001f600" * 700)
NO_ADDRESSES += ("\ufeffada@x.org", "ada@x.org\0", "\0", "ada\ud800@x.org", "ada\udcff")


def open_store(dsn):
    """The store of a web server, in its process."""
    store = module("store")
    store.PasswordHasher = lambda: PasswordHasher(time_cost=1, memory_cost=64)
    return store.Store(dsn)


class WebServer(BaseManager):
    """One process of the service."""


WebServer.register("store", open_store)


class ThreeServers(unittest.TestCase):
    def setUp(self):
        sys.path.insert(0, str(EXAMPLE))
        self.addCleanup(sys.path.remove, str(EXAMPLE))
        self.store, self.server = module("store"), server(servers.PostgresServer)
        with self.server.connect() as conn:
            conn.execute("DROP TABLE IF EXISTS users")
        self.store.make_table(self.server.url)

    def web_server(self):
        process = WebServer(ctx=multiprocessing.get_context("spawn"))
        process.start()
        self.addCleanup(process.shutdown)
        return process.store(self.server.url)

    def test_each_server_sees_what_another_did(self):
        first, second, third = all_three = [self.web_server() for _ in range(3)]
        self.assertTrue(first.sign_up(ADA, "one"))
        self.assertFalse(second.sign_up(ADA, "other"))
        self.assertTrue(third.log_in(ADA, "one"))
        self.assertFalse(third.change(ADA, "other", "two"))
        self.assertTrue(second.change(ADA, "one", "two"))
        for site in all_three:
            self.assertFalse(site.log_in(ADA, "one"))
            self.assertTrue(site.log_in(ADA, "two"))
        self.assertFalse(first.log_in("nobody@example.org", "two"))

    def test_accounts_without_a_record(self):
        """A sign-up takes no existing row, of a removed or of an invited account."""
        shop = self.web_server()
        self.assertTrue(shop.sign_up(ADA, "one"))
        with self.server.connect() as conn:
            conn.execute("UPDATE users SET record = NULL")
            conn.execute("INSERT INTO users VALUES ('invited@example.org', NULL)")
        for name in (ADA, "invited@example.org"):
            self.assertFalse(shop.sign_up(name, "evil"))
            self.assertFalse(shop.log_in(name, "evil"))

    def rows(self):
        with self.server.connect() as conn:
            return dict(conn.execute("SELECT email, record FROM users").fetchall())

    def test_hostile_fields(self):
        """A visitor's address and password get an answer, and no other row than their own."""
        shop, ann = self.web_server(), "ann@example.org"
        self.assertTrue(shop.sign_up(ann, "secret"))
        rows = self.rows()
        for what, password in PASSWORDS.items():
            for typed in (password, text_of(password)):
                with self.subTest(password=what):
                    self.assertFalse(shop.log_in(ann, typed))
                    self.assertFalse(shop.change(ann, typed, "hacked"))
        for what, name in NAMES.items():
            with self.subTest(name=what):
                self.assertFalse(shop.log_in(text_of(name), "secret"))
                self.assertFalse(shop.change(text_of(name), "secret", "hacked"))
        self.assertEqual(self.rows(), rows)
        self.assertTrue(shop.log_in(ann, "secret"))

    def test_addresses_that_nobody_gets(self):
        """Such an address raises a ValueError before any hash, and so does an impossible
        password."""
        shop = self.web_server()
        for name in NO_ADDRESSES:
            with self.subTest(name=name):
                self.assertRaises(ValueError, shop.sign_up, name, "secret")
        for other in (None, 5, b"ada@x.org"):
            with self.subTest(name=other):
                self.assertRaises(TypeError, shop.sign_up, other, "secret")
        for password in ("x" * 257, "\ud800"):
            with self.subTest(password=password):
                self.assertRaises(ValueError, shop.sign_up, ADA, password)
        self.assertEqual(self.rows(), {})
        for name in (ADA, "ada\u00e4@x.org", "a" * 254, "it's@x.org", "ada@x.org'); DROP"):
            with self.subTest(name=name):
                self.assertTrue(shop.sign_up(name, "secret\0"))
                self.assertFalse(shop.sign_up(name, "evil"))
                self.assertFalse(shop.log_in(name, "secret"))
                self.assertTrue(shop.log_in(name, "secret\0"))
        self.assertEqual(len(self.rows()), 5)

    def test_a_table_that_pads_is_refused(self):
        with self.server.connect() as conn:
            conn.execute("ALTER TABLE users ALTER COLUMN email TYPE char(20)")
        self.assertRaisesRegex(SystemExit, "blanks", self.store.Store, self.server.url)
