"""The programs that test_pages.py runs around the services of python/README.md: a table in which
Ada has a password, and then logins with this password, with another one, and with unknown names."""

BEFORE = """
import sqlite3
from rigzumal import PasswordHasher, VerifyMismatchError
hasher = PasswordHasher(1, 64, 1)
record = hasher.hash("one")
with sqlite3.connect("users.db") as made:
    made.execute("CREATE TABLE users (email TEXT PRIMARY KEY, record TEXT)")
    made.execute("INSERT INTO users VALUES ('ada@x.org', ?)", (record,))
NAMES = ("", "ada", "ada@x.org\\n", "ada@x.org\\0", "x" * 1100, "' OR 1=1 --")
TYPED = (("ada@x.org", "one"), ("ada@x.org", "two"), *((it, "one") for it in NAMES))
"""
ASYNCIO = """
from fastapi.testclient import TestClient
assert [asyncio.run(is_right(record, it)) for it in ("one", "two")] == [True, False]
with TestClient(app) as client:
    logins = [{"email": name, "password": it} for name, it in TYPED]
    said = [client.post("/login", json=it).status_code for it in logins]
assert said == [200] + [401] * 7, said
"""
FLASK = """
client = app.test_client()
logins = [{"email": name, "password": it} for name, it in TYPED]
said = [client.post("/login", data=it).status_code for it in logins]
assert said == [204] + [401] * 7, said
"""
