"""Runs the samples of docs/MIGRATING.md for bcrypt in a table and for an LDIF, with their hooks,
with users who must not log in and with hostile fields: sample_of_moving.py PAGE."""

import base64
import pathlib
import re
import sqlite3
import subprocess
import sys
from collections.abc import Callable
from typing import Any
from unittest import mock

import bcrypt
import rigzumal
from passlib.apps import ldap_context
from rigzumal.accounts import Accounts, Reply
from tests.hostile_fields import NAMES, PASSWORD, PASSWORDS, text_of

LOW = rigzumal.PasswordHasher(time_cost=1, memory_cost=64, parallelism=1)
rigzumal.PasswordHasher = lambda: LOW
BCRYPT = bcrypt.hashpw(PASSWORD, bcrypt.gensalt(4)).decode()
LONG = PASSWORD.ljust(100, b"x")  # of which bcrypt reads 72 bytes
SSHA = ldap_context.hash(PASSWORD, scheme="ldap_salted_sha1")
CRYPT = ldap_context.hash(PASSWORD, scheme="ldap_sha512_crypt", rounds=1000)
# Records for which every password is wrong, also the record's own text.
SHUT = {"star": "*", "mark": "!", "locked": f"!{BCRYPT}", "nothing": "", "plain": "secret"}
SHUT |= {"none": None, "cut": BCRYPT[:-9], "shut": f"{{CRYPT}}!{CRYPT[7:]}", "nol": "nologin"}

# The attributes of users who move, and of those who don't.
OPEN = {
    "ann": f"userPassword: {SSHA}",
    "ben": f"userPassword:: {base64.b64encode(CRYPT.encode()).decode()}",
    "cid": f"userPassword: {{ARGON2}}{LOW.hash(PASSWORD)}",
    "dan": f"shadowExpire: -1\nloginShell: /bin/sh\nuserPassword: {SSHA}",
    "due": f"shadowLastChange: 20000\nshadowMax: 99999\nuserPassword: {SSHA}",
    "till": f"pwdStartTime: 20200101000000Z\npwdEndTime: 99991231000000Z\nuserPassword: {SSHA}",
    "{ARGON2}ann": f"userPassword: {SSHA}",  # from which no other user's name is built
    "a" * 1100: f"userPassword: {SSHA}",
}
OUT = {
    "locked": f"pwdAccountLockedTime: 000001010000Z\nuserPassword: {SSHA}",
    "off": f"userPassword: {SSHA}\nnsAccountLock: TRUE",
    "reset": f"pwdReset: TRUE\nuserPassword: {SSHA}",
    "new": f"shadowLastChange: 0\nuserPassword: {SSHA}",
    "aged": f"shadowMax: 90\nuserPassword: {SSHA}\nshadowLastChange: 20000",
    "ended": f"pwdEndTime: 20200101000000Z\nuserPassword: {SSHA}",
    "soon": f"pwdStartTime: 99991231000000Z\nuserPassword: {SSHA}",
    "must": f"passwordExpirationTime: 19700101000000Z\nuserPassword: {SSHA}",
    "left": f"userPassword: {SSHA}\nkrbPrincipalExpiration: 20200101000000Z",
    "due_before": f"userPassword: {SSHA}\nkrbPasswordExpiration: 20200101000000Z",
    "bell\a": f"userPassword: {SSHA}",
    "shell": f"userPassword: {SSHA}\nloginShell: /usr/sbin/nologin",
    "false": f"userPassword: {SSHA}\nLOGINSHELL: /bin/false",
    "old": f"userPassword: {SSHA}\nshadowExpire: 1",
    "mark": f"userPassword: {{CRYPT}}!{CRYPT[7:]}",
    "star": "userPassword: {CRYPT}*",
    "plain": "userPassword: secret",
    "empty": "userPassword: ",
    "none": "cn: none",
    "lines": "userPassword:: " + base64.b64encode(f"{SSHA}\neve {SSHA}".encode()).decode(),
    "two words": f"userPassword: {SSHA}",
}
CODED = ("ann\neve", "eve\0", "eve ")  # names in base64


def part(page: str, title: str) -> str:
    return page.split(f"\n## {title}\n", 1)[1].split("\n## ", 1)[0]


def files(text: str) -> dict[str, str]:
    return dict(re.findall(r"^cat > (\w+\.py) <<'END'\n(.*?)^END$", text, re.S | re.M))


def check_logins(accounts: Accounts, names: list[str], shut: list[str]) -> None:
    """Only the right password logs in, even after a record has moved to Argon2. No password logs in
    the users in `shut`, and an unknown name has no account."""
    for name in names:
        for what, password in PASSWORDS.items():
            for typed in (password, text_of(password)):
                assert accounts.login(name, typed) is Reply.NO, (name, what)
        assert [accounts.login(name, PASSWORD) for _ in range(2)] == [Reply.YES] * 2, name
    for name in shut:
        for typed in (PASSWORD, "", *PASSWORDS.values(), str(SHUT.get(name))):
            assert accounts.login(name, typed) is not Reply.YES, (name, typed)
    for what, name in NAMES.items():
        if text_of(name) not in names:
            assert accounts.login(text_of(name), PASSWORD) is Reply.NO_ACCOUNT, what


def strict(call: Callable[[bytes, bytes], Any]) -> Callable[[bytes, bytes], Any]:
    """Makes a call of bcrypt as strict as in bcrypt 5."""

    def called(password: bytes, other: bytes) -> Any:
        if len(password) > 72:
            raise ValueError("password cannot be longer than 72 bytes")
        return call(password, other)

    return called


def check_table(page: str) -> None:
    """Tests bcrypt in a service's own table, with a user who is no longer active."""
    for name, code in files(part(page, "bcrypt in a table of your own")).items():
        pathlib.Path(name).write_text(code)
    import shop

    bcrypt.checkpw = strict(bcrypt.checkpw)
    with shop.connect() as conn:
        conn.execute("CREATE TABLE users (email TEXT PRIMARY KEY, password TEXT, active INT)")
        rows = [("ann", BCRYPT, 1), ("off", BCRYPT, 0), *((*it, 1) for it in SHUT.items())]
        conn.executemany("INSERT INTO users VALUES (?, ?, ?)", rows)
    for name in (*SHUT, "off", *map(text_of, NAMES.values())):
        assert not shop.log_in(name, PASSWORD), name
    assert [shop.log_in("ann", it) for it in ("a guess", PASSWORD)] == [False, True]
    check_logins(shop.accounts, ["ann"], [*SHUT])
    # A long password moves unchanged, with all of its bytes.
    long = bcrypt.hashpw(LONG[:72], bcrypt.gensalt(4)).decode()
    with shop.connect() as conn:
        conn.execute("INSERT INTO users VALUES ('lea', ?, 1)", [long])
    assert [shop.log_in("lea", it) for it in (PASSWORD, LONG, LONG)] == [False, True, True]
    assert not shop.log_in("lea", LONG[:72])
    with shop.connect() as conn:
        kept = dict(conn.execute("SELECT email, password FROM users").fetchall())
    assert {it: kept[it] for it in SHUT} == SHUT
    assert kept["ann"].startswith("$argon2id$")


def check_ldif(page: str) -> None:
    """Tests an LDIF with the page's Perl, and its hook."""
    text = part(page, "LDAP")
    code = files(text)["from_ldap.py"].partition("\nfor name in")[0]
    (perl,) = re.findall(r"^perl .*?> records$", text, re.S | re.M)
    entries = [f"dn: uid={it},dc=x\nuid: {it}\n{more}" for it, more in {**OPEN, **OUT}.items()]
    for name in CODED:
        coded = base64.b64encode(name.encode()).decode()
        entries.append(f"dn: cn=x\nuid:: {coded}\nuserPassword: {SSHA}")
    # Each line is folded after 76 letters.
    folded = [re.sub("(?m)^(.{76})(?=.)", r"\1\n ", it) for it in entries]
    pathlib.Path("people.ldif").write_text("\n\n".join(folded) + "\n")
    subprocess.run(["bash", "-c", perl], check=True)
    lines = [it.split(" ") for it in pathlib.Path("records").read_text().splitlines()]
    assert [name for name, _ in lines] == [*OPEN], lines
    with sqlite3.connect("accounts.db") as conn:
        conn.execute("CREATE TABLE accounts (name TEXT PRIMARY KEY, record TEXT)")
        conn.executemany("INSERT INTO accounts VALUES (?, ?)", lines)
        conn.executemany("INSERT INTO accounts VALUES (?, ?)", SHUT.items())
        conn.execute("INSERT INTO accounts VALUES ('bcr', ?)", [f"{{CRYPT}}{BCRYPT}"])
    names: dict[str, Any] = {}
    exec(code, names)
    check_bcrypt_5(names["accounts"])
    check_logins(names["accounts"], [*OPEN, "bcr"], [*SHUT, *OUT, "eve"])


def check_bcrypt_5(accounts: Accounts) -> None:
    """passlib 1.7 can't use bcrypt 5: each login raises an error, and no password counts as
    wrong."""
    with mock.patch.object(bcrypt, "hashpw", strict(bcrypt.hashpw)):
        try:
            reply = accounts.login("bcr", PASSWORD)
        except ValueError as raised:
            assert "72 bytes" in str(raised)
        else:
            raise AssertionError(reply)


def main() -> None:
    page = pathlib.Path(sys.argv[1]).read_text()
    sys.path.insert(0, ".")
    check_table(page)
    check_ldif(page)


main()
