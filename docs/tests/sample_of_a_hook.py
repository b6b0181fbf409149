"""Runs a page's hook for htpasswd's records, from the file that the argument names: logins with
hostile fields over a table in SQLite."""

import pathlib
import sqlite3
import sys

from passlib.apache import htpasswd_context
from rigzumal import PasswordHasher
from rigzumal.accounts import Accounts, Reply
from tests.hostile_fields import NAMES, PASSWORD, PASSWORDS, text_of

LOW = PasswordHasher(time_cost=1, memory_cost=64, parallelism=1)
BCRYPT = htpasswd_context.hash(PASSWORD, scheme="bcrypt", rounds=4)
SHA512 = htpasswd_context.hash(PASSWORD, scheme="sha512_crypt", rounds=1000)
SCHEMES = ("apr_md5_crypt", "ldap_sha1", "des_crypt")
RECORDS = {it: htpasswd_context.hash(PASSWORD, scheme=it) for it in SCHEMES}
RECORDS |= {"bcrypt": BCRYPT, "sha512_crypt": SHA512, "ours": LOW.hash(PASSWORD)}
# Records at which every password is wrong.
LOCKED = {"star": "*", "mark": "!", "locked": f"!{BCRYPT}", "plain": PASSWORD.decode()}


def main():
    code = pathlib.Path(sys.argv[1]).read_text()
    given, names = code.partition("\nfor name in")[0], {"low": LOW}
    exec(given.replace("PasswordHasher()", "low"), names)
    accounts, connect, foreign = (names[it] for it in ("accounts", "connect", "foreign"))
    assert isinstance(accounts, Accounts)
    with connect() as conn:
        conn.execute("CREATE TABLE accounts (name TEXT PRIMARY KEY, record TEXT)")
        conn.executemany("INSERT INTO accounts VALUES (?, ?)", {**RECORDS, **LOCKED}.items())

    def stands(name):
        with sqlite3.connect("accounts.db") as conn:
            ((record,),) = conn.execute("SELECT record FROM accounts WHERE name = ?", [name])
        return record

    for name, record in RECORDS.items():
        for what, password in PASSWORDS.items():
            for typed in (password, text_of(password)):
                reply = accounts.login(name, typed)
                assert reply is Reply.NO, (name, what, reply)
        assert stands(name) == record, name
        assert accounts.login(name, PASSWORD) is Reply.YES, name
        assert stands(name).startswith("$argon2id$"), name
        assert accounts.login(name, PASSWORD) is Reply.YES, name
    for name, record in LOCKED.items():
        for password in (record, PASSWORD, *PASSWORDS.values()):
            assert accounts.login(name, password) is Reply.NO, (name, password)
        assert stands(name) == record, name
    for what, name in NAMES.items():
        assert accounts.login(text_of(name), PASSWORD) is Reply.NO_ACCOUNT, what
    # If passlib refuses to hash, the accounts compute a hash, so that the answer takes as long.
    assert foreign(BCRYPT, b"secret\0") is None
    assert foreign(BCRYPT, b"a guess") is False


main()
