"""Checks passwords against the records of an htpasswd file, except plain text and DES."""

import base64
import ctypes.util
import hashlib
import hmac
import re
from contextlib import suppress

from passlib.hash import apr_md5_crypt

CRYPT_DATA = 131232  # bytes of crypt_r's data in the oldest libraries, which need most
BCRYPT, LONGEST_BCRYPT = (b"$2a$", b"$2b$", b"$2y$"), 72  # bytes: crypt ignores the rest
# Without DES, which reads only the first eight letters of a password.
CRYPT = (*BCRYPT, b"$1$", b"$5$", b"$6$", b"$7$", b"$gy$", b"$y$")
APACHE = b"$apr1$"
SHA1, SALTED_SHA1 = b"{SHA}", b"{SSHA}"
crypt_r = ctypes.CDLL(ctypes.util.find_library("crypt")).crypt_r  # or musl's libc has crypt
crypt_r.argtypes = [ctypes.c_char_p, ctypes.c_char_p, ctypes.c_void_p]
crypt_r.restype = ctypes.c_char_p


def why_unknown(record: bytes) -> str:
    """Returns the reason why no password is right for a record, or "" if some password may be
    right."""
    if record.startswith((APACHE, SHA1, SALTED_SHA1, *CRYPT)):
        return ""
    if record[:1] in b"!*":
        return "locked"
    is_des = re.fullmatch(rb"[./0-9A-Za-z]{13}", record)
    return "DES" if is_des else "plain text or an unknown scheme"


def is_right(record: bytes, password: bytes) -> bool:
    """Whether a password is right for a record. Unlike in crypt, a password of over 72 bytes is
    wrong for bcrypt, and one with a NUL is wrong."""
    is_cut = record.startswith(BCRYPT) and len(password) > LONGEST_BCRYPT
    if is_cut or b"\0" in password:
        return False
    if record.startswith(APACHE):
        with suppress(ValueError):  # the record doesn't have such a form
            return bool(apr_md5_crypt.verify(password, record))
    if record.startswith(CRYPT):
        data = ctypes.create_string_buffer(CRYPT_DATA)
        return hmac.compare_digest(crypt_r(password, record, data) or b"", record)
    scheme, _, field = record.partition(b"}")
    digest = decoded(field)
    salt = digest[20:] if scheme == b"{SSHA" else b""
    made = hashlib.sha1(password + salt).digest() + salt
    return scheme in (b"{SHA", b"{SSHA") and hmac.compare_digest(made, digest)


def decoded(text: bytes) -> bytes:
    """Returns the bytes of a base64 text, with padding or without, or none for any other text."""
    with suppress(ValueError):
        return base64.b64decode(text + b"=" * (-len(text) % 4), validate=True)
    return b""
