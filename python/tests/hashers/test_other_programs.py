"""Strings of other programs: our code reads them, and some of the programs read ours. The tests
omit a program that isn't installed."""

import ctypes
import ctypes.util
import itertools
import subprocess
import unittest
import warnings

from records import SMALL, unpadded, verdict

import rigzumal
from rigzumal import PasswordHasher, Type
from tests.helpers import need, need_module, run
from tests.needs import lacking, need_library

# Passwords in turn. The argon2 program takes 1 to 127 bytes.
PASSWORDS = [b"password", b"x", "pässwörd 密码".encode(), b" two  spaces ", bytes(range(127))]
LONGER = [b"", bytes(range(256)), b"\0", b"\xff" * 65, b"correct horse battery staple"]
MIB = 1 << 20

# Memory in KiB, passes, lanes, bytes of salt and tag: the ends of the ranges, 1000 KiB, of which
# some aren't used, and more lanes and passes.
ARGON2 = [(8, 1, 1, 8, 32), (256, 2, 1, 16, 4), (1000, 3, 3, 47, 24), (4096, 2, 4, 48, 64)]
ARGON2_WIDE = [(2040, 1, 255, 16, 32), (8, 1000, 1, 16, 32), (65536, 3, 4, 16, 32)]
# ln, r, p, bytes of salt and of tag.
SCRYPT = [(1, 1, 1, 1, 32), (4, 8, 1, 16, 4), (10, 8, 16, 48, 64), (14, 8, 1, 16, 32)]
SCRYPT += [(15, 1, 1, 47, 32), (16, 2, 3, 16, 24), (16, 8, 1, 16, 32), (1, 255, 255, 16, 32)]


def other(password):
    """Another password. It isn't longer, since scrypt treats `x` and `x` with a zero byte alike."""
    return password[:-1] + bytes([password[-1] ^ 1]) if password else b"x"


def salt_of(size):
    """A salt whose base64 has `+` and `/` too."""
    return bytes(255 - at % 256 for at in range(size))


def by_program(kind, version, numbers, password):
    memory, passes, lanes, salt, tag = numbers
    salt_text = ("somesalt" * 64)[:salt]
    words = ["argon2", salt_text, f"-{kind}", "-v", f"{version:x}", "-e"]
    words += ["-k", str(memory), "-t", str(passes), "-p", str(lanes), "-l", str(tag)]
    done = subprocess.run(words, input=password, stdout=subprocess.PIPE, check=True)
    return done.stdout.decode().strip()


def argon2_by_passlib(kind, version, numbers, password):
    """A string of version 0x10; passlib writes it only from another string's settings, and without
    `v=`."""
    from passlib.hash import argon2

    memory, passes, lanes, salt, tag = numbers
    if version == 0x10:
        costs = f"m={memory},t={passes},p={lanes}"
        setting = f"${costs}${unpadded(salt_of(salt))}${unpadded(bytes(tag))}"
        return argon2.genhash(password, f"$argon2{kind}{setting}")
    costs = {"memory_cost": memory, "time_cost": passes, "parallelism": lanes}
    handler = argon2.using(type=kind, salt=salt_of(salt), **costs)
    handler.checksum_size = tag
    return handler.hash(password)


def scrypt_by_passlib(numbers, password):
    from passlib.hash import scrypt

    ln, r, p, salt, tag = numbers
    handler = scrypt.using(rounds=ln, block_size=r, parallelism=p, salt=salt_of(salt))
    handler.checksum_size = tag
    return handler.hash(password)


class Judged(unittest.TestCase):
    def check_read(self, text, password):
        with self.subTest(text=text, password=password):
            found = [verdict(SMALL, text, it) for it in (password, other(password))]
            self.assertEqual(found, [True, False])

    def check_argon2(self, make, passwords):
        """The records of a program, of each kind and version."""
        passwords = itertools.cycle(passwords)
        rows = [*itertools.product(("d", "i", "id"), (0x13, 0x10), ARGON2)]
        for kind, version, numbers in (*rows, *(("id", 0x13, it) for it in ARGON2_WIDE)):
            password = next(passwords)
            self.check_read(make(kind, version, numbers, password), password)


class OfTheProgram(Judged):
    def test_read(self):
        need("argon2")
        self.check_argon2(by_program, PASSWORDS)
        self.check_read(run("argon2", "somesalt", "-e", given="password").strip(), b"password")


class OfPasslib(Judged):
    def setUp(self):
        need_module("argon2", "passlib")
        self.enterContext(warnings.catch_warnings())
        warnings.simplefilter("ignore")  # the versions that these modules report

    def test_read(self):
        self.check_argon2(argon2_by_passlib, PASSWORDS + LONGER)
        for numbers, password in itertools.product(SCRYPT, (b"", b"password", bytes(256))):
            self.check_read(scrypt_by_passlib(numbers, password), password)


class Further(Judged):
    """Programs that write strings from a password, some with a prefix of their own before the
    `$`."""

    def check_both_ways(self, texts, says):
        for text in texts:
            bare = text[text.index("$") :]
            self.check_read(bare, b"correct horse")
            parts = rigzumal.parts(bare)
            sizes = {"hash_len": parts.tag_size, "salt_len": parts.salt_size}
            kind = Type[parts.scheme.removeprefix("argon2").upper()]
            hasher = PasswordHasher(parts.passes, parts.memory, parts.lanes, **sizes, type=kind)
            made, tried = hasher.hash(b"correct horse"), (b"correct horse", other(b"correct horse"))
            # That program accepts our string.
            self.assertEqual([says(made, password) for password in tried], [True, False])

    def test_libsodium(self):
        need_library("sodium")
        name = ctypes.util.find_library("sodium")
        sodium = ctypes.CDLL(name)
        self.assertGreaterEqual(sodium.sodium_init(), 0)
        wide, size = ctypes.c_ulonglong, ctypes.c_size_t

        def made(kind, passes, memory):
            text = ctypes.create_string_buffer(128)
            given = (b"correct horse", wide(13), wide(passes), size(memory), kind)
            self.assertEqual(sodium.crypto_pwhash_str_alg(text, *given), 0)
            return text.value.decode()

        def says(text, password):
            text = ctypes.create_string_buffer(text.encode(), 128)
            return sodium.crypto_pwhash_str_verify(text, password, wide(len(password))) == 0

        # for argon2i it computes at least three passes
        self.check_both_ways([made(1, 3, 8 * MIB), made(2, 1, 8 * MIB), made(2, 2, 64 * MIB)], says)

    def test_php(self):
        need("php")

        def made(kind, options):
            return run("php", "-r", f"echo password_hash('correct horse', {kind}, {options});")

        def says(text, password):
            code = "echo password_verify($argv[1], $argv[2]) ? 'yes' : 'no';"
            return run("php", "-r", code, "--", password.decode(), text) == "yes"

        if "argon2id" not in run("php", "-r", "echo implode(' ', password_algos());"):
            raise lacking("a PHP with Argon2")
        small = "['memory_cost' => 1024, 'time_cost' => 2, 'threads' => 1]"
        texts = [made(it, small) for it in ("PASSWORD_ARGON2I", "PASSWORD_ARGON2ID")]
        self.check_both_ways([made("PASSWORD_ARGON2ID", "[]"), *texts], says)

    def test_dovecot(self):
        need("doveadm")

        def made(scheme):
            return run("doveadm", "-O", "pw", "-s", scheme, "-p", "correct horse").strip()

        def says(text, password):
            scheme = text.split("$")[1].upper()
            words = ("doveadm", "-O", "pw", "-t", f"{{{scheme}}}{text}", "-p", password)
            return subprocess.run(words, capture_output=True).returncode == 0

        self.check_both_ways([made("ARGON2I"), made("ARGON2ID")], says)
