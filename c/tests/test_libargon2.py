"""Tests of libargon2.so.1 against Debian's, by itself and under programs that use it."""

import re
import shutil
import sys
import unittest

from harness import HERE, IS_NATIVE, ORIGINAL, OURS, OUT, ROOM
from harness import lacking, need, need_host, need_module, need_original, python, run
from harness import run_sanitized
from tests.samples import sample
from tests.told import tests_in

# Fewer under qemu-user, which frees no memory of threads.
TURNS = range(200 if IS_NATIVE else 10)
OF_PASSLIB = "passlib.tests.test_handlers_argon2"


def need_php():
    need_host()
    need_original()
    need("php")
    if "libargon2" not in run("ldd", shutil.which("php")):
        raise lacking("a PHP with libargon2")


class Libargon2(unittest.TestCase):
    def test_against_libargon2(self):
        """The original's answers over random calls, good and bad: a sample of them."""
        need_original()
        words = (OUT / "libargon2.so.1", ORIGINAL, 1, *sample(TURNS))
        python(HERE / "against_libargon2.py", *words)

    def test_against_libargon2_sanitized(self):
        """The original's answers, with our C under the sanitizers and all lanes in threads, over
        other calls."""
        need_original()
        words = (ROOM / "sanitized.so", ORIGINAL, 2, *sample(TURNS))
        run_sanitized("against_libargon2.py", *words)

    def test_passlib_argon2(self):
        """A sample of passlib's own tests for Argon2 runs as with the original."""
        need_host()
        need_original()
        need_module("argon2", OF_PASSLIB)
        tests = tests_in(unittest.defaultTestLoader.loadTestsFromName(OF_PASSLIB))
        names = sample([it.id() for it in tests])
        words = (sys.executable, "-W", "ignore", "-m", "unittest", *names)
        said = [run(*words, env=env) for env in (OURS, {})]
        ran = [re.findall(r"Ran (\d+) tests?|\(skipped=(\d+)\)", it) for it in said]
        self.assertEqual(*ran)

    def test_php(self):
        """password_hash under each library, password_verify under the other."""
        need_php()
        costs = "['memory_cost' => 1024, 'time_cost' => 2, 'threads' => 1]"
        verify = "foreach (['a secret', 'A secret'] as $p) var_dump(password_verify($p, $argv[1]));"
        for maker, reader in ((OURS, {}), ({}, OURS), (OURS, OURS)):
            for kind in ("PASSWORD_ARGON2I", "PASSWORD_ARGON2ID"):
                make = f"echo password_hash('a secret', {kind}, {costs});"
                record = run("php", "-r", make, env=maker)
                answers = run("php", "-r", verify, "--", record, env=reader).split()
                self.assertEqual(answers, ["bool(true)", "bool(false)"], record)

    def test_php_without_memory(self):
        """A hash needs no memory of PHP's own memory_limit. Without memory PHP calls the right
        password wrong, and makes no record, under each library."""
        need_php()
        costs = "['memory_cost' => 262144, 'time_cost' => 1, 'threads' => 1]"
        make = f"echo password_hash('a secret', PASSWORD_ARGON2ID, {costs});"
        verify = "var_dump(password_verify('a secret', $argv[1]));"
        limited = ("sh", "-c", 'ulimit -v 300000; exec php -r "$@"', "sh")
        for env in (OURS, {}):
            record = run("php", "-d", "memory_limit=8M", "-r", make, env=env)
            self.assertEqual(run("php", "-r", verify, "--", record, env=env), "bool(true)\n")
            self.assertEqual(run(*limited, verify, "--", record, env=env), "bool(false)\n")
            said = run(*limited, make, env=env, status=255)
            self.assertIn("ValueError: Memory allocation error", said)

    def test_php_bytes_after_nul(self):
        """The bytes after a NUL count, but PHP's own bcrypt ignores them."""
        need_php()
        verify = 'var_dump(password_verify("a\\0b", password_hash(%s)));'
        cases = (('"a", PASSWORD_ARGON2ID', "false"), ('"a\\0b", PASSWORD_ARGON2ID', "true"))
        for words, answer in (*cases, ("'a', PASSWORD_BCRYPT", "true")):
            said = run("php", "-r", verify % words, env=OURS)
            self.assertEqual(said, f"bool({answer})\n", words)

    def test_cryptsetup(self):
        """A LUKS2 header made under each library is opened under the other."""
        need_host()
        need_original()
        need("cryptsetup")
        try:
            run("cryptsetup", "benchmark", "--pbkdf", "argon2id")
        except AssertionError as refused:
            raise lacking("a cryptsetup that runs") from refused
        costs = "--type luks2 --pbkdf argon2id --pbkdf-memory 4096 --pbkdf-parallel 2"
        made = f"cryptsetup -q luksFormat {costs} --pbkdf-force-iterations 4".split()
        for number, (maker, reader) in enumerate(((OURS, {}), ({}, OURS))):
            image = ROOM / f"image{number}"
            with open(image, "wb") as file:
                file.truncate(32 << 20)
            run(*made, image, "-", given="a secret", env=maker)
            test = ("cryptsetup", "open", "--test-passphrase", "--key-file", "-", image)
            run(*test, given="a secret", env=reader)
            run(*test, given="A secret", env=reader, status=2)
