"""Tests of clients with hostile names and passwords, and of the samples of clients on pages: those
of rigzumal.server, and the PHP function of docs/SERVERS.md.

The tests need the library in c/out, or the one that RIGZUMAL_LIBRARY names; the last ones need php.
"""

import asyncio
import base64
import pathlib
import re
from collections.abc import Iterator
from typing import Any

from client_case import ClientCase
from machine import PAGE
from served import TOP, Case, longest, need
from tests import hostile_fields
from tests.frames import shown
from tests.helpers import run
from tests.hostile_fields import NAMES, PASSWORDS


def block(language: str, page: pathlib.Path = PAGE, word: str = "") -> str:
    """The one block of a page in a language, or the one that has a word."""
    blocks = re.findall(rf"```{language}\n(.*?)```", page.read_text(), re.S)
    (found,) = (it for it in blocks if word in it)
    assert len(found.splitlines()) <= 30
    return str(found)


class HostileFields(ClientCase):
    def logins(self) -> Iterator[tuple[str, tuple[Any, ...]]]:
        """The calls of a login with each hostile field, and the reply to each; behind each a login
        that is right."""
        Reply = self.server.Reply
        right = (Reply.YES, "verify", "ada", "secret")
        for what, field in NAMES.items():
            name = hostile_fields.text_of(field)
            yield f"name: {what}", (Reply.NO, "verify", name, "secret")
            yield f"name: {what}", (Reply.NO_ACCOUNT, "known", name)
            yield f"name: {what}", (Reply.NO_ACCOUNT, "change", name, "secret", "hacked")
            yield f"after the name: {what}", right
        for what, field in PASSWORDS.items():
            for password in (field, hostile_fields.text_of(field)):
                yield f"password: {what}", (Reply.NO, "verify", "ada", password)
                yield f"password: {what}", (Reply.WRONG, "change", "ada", password, "hacked")
                yield f"after the password: {what}", right

    def test_hostile_fields(self) -> None:
        """Each field that a visitor may send gets an answer from the client for threads."""
        with self.tapped() as path:
            client = self.server.Client(path, longest())
            for what, (reply, call, *asked) in self.logins():
                with self.subTest(what, call=call):
                    self.assertIs(getattr(client, call)(*asked), reply)

    def test_hostile_fields_by_asyncio(self) -> None:
        """Hostile fields through the client whose tasks share a connection: one by one, and all at
        once."""

        async def used(client: Any) -> None:
            async def ask(what: str, reply: Any, call: str, *asked: Any) -> None:
                with self.subTest(what, call=call):
                    self.assertIs(await getattr(client, call)(*asked), reply)

            for what, row in self.logins():
                await ask(what, *row)
            await asyncio.gather(*(ask(what, *row) for what, row in self.logins()))

        with self.tapped() as path:
            self.run_with(path, used)

    def test_hostile_names_of_an_administrator(self) -> None:
        """No call accepts a name that no book can have."""
        service = self.serving().enrol(ada="secret")
        rows = [(call,) for call in ("account", "disable", "delete", "lock", "expire")]
        rows += [(call, "hacked") for call in ("enrol", "reset")]
        for call in self.calls(service.path("admin")):
            for what, field in NAMES.items():
                name = hostile_fields.text_of(field)
                asked = [(word, name, *more) for word, *more in rows]
                for row in (*asked, ("rename", name, "zoe"), ("rename", "ada", name)):
                    with self.subTest(what, call=row[0]):
                        with self.assertRaisesRegex(self.server.Refused, "^3 name$"):
                            call(*row)
            self.assertEqual(call("names"), ["ada"])
            self.assertIs(call("verify", "ada", "secret"), self.server.Reply.YES)

    def test_hostile_new_passwords(self) -> None:
        """A new password is any of up to 256 bytes, and is the one that was sent; a longer one, and
        text that has no UTF-8, are a ValueError, and the old one stays."""
        Reply, service = self.server.Reply, self.serving("--tries", "0").enrol(ada="secret")
        for call in self.calls(service.path("admin")):
            for what, field in PASSWORDS.items():
                for password in (field, hostile_fields.text_of(field)):
                    with self.subTest(what, kind=type(password)):
                        self.assertIs(call("reset", "ada", "secret"), Reply.REPLACED)
                        if len(field) > 256 or "\udcff" in str(password):
                            self.assertRaises(ValueError, call, "reset", "ada", password)
                            self.assertIs(call("verify", "ada", "secret"), Reply.YES)
                        else:
                            self.assertIs(call("reset", "ada", password), Reply.REPLACED)
                            self.assertIs(call("verify", "ada", field), Reply.YES)
                            self.assertIs(call("verify", "ada", "secret"), Reply.NO)

    def test_long_names_beside_others(self) -> None:
        """Whatever one task asks for, the others that share its connection are answered."""
        Reply, service = self.server.Reply, self.serving("--mail-names")
        service.enrol(ada="secret")

        async def used(book: Any) -> None:
            async def honest() -> None:
                for _ in range(50):
                    self.assertIs(await book.verify("ada", "secret"), Reply.YES)

            async def visitor() -> None:
                for size in (200, 940, 1000, 5000) * 10:
                    self.assertIs(await book.verify("x" * size, "y" * 256), Reply.NO)

            await asyncio.gather(*(honest() for _ in range(8)), visitor())

        self.run_with(service.path(), used)


class Frames(ClientCase):
    def test_no_frame_shows_a_password(self) -> None:
        """No report of an exception shows a password, or the line with its base64: not if the
        server is down, ends the connection, sends something else or is late, and not if the client
        refuses the call."""
        typed = "HUNTER22"
        shows = (typed, base64.b64encode(typed.encode()).decode().rstrip("="))
        asked = [("verify", "ada", typed), ("enrol", "ada", typed), ("reset", "ada", typed)]
        asked += [("change", "ada", typed, typed)]
        refused = [("enrol", "a b", typed), ("reset", "ada", typed * 99)]
        refused += [("enrol", "ada", typed + "\ud800"), ("verify", "ada", [typed])]
        down = self.room() / "none"
        for path, timeout, calls in (
            (down, longest(), asked + refused),
            (self.peer(b""), longest(), asked),
            (self.peer(b"x\n"), longest(), asked),
            (self.peer(b"1 later\n"), longest(), asked),
            (self.peer(b"", "waits"), 0.2, asked),
        ):
            for call in self.calls(path, timeout=timeout):
                for words in calls:
                    with self.subTest(path=path, words=words):
                        try:
                            self.fail(f"it answers {call(*words)}")
                        except (self.server.ServerError, ValueError, TypeError) as error:
                            self.assertEqual(shown(error, *shows), [])


class Samples(ClientCase):
    def test_python_sample(self) -> None:
        """The Python of docs/SERVERS.md, as it is printed there."""
        service, sample = self.serving("--tries", "2"), dict[str, Any]()
        service.enrol(ada="secret")
        exec(block("python").replace("Client()", f"Client({str(service.path())!r})"), sample)
        may_log_in = sample["may_log_in"]
        for name, password, ought in (
            ("ada", "secret", True),
            ("zoe", "x", False),
            *((hostile_fields.text_of(it), "secret", False) for it in NAMES.values()),
            ("ada", "x" * 300, False),
            ("ada", "guess", False),
            ("ada", "guess", False),
        ):
            with self.subTest(name=name[:40]):
                self.assertIs(may_log_in(name, password), ought)
        self.assertRaises(self.server.Later, may_log_in, "ada", "secret")
        service.stop()
        self.assertRaises(self.server.Unavailable, may_log_in, "ada", "secret")

    def test_asyncio_sample(self) -> None:
        """The Python of docs/SERVING.md, as it is printed there: tasks that share its client are
        let in and kept out, and hostile fields among them change nothing."""
        sample, text = dict[str, Any](), block("python", TOP / "docs/SERVING.md", "aio")
        right = ("ada", "secret")
        rows = [(right, True), (("ada", "guess"), False), (("zoe", "secret"), False)] * 10
        rows += [((hostile_fields.text_of(it), "secret"), False) for it in NAMES.values()]
        rows += [(("ada", hostile_fields.text_of(it)), False) for it in PASSWORDS.values()]

        async def used() -> None:
            may_log_in = sample["may_log_in"]
            said = await asyncio.gather(*(may_log_in(*login) for login, _ in rows))
            self.assertEqual([*zip(rows, said)], [(row, row[1]) for row in rows])
            self.assertIs(await may_log_in(*right), True)
            await sample["book"].close()

        with self.tapped() as path:
            exec(text.replace("Client()", f"Client({str(path)!r})"), sample)
            asyncio.run(used())


# What the PHP function says to each line of its input: a name and a password in hexadecimal.
PHP_ROWS = """
while (($line = fgets(STDIN)) !== false) {
    [$name, $password] = array_map('hex2bin', explode(' ', rtrim($line, "\\n")));
    echo var_export(book_verify($name, $password, $path), true), "\\n";
}
"""
Login = tuple[bytes, bytes]  # a name and a password


class OtherLanguages(Case):
    def php_answers(self, path: object, *rows: Login) -> list[str]:
        """The answers of the PHP function of docs/SERVERS.md to each, as it is printed there."""
        need("php")
        script = self.room() / "client.php"
        script.write_text(f"{block('php')}\n$path = 'unix://{path}';\n{PHP_ROWS}")
        given = "".join(f"{name.hex()} {password.hex()}\n" for name, password in rows)
        return run("php", "-d", "error_reporting=E_ALL", script, given=given).split()

    def test_php_client(self) -> None:
        """The PHP function returns true, false, or null if the server gives no answer."""
        service = self.serving("--tries", "2").enrol(ada="secret", bob="")
        logins = [(b"ada", b"secret"), (b"bob", b""), (b"ada", b""), (b"zoe", b"secret")]
        said = self.php_answers(service.path(), *logins, *[(b"ada", b"guess")] * 2, logins[0])
        self.assertEqual(said, ["true", "true", "false", "false", "false", "NULL", "NULL"])
        self.assertEqual(self.php_answers("/nonexistent", logins[0]), ["NULL"])

    def test_php_hostile_fields(self) -> None:
        """A hostile name or password is false, and the next login is right."""
        right = (b"ada", hostile_fields.PASSWORD)
        rows = {f"name: {what}": (name, right[1]) for what, name in NAMES.items()}
        rows |= {f"password: {what}": (b"ada", it) for what, it in PASSWORDS.items()}
        with self.tapped() as path:
            said = self.php_answers(path, *(it for row in rows.values() for it in (row, right)))
        self.assertEqual(len(said), 2 * len(rows))
        for what, *both in zip(rows, said[::2], said[1::2]):
            with self.subTest(what):
                self.assertEqual(both, ["false", "true"])
