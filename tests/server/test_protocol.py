"""Tests of the server's tables of operations and answers: each program and page agrees with
them."""

import importlib
import pathlib
import re
import sys
from unittest import mock

from fast_book import SHAPE_OF
from served import TOP, Case
from daemon.protocol import ANSWERS, OPERATIONS, Answer
from tests.helpers import Peer, ended, manual, run

sys.path = [str(TOP / "python"), str(TOP / "tools"), *sys.path]
protocol = importlib.import_module("protocol")  # that of tools
ASK = str(TOP / "bin/credkeep-ask")
# The server's manual, and the two that it names for operations and lines.
MANUALS = ("credkeep-server.8", "credkeep.1", "rigzumal-script.5")
FORGIVEN = "forgiven"  # of an operation that the clients for Python lack
# Answers that no operation of credkeep-ask can get.
OF_OTHERS = {"yes", "expired", "wrong", "replaced", "upgraded", "removed", "kept"}


def stands(word: str, text: str) -> bool:
    return re.search(rf"(?<![a-z-]){re.escape(word)}(?![a-z-])", text) is not None


class Answers(Case):
    def test_written_files(self) -> None:
        """The output of tools/protocol.py is of the table, also after an answer more."""
        run("python3", TOP / "tools/protocol.py")
        with mock.patch.dict(ANSWERS, {"unheard": Answer("it is new", reply="UNHEARD")}):
            texts = {path.name: text for path, text in protocol.texts()}
        self.assertIn('    UNHEARD = "unheard"\n', texts["_client.py"])
        self.assertIn("| `unheard` | it is new | 503 | 0 |\n", texts["ERRORS.md"])
        self.assertIn('.IP "\\fBunheard\\fP"\nIt is new.\n', texts["credkeep-server.8"])

    def test_pages(self) -> None:
        """Each answer is in a manual and among the errors, and each operation in a manual and among
        those of the sockets."""
        manuals = "".join(map(manual, MANUALS))
        errors = (TOP / "docs/ERRORS.md").read_text()
        servers = (TOP / "docs/SERVERS.md").read_text()
        for answer, meaning in ANSWERS.items():
            with self.subTest(answer):
                self.assertTrue(stands(answer.split(" ")[-1], manuals))
                self.assertIn(f"| `{answer}` | {meaning.meaning} |", errors)
        for operation in map(bytes.decode, OPERATIONS):
            with self.subTest(operation):
                self.assertTrue(stands(operation, manuals))
                self.assertTrue(stands(operation, servers))

    def test_answers_of_operations(self) -> None:
        """docs/SERVING.md has the book's answers to each operation."""
        found, before = dict[str, set[str]](), ""
        rows = re.findall(
            r"^\| `(\w+) [A-Z][^`]*` \| (.*) \|$", (TOP / "docs/SERVING.md").read_text(), re.M
        )
        for operation, told in rows:
            told = told.replace("the same", before)
            words = {it for it in re.findall(r"`(\w+)`", told) if it in ANSWERS}
            found.setdefault(operation, set()).update(words)
            before = told
        of_book = {
            word.decode(): set(operation.answers)
            for word, operation in OPERATIONS.items()
            if not operation.is_own and not operation.is_transfer and word != b"known"
        }
        self.assertEqual(found, of_book)

    def test_the_book_of_tests(self) -> None:
        """The tests' book has each operation of a book, with as many fields."""
        for word, operation in OPERATIONS.items():
            if operation.is_own or operation.is_transfer or word == b"known":
                continue
            fields, passwords, may_set = SHAPE_OF[word.decode()]
            with self.subTest(word):
                self.assertEqual(may_set, operation.setting > 0)
                self.assertEqual(fields, len(operation.fields) - may_set)
                self.assertEqual(passwords, operation.tries + (operation.new > 0))

    def test_modules(self) -> None:
        """The package names each of its modules."""
        package = importlib.import_module("daemon")
        assert package.__doc__ and package.__file__
        named = set(re.findall(r"^    (\w+)  ", package.__doc__, re.M))
        found = pathlib.Path(package.__file__).parent.iterdir()
        self.assertEqual(named, {it.stem for it in found} - {"__init__", "__pycache__"})

    def test_calls_of_clients(self) -> None:
        """Each call of the clients for Python is an operation, and those of the login socket are
        there."""
        client = importlib.import_module("rigzumal.server._client")
        calls = {name for name in vars(client.Calls) if name[0] != "_"} - {"names"}
        self.assertLessEqual(calls, {word.decode() for word in OPERATIONS})
        self.assertLessEqual({"verify", "known", "change"}, calls)

    def test_clients(self) -> None:
        """The clients for Python have a reply or an exception for each, and no other reply."""
        client = importlib.import_module("rigzumal.server._client")
        raised = set[str]()
        for answer in ANSWERS.keys() - {FORGIVEN}:
            try:
                client.Reply(client.answer_of(b"1", f"1 {answer}\n".encode()))
            except client.ServerError as refusal:
                raised.add(answer)
                if answer.startswith("bad "):
                    self.assertEqual(str(refusal), answer.removeprefix("bad "))
        replies = {it.value for it in client.Reply}
        self.assertEqual(replies | raised, ANSWERS.keys() - {FORGIVEN})
        self.assertEqual(replies & raised, set())

    def test_credkeep_ask(self) -> None:
        """credkeep-ask ends with the status of each answer."""
        path = self.room() / "peer"
        for answer in ANSWERS.keys() - OF_OTHERS:
            with self.subTest(answer):
                with Peer(path, lambda _, client: client.sendall(f"1 {answer}\n".encode())):
                    done = ended([ASK, "--server", str(path), "disable", "ada"])
                path.unlink()
                self.assertEqual(done.status, ANSWERS[answer].ask, done)
