"""Tests of the PAM module: its lines, its results for each answer, and faults of the connection."""

import importlib
import pathlib
import socket
import sys
import threading
import time

from driven import PLAIN, ROOM, Case, Pam, Question
from driven import answers, asked, line_of, peer, sends
from tests.helpers import TOP, each
from tests.hostile_fields import NAMES, PASSWORDS, text_of

sys.path.insert(0, str(TOP / "python/rigzumal/server"))  # where the server's table is
YES, NO_ROOM = b"1 yes\n", b"* unavailable\n"
VERIFY, KNOWN = line_of("verify", "ada", b"secret"), line_of("known", "ada")

# Texts that are no answer: each edit of one byte, other words and lines, and texts too long for a
# line.
EDITS = [(at, 0, new) for at in range(7) for new in (b" ", b"\0", b"1")]
EDITS += [(at, 1, new) for at in range(6) for new in (b"", b"Y")]
NO_ANSWERS = {YES[:at] + new + YES[at + cut :] for at, cut, new in EDITS} - {YES}
LINES = [b"", b"1", b"1 ", b"yes", b"1 no yes", b"2 yes", b"1 yes\r", b"1 yes\0no", b"1 YES"]
LINES += [b"1 yes\n1 yes", b"1 no\n1 yes", b"2 no\n1 yes", b"1 replaced", b"1 unavailable"]
LINES += [b"* denied", b"1 denied", b"1 bad 14 busy", b"1 n", b"1 none", b"1 noyes"]
NO_ANSWERS |= {line + b"\n" for line in LINES}
NO_ANSWERS |= {b"1 " + b"y" * 62, b"1 " + b"y" * 61 + b"\n", b"1 yes" + b" " * 70 + b"\n", b""}
NO_ANSWERS |= {b"x" * 1000000, bytes(range(256)), b"\xff" * 63 + b"\n"}

GOOD_NAMES = ("a", "ada", "a-z0.9_x", "x" * 32)
MAIL = ("ada@example.org", "Ada.L+x@Example.ORG", "\u00e4@example.org", "a@b@c")
MAIL += ("x" * 240 + "@" + "y" * 13,)
BAD_MAIL = ("@", "@b", "a@", "a @b", "a@b ", "a@b\n", "a\n@b", "a@b\nc@d", "a\t@b", "a\x7f@b")
BAD_MAIL += ("x" * 241 + "@" + "y" * 13,)


class Answers(Case):
    def test_answers(self) -> None:
        """The result of each answer to each operation, and the line that the module sends."""
        for task, line, answer, ought in (
            ("authenticate", VERIFY, b"yes", Pam.SUCCESS),
            ("authenticate", VERIFY, b"no", Pam.AUTH_ERR),
            ("authenticate", VERIFY, b"absent", Pam.AUTH_ERR),
            ("authenticate", VERIFY, b"noaccount", Pam.USER_UNKNOWN),
            ("authenticate", VERIFY, b"later", Pam.MAXTRIES),
            ("authenticate", VERIFY, b"bad 3 name", Pam.USER_UNKNOWN),
            ("account", KNOWN, b"yes", Pam.SUCCESS),
            ("account", KNOWN, b"absent", Pam.ACCT_EXPIRED),
            ("account", KNOWN, b"noaccount", Pam.USER_UNKNOWN),
        ):
            self.check(b"1 " + answer + b"\n", ought, line, task=task)
        said = self.check(YES, Pam.SUCCESS, task="setcred")  # there are no credentials to set
        self.assertEqual(said.prompts, [])

    def test_all_answers(self) -> None:
        """The results of a password at each of the server's answers."""
        for answer, meaning in importlib.import_module("daemon.protocol").ANSWERS.items():
            self.check(f"1 {answer}\n".encode(), Pam[meaning.pam], VERIFY)

    def test_no_answers(self) -> None:
        """Text that isn't exactly an answer to this line lets nobody in, and lets the stack go
        on."""
        for answer in sorted(NO_ANSWERS):
            self.check(answer, Pam.AUTHINFO_UNAVAIL, VERIFY, options="debug timeout=2")
        for answer in (YES, b"1 no\n2 replaced\n", b"1 enrolled\n"):
            with peer(answers(change=answer)) as server:
                question = Question(tasks="change", answers=(b"secret", b"fresh", b"fresh"))
                self.assertEqual(asked(question, server.path).codes, [Pam.AUTHINFO_UNAVAIL], answer)

    def test_passwords(self) -> None:
        """The module sends passwords of 1 to 256 bytes as they are, and no others."""
        given = [b"a", b"ab", b"abc", b"p\xc3\xa4ss w\xc3\xb6rd ", b" ", b"="]
        given += [bytes(range(1, 256)).replace(b"\n", b"") + b"!!"]
        given += [b"x" * size for size in (63, 64, 65, 127, 128, 129, 254, 255, 256)]
        for password in given:
            line = line_of("verify", "ada", password)
            self.check(YES, Pam.SUCCESS, line, answers=[password])
        self.check(YES, Pam.SUCCESS, b"1 verify ada -\n", answers=[b""], options="nullok")

    def test_passwords_of_no_record(self) -> None:
        """An empty or a too long password is wrong if the book has the name; otherwise the next
        module judges it."""
        for password, options, task in (
            (b"x" * 257, "", "authenticate"),
            (b"x" * 500, "nullok", "authenticate"),
            (b"", "", "authenticate"),
            (b"", "nullok", "strict"),
        ):
            for answer, ought in (
                (YES, Pam.AUTH_ERR),
                (b"1 absent\n", Pam.AUTH_ERR),
                (b"1 noaccount\n", Pam.USER_UNKNOWN),
                (b"1 unavailable\n", Pam.AUTHINFO_UNAVAIL),
            ):
                said = self.check(
                    answer, ought, KNOWN, task=task, answers=[password], options=options
                )
                is_said = any("authentication failure" in it for it in said.logs)
                self.assertEqual(is_said, ought == Pam.AUTH_ERR, said.logs)

    def test_names(self) -> None:
        """The module sends each name that a book may have, and an address only with `mail_names`.
        Another name is unknown, and the module still asks for the password."""
        for name in (*GOOD_NAMES, *MAIL, *BAD_MAIL):
            for options in ("", "mail_names"):
                if name in GOOD_NAMES or (name in MAIL and options):
                    line = line_of("verify", name, b"secret")
                    said = self.check(YES, Pam.SUCCESS, line, user=name, options=options)
                else:
                    said = self.check(YES, Pam.USER_UNKNOWN, user=name, options=options)
                self.assertEqual(len(said.prompts), 1, name)

    @each("", "mail_names")
    def test_hostile_names(self, options: str) -> None:
        """A hostile name is unknown, no line has it, and the next login is let in. PAM's texts have
        no NUL byte."""
        for what, name in NAMES.items():
            if b"\0" in name or (what == "@" and options):
                continue
            for task in ("authenticate", "account", "change"):
                with self.subTest(what, task=task):
                    given = {"task": task, "user": text_of(name), "options": options}
                    said = self.check(YES, Pam.USER_UNKNOWN, **given)
                    self.assertEqual(len(said.prompts), task == "authenticate")
                    self.check(YES, Pam.SUCCESS, VERIFY, options=options)

    def test_hostile_passwords(self) -> None:
        """A hostile password is one field of the line; a password that no record can have is never
        sent."""
        for what, password in PASSWORDS.items():
            if b"\0" in password:
                continue
            with self.subTest(what):
                is_sent = 0 < len(password) <= 256
                line = line_of("verify", "ada", password) if is_sent else KNOWN
                answer = b"1 no\n" if is_sent else YES
                self.check(answer, Pam.AUTH_ERR, line, answers=[password])
                self.check(YES, Pam.SUCCESS, VERIFY)

    def test_in_pieces(self) -> None:
        """Lines and answers in single bytes, each call interrupted once: nothing changes."""
        password = b"x" * 256
        for answer, ought in (
            (YES, Pam.SUCCESS),
            (b"1 no\n", Pam.AUTH_ERR),
            (b"1 yes\nx", Pam.SUCCESS),  # the byte after it isn't there yet
        ):
            options = {"environment": {"PIECES": "1"}, "options": "timeout=20"}
            line = line_of("verify", "ada", password)
            self.check(answer, ought, line, answers=[password], **options)

        def drips(line: bytes, client: socket.socket) -> None:
            for byte in YES:
                client.sendall(bytes([byte]))
                time.sleep(0.05)

        with peer(drips) as server:
            self.assertEqual(asked(Question(), server.path).codes, [Pam.SUCCESS])

    def check_deadline(self, path: pathlib.Path) -> None:
        """The call ends at its second, or a little after it on a machine that stalls, and not at
        another event."""
        said = asked(Question(options="timeout=1", build=PLAIN), path)
        self.assertEqual(said.codes, [Pam.AUTHINFO_UNAVAIL])
        self.assertTrue(0.9 < said.seconds < 40, f"{said.seconds} s")

    def test_deadlines(self) -> None:
        """A peer that is silent, drips, or doesn't accept the connection costs the timeout,
        once."""

        def nothing(line: bytes, client: socket.socket) -> None:
            time.sleep(100)

        def drips(line: bytes, client: socket.socket) -> None:
            for _ in range(500):
                client.sendall(b"1")
                time.sleep(0.2)

        for reply in (nothing, drips):
            with peer(reply) as server:
                self.check_deadline(server.path)
        self.check(YES, Pam.SUCCESS, VERIFY, environment={"JUMPS": "1"})  # the clock is set
        path, busy = ROOM / "busy", socket.socket(socket.AF_UNIX)
        busy.bind(str(path))
        busy.listen(0)
        waiting = [socket.socket(socket.AF_UNIX) for _ in range(3)]
        for client in waiting:
            client.setblocking(False)
            client.connect_ex(str(path))
        self.check_deadline(path)
        for client in (*waiting, busy):
            client.close()

    def test_no_server(self) -> None:
        """Without a server the module returns PAM_AUTHINFO_UNAVAIL at once."""
        plain = ROOM / "plain-file"
        plain.write_text("")
        gone = peer(sends(b""))
        gone.server_close()
        unavailable = Pam.AUTHINFO_UNAVAIL
        results = {"authenticate": unavailable, "account": unavailable, "change": Pam.TRY_AGAIN}
        for path in (ROOM / "nothing-here", plain, gone.path, ROOM):
            for task, ought in results.items():
                said = asked(Question(tasks=task), path)
                self.assertEqual(said.codes, [ought], f"{task} at {path}")
        said = self.check(b"", unavailable, VERIFY, options="timeout=60")  # the server closes
        self.assertLess(said.seconds, 30)

    def test_no_room(self) -> None:
        """The module asks a server without room again, ever less often, until it has room or the
        time is up."""

        def has_room(line: bytes, client: socket.socket) -> None:
            client.sendall(YES if len(server.lines) == 4 else NO_ROOM)

        for task, line in (("authenticate", VERIFY), ("account", KNOWN)):
            with peer(has_room) as server:
                self.assertEqual(asked(Question(tasks=task), server.path).codes, [Pam.SUCCESS])
                self.assertEqual(server.lines, [line] * 4)
        with peer(sends(NO_ROOM)) as server:
            self.check_deadline(server.path)
            self.assertLess(len(server.lines), 9)

    def test_no_room_at_once(self) -> None:
        """The module also asks again if the server reports no room, and closes before or amid the
        line."""
        server = peer(sends(b""))

        def says_so() -> None:
            for reads in (0, 1, 9):
                client, _ = server.socket.accept()
                client.sendall(NO_ROOM)
                client.recv(reads)
                client.close()
            client, _ = server.socket.accept()
            client.sendall(YES)
            with client, client.makefile("rb") as lines:
                lines.readline()  # the whole line, in however many pieces it arrives

        for environment in ({}, {"PIECES": "1"}):
            threading.Thread(target=says_so, daemon=True).start()
            said = asked(Question(environment=environment), server.path)
            self.assertEqual(said.codes, [Pam.SUCCESS])
        server.server_close()

    def test_closes_amid(self) -> None:
        """If a server closes while the module sends the line, only the call ends."""

        def reads_a_byte() -> None:
            client, _ = server.socket.accept()
            client.recv(1)
            client.close()

        server = peer(sends(b""))
        threading.Thread(target=reads_a_byte, daemon=True).start()
        said = asked(Question(answers=[b"x" * 256], environment={"PIECES": "1"}), server.path)
        self.assertEqual(said.codes, [Pam.AUTHINFO_UNAVAIL])
        server.server_close()

    def test_falls_through(self) -> None:
        """A stack goes on to the next module if the server is down, and stops at a wrong
        password."""
        service = "auth [success=done authinfo_unavail=ignore default=die] {module}\n"
        service += "auth required pam_permit.so\n"
        said = asked(Question(service=service), ROOM / "nothing-here")
        self.assertEqual(said.codes, [Pam.SUCCESS])
        self.check(b"1 no\n", Pam.AUTH_ERR, VERIFY, service=service)
        self.check(YES, Pam.SUCCESS, VERIFY, service=service.replace("permit", "deny"))
