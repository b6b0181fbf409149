"""Tests of the PAM module: passwords in memory and in the log, threads, and builds."""

import base64
import functools
import os
import re
import shutil
import socket
import time

from driven import PLAIN, ROOM, SOURCES, TOP, VALGRIND, Case, Pam, Question
from driven import answers, asked, compiled, helpers, line_of, peer, said_at, sends

run = functools.partial(helpers.run, at=TOP)
PASSWORD = b"correct horse battery staple!"
ENCODED = base64.b64encode(PASSWORD).rstrip(b"=")


class Secrets(Case):
    def test_cleared(self) -> None:
        """At its end a call clears the line that it sent; afterwards no password is in memory,
        plain or encoded."""
        needles = (ENCODED, ENCODED[:24], ENCODED[-24:], PASSWORD)
        for tasks, given, calls in (
            ("authenticate", [PASSWORD], 1),
            ("change", [b"secret", PASSWORD, PASSWORD], 4),
        ):
            question = Question(tasks=tasks, answers=given, build=PLAIN, looked_for=needles)
            looks = [asked(question, ROOM / "nothing-here").looks] if calls == 1 else []
            for answer in (b"1 yes\n", b"1 no\n", b"2 yes\n", b""):
                with peer(answers(change=answer) if calls > 1 else sends(answer)) as server:
                    looks.append(asked(question, server.path).looks)
            for found in looks:
                self.assertEqual([it[:3] for it in found], [[0, 0, 0]] * (calls + 1), tasks)
                self.assertEqual(found[-1], [0] * 4, tasks)

    def test_looking_finds(self) -> None:
        """The search above finds existing bytes: the socket's path."""
        with peer(sends(b"1 yes\n")) as server:
            question = Question(build=PLAIN, looked_for=[str(server.path).encode()])
            inside, after = asked(question, server.path).looks
            self.assertTrue(inside > [0] and after > [0], f"{inside}, {after}")

    def test_logs(self) -> None:
        """The log has failed tries in pam_unix's form: with the name only if the book has it, and
        never with a password."""
        uid = os.getuid()
        failure = (
            f"authentication failure; logname= uid={uid} euid={uid} tty= ruser= rhost=192.0.2.1 "
        )
        secrets = [it.decode() for it in (PASSWORD, ENCODED, PASSWORD[:12])]
        for answer, ought, is_unknown in (
            (b"yes", [], False),
            (b"no", [failure + " user=ada"], False),
            (b"absent", [failure + " user=ada"], False),
            (b"noaccount", [failure], True),
            (b"bad 3 name", [failure], True),
            (b"later", [failure], False),
        ):
            for options in ("", "debug", "quiet_unknown"):
                question = Question(answers=[PASSWORD], options=options)
                said, _ = said_at(b"1 " + answer + b"\n", question)
                wanted = [] if is_unknown and options == "quiet_unknown" else ought
                self.assertEqual(said.logs[: len(wanted)], wanted, f"{answer!r} {options}")
                self.assertEqual(len(said.logs), len(wanted) + (options == "debug"), said.logs)
                self.assertFalse(any(it in "\n".join(said.logs) for it in secrets), said.logs)
        for answer in (b"unavailable", b"bad 13 password", b"denied"):
            said, _ = said_at(b"1 " + answer + b"\n", Question(answers=[PASSWORD]))
            self.assertEqual([it.partition(": ")[2] for it in said.logs], ["no answer to verify"])
        for task in ("account", "change"):  # a user of another module makes no failed try
            said, _ = said_at(b"1 noaccount\n", Question(tasks=task, answers=[PASSWORD] * 3))
            self.assertEqual((said.codes, said.logs), ([Pam.USER_UNKNOWN], []))

    def test_threads(self) -> None:
        """Sixteen threads at once: each gets the answer for its own name and password."""

        def replies(line: bytes, client: socket.socket) -> None:
            _, _, name, password = line.split()
            time.sleep(0.02)
            right = base64.b64decode(password + b"=" * (-len(password) % 4)) == name
            client.sendall(b"1 yes\n" if right and not name.endswith(b"3") else b"1 no\n")

        in_threads = {"THREADS": "16", "PIECES": "1"}
        question = Question(tasks="authenticate " * 5, environment=in_threads, options="timeout=60")
        names = [f"ada{i}" for i in range(16)] * 5
        with peer(replies) as server:
            codes = sorted(asked(question, server.path).codes)
            self.assertEqual(codes, [Pam.SUCCESS] * 70 + [Pam.AUTH_ERR] * 10)
            lines = [line_of("verify", name, name.encode()) for name in names]
            self.assertEqual(sorted(server.lines), sorted(lines))

    def test_under_valgrind(self) -> None:
        """Valgrind watches the memory of a login, a wrong one, an account and a change."""
        helpers.need("valgrind")
        watched = {"build": VALGRIND, "options": "timeout=60 debug"}
        given = [b"secret", b"secret", b"fresh", b"fresh"]
        with peer(answers(change=b"1 replaced\n")) as server:
            question = Question(
                tasks="authenticate setcred account change", answers=given, **watched
            )
            self.assertEqual(asked(question, server.path).codes, [Pam.SUCCESS] * 4)
        said, _ = said_at(b"1 no\nxyz", Question(**watched))
        self.assertEqual(said.codes, [Pam.AUTHINFO_UNAVAIL])

    def test_builds(self) -> None:
        """Both compilers build the module without a warning, and it exports four symbols."""
        every = "-std=c11 -O2 -Wall -Wextra -Wpedantic -Wshadow -Wconversion -Wno-sign-conversion"
        every += " -Wstrict-prototypes -Werror -fPIC -shared -I../src -o /dev/null"
        for compiler in ("gcc", "clang"):
            if shutil.which(compiler):
                run(compiler, *every.split(), *SOURCES, "-lpam")
        run("make", "-s")
        seen = run("nm", "-D", "--defined-only", "out/pam_rigzumal.so").split()[2::3]
        ought = ["pam_sm_acct_mgmt", "pam_sm_authenticate", "pam_sm_chauthtok", "pam_sm_setcred"]
        self.assertEqual(sorted(seen), ought)
        sections = run("size", "-A", compiled("module.o", ["-O2", "-fPIC", "-c"], SOURCES[0]))
        static_state = re.findall(r"^\.(?:data|bss|tbss|tdata)\s+[1-9].*", sections, re.M)
        self.assertEqual(static_state, [])
