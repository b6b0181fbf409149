"""Tests of the PAM module: options, prompts and changes of passwords."""

from collections.abc import Sequence
from typing import Any

from driven import ROOM, Case, Pam, Question, Said
from driven import answers, asked, line_of, peer, said_at

YES = b"1 yes\n"
VERIFY, KNOWN = line_of("verify", "ada", b"secret"), line_of("known", "ada")
FRESH = (b"secret", b"fresh", b"fresh")
LONGEST = (b"x" * 256, b"y" * 256, b"y" * 256)


def changed(
    given: Sequence[bytes], verify: bytes = b"yes", change: bytes = b"replaced", **question: Any
) -> tuple[Said, list[bytes]]:
    """The results of a change at a peer with these answers to `verify` and to `change`."""
    with peer(answers(verify=b"1 " + verify + b"\n", change=b"1 " + change + b"\n")) as server:
        said = asked(Question(tasks="change", answers=given, **question), server.path)
        return said, [line for line in server.lines if not line.startswith(b"1 known ")]


LONG = "socket=/" + "x" * 107  # a letter more than a socket's path may have
BAD_OPTIONS = (
    "frob",
    "socket",
    "socket=",
    "socket=run/x",
    LONG,
    "timeout=",
    "timeout=0",
    "timeout=601",
    "timeout=5x",
    "timeout=-1",
    "nullokk",
)
GOOD_OPTIONS = ("timeout=1", "timeout=600", "debug", "nullok", "mail_names", "try_first_pass")


class Changes(Case):
    def test_options(self) -> None:
        """The log names a word that is no option, or a value out of range, and the call fails."""
        for word in BAD_OPTIONS:
            said = self.check(YES, Pam.SERVICE_ERR, options=word)
            self.assertEqual((said.prompts, said.logs), ([], [f"bad option: {word}"]))
        for word in GOOD_OPTIONS:
            self.check(YES, Pam.SUCCESS, VERIFY, options=word)
        self.check(YES, Pam.AUTHINFO_UNAVAIL, options=LONG[:-1])

    def test_first_passwords(self) -> None:
        """use_first_pass, try_first_pass and use_authtok, as pam_unix has them."""
        for word in ("use_first_pass", "try_first_pass"):
            service = f"auth required {{module}}\nauth required {{module}} {word}\n"
            said = self.check(YES, Pam.SUCCESS, VERIFY, VERIFY, service=service)
            self.assertEqual(len(said.prompts), 1, word)
        said = self.check(YES, Pam.SUCCESS, VERIFY, options="try_first_pass")
        self.assertEqual(len(said.prompts), 1)
        for task, options, lines, prompts in (
            ("authenticate", "use_first_pass", [], 0),
            ("change", "use_authtok", [KNOWN, VERIFY, KNOWN], 1),  # there was no new password
        ):
            said, sent = said_at(YES, Question(tasks=task, options=options, answers=FRESH))
            self.assertNotIn(said.codes[0], (Pam.SUCCESS, Pam.AUTHINFO_UNAVAIL))
            self.assertEqual((sent, len(said.prompts)), (lines, prompts), options)

    def test_conversations(self) -> None:
        """After a conversation that fails, or isn't over, the module sends nothing."""
        for task in ("authenticate", "change"):
            said, lines = said_at(YES, Question(tasks=task, answers=()))
            self.assertNotIn(said.codes[0], (Pam.SUCCESS, Pam.AUTHINFO_UNAVAIL, Pam.TRY_AGAIN))
            self.assertEqual([it for it in lines if b"known" not in it], [], task)
        # pam_get_authtok(3) makes a fault of a conversation that isn't over; pam_get_user(3)
        # doesn't.
        for user, code, prompt in (
            ("-", Pam.INCOMPLETE, "login:"),
            ("ada", Pam.AUTHTOK_ERR, "Password: "),
        ):
            said = self.check(YES, code, user=user, answers=(), environment={"AGAIN": "1"})
            self.assertEqual(said.prompts, [prompt])

    def test_changes(self) -> None:
        """The module first verifies the old password, and then sends old and new together."""
        first, both = [VERIFY], [VERIFY, line_of("change", "ada", b"secret", b"fresh")]
        for verify, change, ought, lines in (
            (b"yes", b"replaced", Pam.SUCCESS, both),
            (b"yes", b"wrong", Pam.AUTHTOK_ERR, both),
            (b"yes", b"noaccount", Pam.USER_UNKNOWN, both),
            (b"yes", b"absent", Pam.AUTHTOK_ERR, both),
            (b"yes", b"unavailable", Pam.AUTHINFO_UNAVAIL, both),
            (b"yes", b"later", Pam.MAXTRIES, both),
            (b"no", b"replaced", Pam.AUTH_ERR, first),
            (b"noaccount", b"replaced", Pam.USER_UNKNOWN, first),
            (b"later", b"replaced", Pam.MAXTRIES, first),
            (b"unavailable", b"replaced", Pam.TRY_AGAIN, first),
        ):
            said, sent = changed(FRESH, verify, change)
            self.assertEqual((said.codes, sent), ([ought], lines), f"{verify!r}, {change!r}")
            self.assertEqual(said.prompts[:1], ["Current password: "])

    def test_new_passwords(self) -> None:
        """The module sends no new password that is empty, too long, or typed in two ways; the
        longest ones fit."""
        for fresh in ((b"", b""), (b"x" * 257, b"x" * 257), (b"fresh", b"other")):
            said, sent = changed((b"secret", *fresh))
            self.assertNotEqual(said.codes[0], Pam.SUCCESS)
            self.assertEqual(sent, [VERIFY], fresh)
        mail = {"user": "x" * 240 + "@" + "y" * 13, "options": "mail_names"}
        for given, question in (
            (FRESH, {}),
            ((b"secret", *LONGEST[1:]), {}),
            (LONGEST, {}),
            (LONGEST, mail),
        ):
            said, sent = changed(given, **question)
            line = line_of("change", question.get("user", "ada"), *given[:2])
            self.assertEqual((said.codes, sent[1:]), ([Pam.SUCCESS], [line]))

    def test_expired_passwords(self) -> None:
        """If the book's password needn't change, the module asks for the new password for the next
        module."""
        service = "password [ignore={} default=die] {{module}}\npassword required pam_{}.so\n"
        prompts = ["New password: ", "Retype new password: "]
        for answer in (YES, b"1 absent\n", b"1 noaccount\n", b"1 unavailable\n"):
            for given, ought in (
                ((b"fresh", b"fresh"), Pam.SUCCESS),
                ((b"fresh", b"other"), Pam.TRY_AGAIN),
            ):
                question = {"service": service.format("ignore", "permit"), "answers": given}
                said = self.check(answer, ought, KNOWN, KNOWN, task="expired", **question)
                self.assertEqual(said.prompts[:2], prompts)
        for options, given in (("use_authtok", (b"fresh", b"fresh")), ("frob", (b"x", b"x"))):
            said, lines = said_at(YES, Question(tasks="expired", options=options, answers=given))
            self.assertNotIn(said.codes[0], (Pam.SUCCESS, Pam.AUTHINFO_UNAVAIL))
            sent = [KNOWN] if options == "use_authtok" else []
            self.assertEqual((lines, said.prompts), (sent, []), options)

    def test_a_book_that_demands_a_change(self) -> None:
        """A right password lets the user in, `account` demands a new one, and a change sets it."""
        self.check(b"1 expired\n", Pam.SUCCESS, VERIFY)
        self.check(b"1 expired\n", Pam.NEW_AUTHTOK_REQD, KNOWN, task="account")
        self.check(b"1 expired\n", Pam.AUTH_ERR, KNOWN, answers=[b"x" * 257])
        change = line_of("change", "ada", b"secret", b"fresh")
        for task, known in (("change", [KNOWN]), ("expired", [KNOWN, KNOWN])):
            for word, ought in ((b"replaced", Pam.SUCCESS), (b"expired", Pam.AUTHINFO_UNAVAIL)):
                expired, changed_to = b"1 expired\n", b"1 " + word + b"\n"
                with peer(answers(known=expired, verify=expired, change=changed_to)) as server:
                    said = asked(Question(tasks=task, answers=FRESH), server.path)
                self.assertEqual(said.codes, [ought], task)
                self.assertEqual(server.lines, [*known, VERIFY, *known, change])

    def test_refused_passwords(self) -> None:
        """The module tells the user why the server refuses a new password."""
        for answer, why in (
            (b"short", "The new password is too short."),
            (b"same", "The new password is the old one."),
            (b"bad 19 disk", "The server's disk is full: the password stays as it was."),
        ):
            said, sent = changed(FRESH, change=answer)
            self.assertEqual((said.codes, len(sent)), ([Pam.AUTHTOK_ERR], 2))
            self.assertIn(why, said.prompts)

    def test_names_of_another_module(self) -> None:
        """At a name that the book lacks the module asks only for the new password, for a later
        module with use_authtok."""
        service = (
            "password [success=done user_unknown=ignore try_again=ignore default=die] {module}\n"
        )
        service += "password required pam_permit.so\n"
        question = {"service": service, "answers": (b"fresh", b"fresh")}
        said = self.check(b"1 noaccount\n", Pam.SUCCESS, KNOWN, KNOWN, task="change", **question)
        self.assertEqual(said.prompts, ["New password: ", "Retype new password: "])
        said = asked(Question(tasks="change", **question), ROOM / "nothing-here")  # it is down
        self.assertEqual((said.codes, len(said.prompts)), ([Pam.SUCCESS], 2))
