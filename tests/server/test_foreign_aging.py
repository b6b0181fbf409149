"""Tests of bin/credkeep-server: users of an old file whom dates or fields of Dovecot bar."""

from foreign_case import MAKERS, ForeignCase, made_by
from served import TOP
from tests.helpers import ended

ASK = str(TOP / "bin/credkeep-ask")

# Fields behind a record of whom nobody lets in, and the reason in the log.
SHUT_OUT = {
    "ended": (":19000:0:99999:7::1:", "the account has expired"),
    "ended.first": (":0:0:99999:7::1:", "the account has expired"),
    "ended.day0": (":19000:0:99999:7::0:", "the account has expired"),
    "ended.old": (":19000:0:99999:7::1", "the account has expired"),
    "inactive": (":1:0:30:7:14::", "the password has expired"),
    "end": (":19000:0:99999:7::never:", "a date that isn't a number"),
    "changed": (":x:0:99999:7:::", "a date that isn't a number"),
    "most": (":19000:0:1e9:7:::", "a date that isn't a number"),
    "long": (f":19000:0:99999:7::{'9' * 5000}:", "a date that isn't a number"),
    "mail": (":1000:1000::/home/mail::nologin", "nologin"),
    "value": (":1000:1000::/home/mail::userdb_mail=maildir:~/x nologin=y", "nologin"),
    "nets": (":1000:1000::/home/mail::allow_nets=127.0.0.1", "allow_nets"),
    "none": (":1000:1000::/home/mail::noauthenticate", "noauthenticate"),
}
# The reasons that count for who has moved too.
OF_BARS = {"the account has expired", "nologin", "allow_nets", "noauthenticate"}


class ForeignAging(ForeignCase):
    def test_who_is_shut_out(self) -> None:
        """A user whom /etc/shadow, Dovecot or a remark bars never gets in or moves; the log has the
        reason."""
        record, lines = made_by(MAKERS["sha512crypt"], "secret"), []
        for name, (fields, _) in SHUT_OUT.items():
            lines.append(f"{name}:{record}{fields}")
        self.file.write_text(
            "\n".join([*lines, f"locked:!{record}:1:::::::", f"#zoe:{record}", ""])
        )
        service = self.over("--tries", "0")
        service.talk("login verify zoe {secret} -> noaccount\nlogin known zoe -> noaccount")
        service.talk("login verify locked {secret} -> no")
        for name, (_, why) in SHUT_OUT.items():
            with self.subTest(name, why=why):
                self.assertIn(f"{name} ({why})", service.log())
                service.talk(
                    f"""
                    login known {name} -> absent
                    login verify {name} {{secret}} -> no
                    login change {name} {{secret}} {{fresh}} -> wrong
                    admin show {name} -> {"!" if why in OF_BARS else "bad 5 noaccount"}
                    admin lock {name} -> locked
                    admin show {name} -> !
                    """
                )
        self.assertEqual(self.gone(), [])

    def test_values_with_a_colon(self) -> None:
        """A line of Dovecot's with a colon in an extra field has as many fields as shadow(5)'s."""
        record = made_by(MAKERS["sha512crypt"], "secret")
        fields = {
            "ada": "1000:1000::/home/ada::userdb_mail=maildir:~/Maildir",
            "bob": "1000:1000::::userdb_quota_rule=*:storage=1G",
        }
        self.file.write_text("".join(f"{it}:{record}:{of}\n" for it, of in fields.items()))
        service = self.over("--tries", "0")
        for name in fields:
            service.talk(f"login verify {name} {{wrong}} -> no")
            service.talk(f"login verify {name} {{secret}} -> yes")

    def test_barred_names_of_no_book(self) -> None:
        """`marks` lists no barred name that no book can have, since its answer has names of a
        book."""
        names = ("more=5", "a b", "caf\u00e9", "ada", "b" * 33)
        self.file.write_text("".join(f"{it}:x:::::x=y nologin=1\n" for it in names))
        service = self.over()
        service.talk("admin marks - 10 -> marks ada:!")
        ask = [ASK, "--server", str(service.path("admin"))]
        self.assertEqual(ended([*ask, "marks"]), (0, "ada:locked\n", ""))

    def test_who_must_change(self) -> None:
        """A right password is `expired` until it is changed: on the day 0, or if it is too old."""
        record = made_by(MAKERS["sha512crypt"], "secret")
        fields = {"ada": "0:0:99999:7:::", "bob": "1:0:90:7:::", "cid": "1::9", "dan": ":::7:::"}
        self.file.write_text("".join(f"{it}:{record}:{of}\n" for it, of in fields.items()))
        folder = self.room()
        service = self.over("--tries", "0", folder=folder)
        service.talk("login known dan -> yes\nlogin verify dan {secret} -> yes")
        for name in ("ada", "bob", "cid"):
            service.talk(
                f"""
                login known {name} -> expired
                admin lock {name} -> locked
                login known {name} -> absent
                admin unlock {name} -> unlocked
                login verify {name} {{wrong}} -> no
                login verify {name} {{secret}} -> expired
                login verify {name} {{secret}} -> expired
                """
            )
        service.stop()
        self.over("--tries", "0", folder=folder).talk(
            """
            admin marks - 10 -> marks ada:~ bob:~ cid:~
            login verify ada {secret} -> expired
            login change ada {secret} {fresh} -> replaced
            login verify ada {fresh} -> yes
            admin reset bob {fresh} -> replaced
            login verify bob {fresh} -> yes
            """
        )

    def test_changed_at_once(self) -> None:
        """A user who must change may do so by the first line, and an administrator's `reset` is a
        change."""
        record = made_by(MAKERS["sha512crypt"], "secret")
        self.file.write_text("".join(f"{it}:{record}:0:0:99999:7:::\n" for it in ("ada", "bob")))
        self.over().talk(
            """
            login change ada {secret} {secret} -> same
            login change ada {secret} {fresh} -> replaced
            login verify ada {fresh} -> yes
            admin reset bob {fresh} -> enrolled
            login verify bob {fresh} -> yes
            admin marks - 10 -> marks
            """
        )

    def test_an_end_that_comes(self) -> None:
        """The day on which an account ends counts for who has moved before it too, for as long as
        the file has it."""
        record = made_by(MAKERS["sha512crypt"], "secret")
        self.file.write_text(
            "".join(f"{it}:{record}:1:0:99999:7::1000:\n" for it in ("ada", "bob"))
        )
        service = self.over("--tries", "0", clocked=True)
        service.talk("login verify ada {secret} -> yes\nlogin known bob -> yes")
        service.set_clock(1000 * 86400 - 1)
        service.talk("login verify ada {secret} -> yes")
        service.set_clock(1000 * 86400)
        for name in ("ada", "bob"):
            service.talk(f"login verify {name} {{secret}} -> no\nlogin known {name} -> absent")
            service.talk(f"login change {name} {{secret}} {{fresh}} -> wrong")
        self.file.rename(self.folder / "away")  # it bars them while it is put back, too
        service.talk("login verify ada {secret} -> no")
        (self.folder / "away").rename(self.file)
        service.talk("admin marks - 10 -> marks ada:! bob:!")  # so that an export leaves them out
        for name in ("ada", "bob"):
            done = ended([ASK, "--server", str(service.path("admin")), "check", name])
            self.assertEqual(done, (4, "locked\n", ""))
        self.file.write_text(f"ada:{record}:1:0:99999:7:::\n")
        service.talk("login known ada -> yes\nlogin verify ada {secret} -> yes")
