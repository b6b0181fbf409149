"""Tests of the tests' own book: it answers as credkeep does, if that is built."""

import pathlib

from served import CHEAP, FAST_BOOK, Case, real_book

DEARER, SALT = "$argon2id$v=19$m=128,t=1,p=1", "c29tZXNhbHQ"
SCRYPT = "$scrypt$ln=4,r=8,p=1"
# Settings with a salt, and refused ones without it; and the costs of a record after them.
LINES = f"""
account ada -> ok
enrol ada {{secret}} {CHEAP} -> bad 1 shape
enrol ada {{secret}} x -> bad 1 shape
enrol ada {{secret}} {CHEAP}${SALT} -> enrolled
show ada -> {CHEAP}${SALT}$
verify ada {{secret}} -> yes
verify ada {{wrong}} -> no
upgrade ada {{secret}} {CHEAP}${SALT} -> kept
upgrade ada {{secret}} {CHEAP}$YW5vdGhlcnNhbHQ -> kept
upgrade ada {{secret}} -> kept
upgrade ada {{secret}} {DEARER} -> bad 1 shape
upgrade ada {{wrong}} {DEARER}${SALT} -> wrong
upgrade ada {{secret}} {DEARER}${SALT} -> upgraded
show ada -> {DEARER}${SALT}$
verify ada {{secret}} -> yes
verify ada {{wrong}} -> no
upgrade ada {{secret}} {SCRYPT}${SALT} -> upgraded
show ada -> {SCRYPT}${SALT}$
verify ada {{secret}} -> yes
login ada {{wrong}} -> no
login ada {{secret}} -> yes
show ada -> {CHEAP}$
verify ada {{secret}} -> yes
change ada {{secret}} {{fresh}} {SCRYPT} -> bad 1 shape
change ada {{secret}} {{fresh}} {SCRYPT}${SALT} -> replaced
show ada -> {SCRYPT}${SALT}$
verify ada {{fresh}} -> yes
upgrade ada {{fresh}} -> upgraded
show ada -> {CHEAP}$
change ada {{fresh}} {{secret}} -> replaced
show ada -> {CHEAP}$
verify ada {{secret}} -> yes
reset ada {{fresh}} {DEARER}${SALT} -> replaced
show ada -> {DEARER}${SALT}$
verify ada {{fresh}} -> yes
remove ada {{secret}} -> wrong
remove ada {{fresh}} -> removed
show ada -> none
upgrade ada {{fresh}} -> absent
upgrade zoe {{fresh}} {DEARER}${SALT} -> noaccount
lock ada -> locked
show ada -> !
enrol ada {{fresh}} -> exists
reset ada {{fresh}} -> enrolled
verify ada {{fresh}} -> no
unlock ada -> unlocked
expire ada -> expired
verify ada {{fresh}} -> expired
upgrade ada {{fresh}} {DEARER}${SALT} -> expired
change ada {{fresh}} {{fresh}} -> same
change ada {{fresh}} {{secret}} -> replaced
verify ada {{secret}} -> yes
rename ada bob -> renamed
verify bob {{secret}} -> yes
disable bob -> disabled
delete bob -> deleted
"""


class Books(Case):
    def answers(self, program: pathlib.Path) -> None:
        """Asks the lines of a book; of a record only the costs, and a salt that was given."""
        service = self.serving("--setting", CHEAP, "--tries", "0", program=program)
        admin = service.client("admin")
        for row in LINES.strip().splitlines():
            line, _, ought = row.partition(" -> ")
            if not ought.endswith("$"):
                admin.talk(row)
                continue
            said = admin.ask(line)
            self.assertTrue(said.startswith(ought), f"{said} after {line}")
            self.assertRegex(said.removeprefix(ought), r"^([^$=]+\$)?[^$=]+$")

    def test_the_book_of_tests(self) -> None:
        self.answers(FAST_BOOK)

    def test_credkeep(self) -> None:
        self.answers(real_book())
