"""The dates of lines of /etc/shadow, as pam_unix itself judges them."""

import importlib
import pathlib
import random

from served import Case, need, need_root
from tests.helpers import run

SAYS = {
    "account management done": "open",
    "Authentication token is no longer valid; new one required": "change",
    "Authentication token expired": "shut",
    "User account has expired": "shut",
    "Authentication service cannot retrieve authentication info": "shut",
}
COUNT = 120


class Aging(Case):
    def test_as_pam_unix(self) -> None:
        """Random dates near today, the borders of a password's age, and texts that are no
        number."""
        need_root()
        need("pamtester", "unshare", "mount")
        aging = importlib.import_module("daemon.aging")
        day, room = aging.today(), self.room()
        near = [str(day + it) for it in (-31, -30, -29, -1, 0, 1)]
        dates = ["", "", "0", "1", *near, "-1", "x", "99999"]
        ages = ["", "", "0", "1", "29", "30", "31", "99999"]
        words = dict[str, list[str]]()
        for at in range(COUNT):
            chosen = [random.choice(it) for it in (dates, [""], ages, ["7"], ages)]
            words[f"u{at}"] = [*chosen, random.choice(["", "", *dates]), ""]
        lines = [f"{name}:$6$x$y:{':'.join(fields)}\n" for name, fields in words.items()]
        users = [f"{name}:x:{3000 + at}:100::/:/bin/sh\n" for at, name in enumerate(words)]
        for file, added in (("passwd", users), ("shadow", lines)):
            (room / file).write_text(pathlib.Path("/etc", file).read_text() + "".join(added))
        (room / "pam.d").mkdir()
        (room / "pam.d/x").write_text("account required pam_unix.so\n")
        script = "".join(f"mount --bind {it} /etc/{it} && " for it in ("passwd", "shadow", "pam.d"))
        each = "pamtester x u$it acct_mgmt 2>&1 | tail -n 1"
        script += f"for it in $(seq 0 {COUNT - 1}); do {each}; done"
        said = run("unshare", "-m", "sh", "-c", f"{script}; true", at=room).splitlines()
        said = [it.removeprefix("pamtester: ").rstrip(".") for it in said]
        self.assertEqual(len(said), COUNT)
        for text, (name, fields) in zip(said, words.items()):
            line = aging.Line(b"$6$x$y", tuple(it.encode() for it in fields))
            is_shut, must_change = line.why_shut(day), line.must_change(day)
            if is_shut:
                ours = "shut"
            else:
                ours = "change" if must_change else "open"
            self.assertEqual(ours, SAYS[text], fields)
