"""tools/debian_packages.py: the state of a machine after it ran."""

import signal
import subprocess
import sys

from tests.helpers import TOP, Case, each

# Stands in the place of an installation until a line is read.
HELD = """
import pathlib, sys
sys.path.insert(0, sys.argv[1])
import debian_packages
debian_packages.POLICY = pathlib.Path(sys.argv[2])
with debian_packages.no_services():
    print(debian_packages.POLICY.exists(), flush=True)
    sys.stdin.readline()
"""


class Policy(Case):
    @each(signal.SIGTERM, signal.SIGHUP, signal.SIGINT, None)
    def test_taken_back(self, number: int | None) -> None:
        """Services start again after an installation, one that a signal ends too."""
        policy = self.room() / "policy-rc.d"
        held = subprocess.Popen(
            [sys.executable, "-c", HELD, str(TOP / "tools"), str(policy)],
            stdin=subprocess.PIPE,
            stdout=subprocess.PIPE,
            stderr=subprocess.DEVNULL,
            text=True,
        )
        self.assertEqual(held.stdout.readline(), "True\n")
        if number:
            held.send_signal(number)
        # Without a line the reading ends too, since the signal may have come just before it.
        held.communicate("\n" if number is None else None)
        self.assertEqual(held.returncode == 0, number is None)
        self.assertFalse(policy.exists())
