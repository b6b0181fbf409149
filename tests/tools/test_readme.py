"""tools/readme.py: which blocks of a page are sessions, and which sessions it runs."""

import sys
import unittest

from tests.helpers import TOP, each

sys.path.insert(0, str(TOP / "tools"))
import readme  # noqa: E402

SESSION, TEXT = "```sh\necho a\n```\n", "```text\na\n```\n"


class Readme(unittest.TestCase):
    @each(
        (f"{SESSION}\nwhich prints\n\n{TEXT}", "a\n"),
        (f"{SESSION}\n## Another\n\n{TEXT}", None),
        (f"{SESSION}\n```c\nint a;\n```\n{TEXT}", None),
        (SESSION, None),
    )
    def test_sessions(self, page, wanted):
        """A text belongs to the session right above, and to none that another heading or block
        parts from it."""
        self.assertEqual([*readme.sessions_of(f"# Head\n\n{page}")], [(3, "echo a\n", wanted)])

    @each(
        ("make\nsudo make install\n", False),
        ("make -C python install\n", False),
        ("apt install nginx\n", False),
        ("make programs\n", True),
    )
    def test_installs(self, script, is_run):
        """No session that installs something is run."""
        self.assertEqual(readme.missing(script, "/usr/bin") is None, is_run)
