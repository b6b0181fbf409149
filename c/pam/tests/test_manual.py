"""The manual of the PAM module beside the source: the options, and their defaults and bounds."""

import re
import unittest

from driven import TOP

SOURCE = (TOP / "pam_rigzumal.c").read_text()
MANUAL = (TOP.parent.parent / "man/pam_rigzumal.8").read_text()
(READER,) = re.findall(r"^static bool read_option\(.*?^}", SOURCE, re.M | re.S)
READ = re.findall(r'\bstrn?cmp\(word, "([a-z_]+=?)"', READER)
(OPTIONS,) = re.findall(r"^\.SH OPTIONS\n(.*?)^\.SH ", MANUAL, re.M | re.S)


class Manual(unittest.TestCase):
    def test_options(self) -> None:
        """The manual has exactly the options that the module reads."""
        heads = "\n".join(re.findall(r"^\.IP (.*)$", OPTIONS, re.M))
        told = re.findall(r"\\fB([^\\]+)\\fP", heads)
        self.assertIn("socket=", READ)
        self.assertEqual(sorted(told), sorted(READ))

    def test_options_elsewhere(self) -> None:
        """Each option that another section names in bold is one of them too."""
        bold = {*re.findall(r"\\fB([a-z]+_[a-z_]+|[a-z]+(?==))", MANUAL)}
        bold -= {"pam_rigzumal", "pam_unix", "authinfo_unavail"}
        self.assertEqual(bold - {it.rstrip("=") for it in READ}, set())

    def test_values(self) -> None:
        """The defaults of the socket and of the time limit, and its bounds."""
        (path, default) = re.findall(r'\{\.socket = "(.*?)", \.seconds = (\d+)\}', SOURCE)[0]
        (least,) = re.findall(r"seconds >= (\d+)", SOURCE)
        (most,) = re.findall(r"seconds <= (\d+)", SOURCE)
        self.assertIn(f"server's socket (\\fI{path}\\fP by default).\n", OPTIONS)
        self.assertIn(f" in seconds, {least} to {most} ({default} by default).\n", OPTIONS)
