"""Tests of the dependence on secrets in the builds for older processors: some minutes each."""

import unittest

from leaks import check_leaks


class OlderBuilds(unittest.TestCase):
    def test_v1(self):
        """No branch and no address depends on a secret, except by design."""
        check_leaks("v1")

    def test_v2(self):
        check_leaks("v2")
