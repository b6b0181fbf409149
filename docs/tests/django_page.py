"""Tests to copy into a project with docs/DJANGO.md's settings; test_pages.py runs them in new
projects."""

from django.contrib.auth import authenticate, get_user_model, hashers
from django.test import TestCase
from rigzumal.django import passwords


class PasswordTests(TestCase):
    def setUp(self):
        self.ann = get_user_model().objects.create_user("ann", password="old password")

    def elsewhere(self, password):
        """Another process sets the password."""
        get_user_model().objects.update(password=hashers.make_password(password))

    def test_a_stale_user_brings_no_old_password_back(self):
        self.elsewhere("reset")
        self.ann.first_name = "Ann"
        self.ann.save()
        self.assertIsNone(authenticate(username="ann", password="old password"))
        self.assertIsNotNone(authenticate(username="ann", password="reset"))

    def test_a_lost_save_is_an_exception(self):
        self.ann.set_password("mine")
        self.elsewhere("reset")
        with self.assertRaises(passwords.RecordChanged):
            self.ann.save()
        self.assertIsNotNone(authenticate(username="ann", password="reset"))
