"""The code of docs/DJANGO.md in a project with its own user model: test_pages.py writes this file
into the project as people/tests.py, with the page's calls beside it."""

import pathlib
from types import SimpleNamespace

from django.conf import settings
from django.contrib import admin
from django.contrib.auth import authenticate, hashers
from django.core import checks
from django.test import TestCase, override_settings
from django.urls import resolve, reverse
from people.hashers import Argon2OverMD5, wrap
from people.models import User
from rigzumal.django import passwords


class SamplesTest(TestCase):
    def setUp(self):
        self.user = User.objects.create_user("ann", password="first")

    def assertStored(self, password):
        self.assertTrue(User.objects.get().check_password(password))

    def test_settings(self):
        """Only the page's hashers work, since argon2-cffi isn't installed. The checks find nothing,
        the URLs have Django's names, and the admin knows the model."""
        for algorithm in ("argon2", "scrypt"):
            hasher = type(hashers.get_hasher(algorithm))
            self.assertEqual(hasher.__module__, "rigzumal.django.hashers")
        self.assertEqual(authenticate(username="ann", password="first"), self.user)
        self.assertIsNone(authenticate(username="ann", password="another"))
        errors = [it for it in checks.run_checks() if it.id.startswith("rigzumal")]
        self.assertEqual(errors, [])
        view = resolve(reverse("password_change")).func.view_class
        for theirs in (view, type(admin.site._registry[User])):
            self.assertTrue(theirs.__module__.startswith("rigzumal.django."), theirs)

    def test_a_guess_at_a_record_of_old_costs(self):
        """A guess leaves a record with old costs; only the right password replaces it."""
        old = hashers.make_password("first", hasher="pbkdf2_sha256")
        for login in (
            lambda password: authenticate(username="ann", password=password),
            lambda password: User.objects.get().check_password(password),
            lambda password: passwords.check_password(User.objects.get(), password),
        ):
            User.objects.update(password=old)
            self.assertFalse(login("another"))
            self.assertEqual(User.objects.get().password, old)
            self.assertTrue(login("first"))
            self.assertTrue(User.objects.get().password.startswith("argon2$"))
            self.assertStored("first")

    def test_own_costs(self):
        """The next login rehashes a record of ours."""
        own = ["people.hashers.Argon2", "rigzumal.django.hashers.ScryptPasswordHasher"]
        with override_settings(PASSWORD_HASHERS=own):
            self.assertIsNotNone(authenticate(username="ann", password="first"))
        self.assertIn("$m=19456,t=2,p=1$", User.objects.get().password)

    def test_wrapped_records(self):
        """Wrapped records accept only the right password, and a login with it rehashes them."""
        md5 = hashers.MD5PasswordHasher
        listed = [f"{md5.__module__}.{md5.__qualname__}", "people.hashers.Argon2OverMD5"]
        for salt in (md5().salt(), "abcde"):
            with override_settings(PASSWORD_HASHERS=[*settings.PASSWORD_HASHERS, *listed]):
                old = md5().encode("first", salt)
                User.objects.update(password=old)
                wrap()
                wrapped = User.objects.get().password
                self.assertTrue(wrapped.startswith(f"{Argon2OverMD5.algorithm}$argon2id$"))
                self.assertNotIn(old.rpartition("$")[2], wrapped)
                for guess in ("another", old, old.rpartition("$")[2]):
                    self.assertIsNone(authenticate(username="ann", password=guess))
                self.assertEqual(User.objects.get().password, wrapped)
                self.assertIsNotNone(authenticate(username="ann", password="first"))
            self.assertTrue(User.objects.get().password.startswith("argon2$argon2id$"))
            self.assertStored("first")

    def test_views(self):
        """The page's calls in a view: each line runs by itself."""
        change, reset = pathlib.Path("views").read_text().splitlines()
        request = SimpleNamespace(user=self.user)
        names = {"passwords": passwords, "request": request, "user": self.user}
        for call, old, new, answer, right in (
            (change, "wrong", "second", False, "first"),
            (change, "first", "second", True, "second"),
            (reset, None, "third", None, "third"),
        ):
            self.assertIs(eval(call, {**names, "old": old, "new": new}), answer)
            self.assertStored(right)

    def test_changed(self):
        """The page's message if the password was changed meanwhile."""
        told = []
        form = SimpleNamespace(add_error=lambda *given: told.append(given))
        self.user.set_password("mine")
        User.objects.update(password=hashers.make_password("reset"))
        names = {"passwords": passwords, "user": self.user, "form": form}
        exec(pathlib.Path("changed").read_text(), names)
        ((field, text),) = told
        self.assertIsNone(field)
        self.assertIn("meanwhile", text)
        self.assertStored("reset")
