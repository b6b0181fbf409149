"""Forms, views, the admin and the command, as a browser and an operator use them."""

import contextlib
import io
from unittest import mock

import project  # noqa: F401: Django, set up
from django.conf import settings
from django.contrib import admin
from django.contrib.auth import authenticate
from django.contrib.auth import forms as djangos_forms
from django.contrib.auth import urls as djangos_urls
from django.contrib.auth.management.commands import changepassword
from django.contrib.auth.models import User
from django.contrib.auth.tokens import default_token_generator
from django.core.exceptions import ValidationError
from django.core.management import CommandError, call_command
from django.db import connections
from django.db.models.signals import pre_save
from django.test import TestCase, TransactionTestCase, override_settings
from django.urls import path
from django.utils.encoding import force_bytes
from django.utils.http import urlsafe_base64_encode
from meanwhile import Ann, Cheap, Router, cheap, comparing, connected, is_right, meanwhile, stands

import rigzumal
from rigzumal.django import forms, passwords, urls, users
from rigzumal.django.site import AdminSite
from tests.helpers import each

NEW = "Nq7-xx!zz"
GIVEN = {"old_password": "old", "new_password1": NEW, "new_password2": NEW}
BY_ADMIN = {"password1": NEW, "password2": NEW}
CHANGED = "password has changed meanwhile"


class Forms(Ann, TestCase):
    def valid(self, form, given=GIVEN):
        """The form, with the user as in the database, whose password is "old"."""
        self.reset("old")
        found = form(User.objects.get(), given)
        self.assertTrue(found.is_valid(), found.errors)
        return found

    @each(
        (forms.PasswordChangeForm, GIVEN, "password_incorrect"),
        (forms.AdminOwnPasswordChangeForm, GIVEN, "password_incorrect"),
        (forms.SetPasswordForm, GIVEN, "password_changed"),
        (forms.AdminPasswordChangeForm, BY_ADMIN, "password_changed"),
        (djangos_forms.PasswordChangeForm, GIVEN, None),
        (djangos_forms.SetPasswordForm, GIVEN, None),
        (djangos_forms.AdminPasswordChangeForm, BY_ADMIN, None),
    )
    def test_each(self, form, given, code):
        """Each form sets the password, unless another was set after the form was validated. With a
        model that compares, Django's own forms raise an exception."""
        with comparing() if code is None else contextlib.nullcontext():
            found = self.valid(form, given)
            if code:
                self.assertRaises(ValueError, found.save, commit=False)
                self.assertTrue(self.right("old"))
            self.assertEqual(found.save(), self.ann)
            self.assertTrue(self.right(NEW))
            found = self.valid(form, given)
            self.reset("reset")
            with self.assertRaises((ValidationError, passwords.RecordChanged)) as caught:
                found.save()
        self.assertEqual(getattr(caught.exception, "code", None), code)
        self.assertTrue(self.right("reset"))

    @each((False, 2), (True, 4))
    def test_a_change_costs_two_hashes(self, is_reset, hashes):
        """A change costs two hashes, as in Django: it checks the old password once, if its record
        is still in the row."""
        self.reset("old")
        with mock.patch.object(rigzumal, "argon2", side_effect=rigzumal.argon2) as hashed:
            form = forms.PasswordChangeForm(User.objects.get(), GIVEN)
            self.assertTrue(form.is_valid())
            if is_reset:  # to the same password, by another record
                made = hashed.call_count
                self.reset("old")
                hashes += hashed.call_count - made
            form.save()
        self.assertEqual(hashed.call_count, hashes)
        self.assertTrue(self.right(NEW))

    def test_the_old_password_is_judged_at_what_stands(self):
        """The user may come from a replica that lags. Nothing is upgraded."""
        lagging = User.objects.get()
        self.reset("new")
        before = stands(self.ann)
        with cheap(memory=128):
            wrong = forms.PasswordChangeForm(lagging, GIVEN)
            self.assertFalse(wrong.is_valid())
            form = forms.PasswordChangeForm(lagging, {**GIVEN, "old_password": "new"})
            self.assertTrue(form.is_valid())
        self.assertEqual(wrong.errors.as_data()["old_password"][0].code, "password_incorrect")
        self.assertEqual(stands(self.ann), before)
        form.save()
        self.assertTrue(self.right(NEW))

    def test_the_admins_button_that_takes_a_password_away(self):
        """The admin's button that removes a password exists from Django 5.1 on, and cleans to
        this."""
        form = self.valid(forms.AdminPasswordChangeForm, BY_ADMIN)
        form.cleaned_data["set_usable_password"] = False
        form.save()
        self.assertFalse(User.objects.get().has_usable_password())


class Views(Ann, TestCase):
    """The views, through Django's client, which would raise a fault of the server."""

    given = {"is_staff": True}

    def setUp(self):
        super().setUp()
        self.client.force_login(self.ann)

    def test_the_names_are_djangos(self):
        def names(module):
            return [(it.name, str(it.pattern)) for it in module.urlpatterns]

        self.assertEqual(names(urls), names(djangos_urls))

    @each("/accounts/password_change/", "/admin/password_change/")
    def test_a_change(self, change):
        """A form that fails doesn't undo a reset either; Django's own form would upgrade the old
        record."""
        bad = {**GIVEN, "new_password2": "another"}
        for given, text in ((GIVEN, "old password was entered incorrectly"), (bad, "")):
            self.reset("old")
            self.client.force_login(User.objects.get())
            self.assertEqual(self.client.get(change).status_code, 200)
            with cheap(memory=128), meanwhile(lambda: self.reset("reset")):
                page = self.client.post(change, given)
            self.assertContains(page, text)
            self.assertTrue(self.right("reset"))
        self.client.force_login(User.objects.get())
        page = self.client.post(change, {**GIVEN, "old_password": "reset"})
        self.assertRedirects(page, change + "done/", fetch_redirect_response=False)
        self.assertTrue(self.right(NEW))
        self.assertEqual(self.client.get(change).status_code, 200)  # logged in yet
        self.reset("old")
        self.client.force_login(User.objects.get())
        with self.lost(8):
            self.assertContains(self.client.post(change, GIVEN), CHANGED)

    def link(self):
        """The address of a link for a reset."""
        token = default_token_generator.make_token(User.objects.get())
        link = f"/accounts/reset/{urlsafe_base64_encode(force_bytes(self.ann.pk))}/{token}/"
        return self.client.get(link, follow=True).redirect_chain[-1][0]

    def test_a_reset(self):
        link = self.link()
        with self.lost():
            self.assertContains(self.client.post(link, GIVEN), CHANGED)
        self.assertRedirects(self.client.post(self.link(), GIVEN), "/accounts/reset/done/")
        self.assertTrue(self.right(NEW))

    def test_a_view_and_a_middleware_that_go_on_with_the_user(self):
        """A view and a middleware save the user after the change."""
        with override_settings(MIDDLEWARE=[*settings.MIDDLEWARE, "urls.last_seen"]):
            self.client.post("/accounts/password_change/", GIVEN)
            self.assertTrue(self.right(NEW))
            self.assertEqual(User.objects.get().last_name, "seen")
            page = self.client.post("/later/", {"old": NEW, "new": "new"})
        self.assertEqual(page.content, b"True")
        self.assertEqual(User.objects.get().get_full_name(), "later seen")
        self.assertTrue(self.right("new"))


class ComparingViews(Views):
    """The views with a stock User that compares, by the setting RIGZUMAL_USER_COMPARES."""

    around = comparing


class RoutedViews(Views):
    """The views with a router that looks at its model."""

    databases = {"default", "other"}

    def around():
        return override_settings(DATABASE_ROUTERS=[Router("default", "default")])


class AtomicViews(Views):
    """The views within a transaction for each request."""

    def around():
        return mock.patch.dict(connections["default"].settings_dict, ATOMIC_REQUESTS=True)


class Second(AdminSite):
    """A project's own site, with a page of its own for a change."""

    password_change_template = "registration/password_change_done.html"

    def password_change(self, request, extra_context=None):
        return super().password_change(request, {"of_the_project": 1})


class SecondSite(Cheap, TestCase):
    urlpatterns = [path("admin/", admin.site.urls), path("second/", Second("second").urls)]

    def test_a_projects_own_site(self):
        self.ann = User.objects.create_superuser("root", password="old")
        self.client.force_login(self.ann)
        change = "/second/password_change/"
        with override_settings(ROOT_URLCONF=SecondSite):
            page = self.client.get(change)
            self.assertTemplateUsed(page, Second.password_change_template)
            self.assertEqual(page.context["of_the_project"], 1)
            page = self.client.post(change, GIVEN)
        self.assertRedirects(page, change + "done/", fetch_redirect_response=False)
        self.assertTrue(self.right(NEW))


class Admin(Ann, TestCase):
    """An administrator, while the user or a thief does something."""

    def setUp(self):
        super().setUp()
        self.client.force_login(User.objects.create_superuser("root", password="root"))
        self.page = f"/admin/auth/user/{self.ann.pk}/"

    def edit(self, **how):
        """Posts the form of a user's other fields."""
        form = {"username": "ann", "email": "a@new.org", "is_active": "on"}
        form |= {"date_joined_0": "2026-01-01", "date_joined_1": "00:00:00"}
        return self.client.post(f"{self.page}change/", form, **how)

    def test_an_edit_of_another_field_leaves_the_password(self):
        def change(sender, instance, **_):
            user = User.objects.get(pk=instance.pk)
            self.assertTrue(passwords.change_password(user, "old", "new"))

        connected(self, pre_save, change, User)
        self.assertEqual(self.edit().status_code, 302)
        self.assertTrue(self.right("new"))
        self.assertEqual(User.objects.get(pk=self.ann.pk).email, "a@new.org")

    def test_it_sets_a_password(self):
        """The admin sets a password, and shows an error if the password was changed meanwhile; the
        next form has none."""
        change = f"{self.page}password/"
        self.assertEqual(self.client.get(change).status_code, 200)
        with self.lost(password="reset"):
            page = self.client.post(change, BY_ADMIN, follow=True)
        self.assertContains(page, CHANGED)
        self.assertNotContains(page, NEW)
        self.assertEqual(self.client.post(change, BY_ADMIN).status_code, 302)
        self.assertTrue(self.right(NEW))

    def test_users_are_added(self):
        self.client.post("/admin/auth/user/add/", {"username": "ben", **BY_ADMIN})
        self.assertTrue(is_right(User.objects.get(username="ben"), NEW))

    def test_a_form_of_a_projects_own_sets_the_password(self):
        """A project's own form sets the password: its field is the password's, and `changed_data`
        has it."""
        form = mock.Mock(changed_data=["password"])
        self.ann.set_password("by a form")
        admin.site._registry[User].save_model(None, self.ann, form, True)
        self.assertTrue(self.right("by a form"))

    def test_a_lost_save_of_a_projects_own_is_a_message(self):
        ours = type(admin.site._registry[User])
        with mock.patch.object(ours, "save_model", side_effect=passwords.RecordChanged):
            page = self.edit(follow=True)
        self.assertEqual(page.redirect_chain, [(f"{self.page}change/", 302)])
        self.assertContains(page, CHANGED)
        self.assertEqual([it.level_tag for it in page.context["messages"]], ["error"])


class ComparingAdmin(Admin):
    """The admin with a stock User that compares."""

    around = comparing


class Command(Ann, TransactionTestCase):
    """`manage.py changepassword`."""

    def call(self, *typed, name="ann", act=lambda: None):
        typed, out = iter(typed), io.StringIO()

        def type_(command, prompt=""):
            act()
            return next(typed)

        # It is the command that `manage.py` finds by this name.
        with mock.patch.object(changepassword.Command, "_get_pass", type_):
            call_command("changepassword", name, stdout=out, stderr=out)
        return out.getvalue()

    def test_it_sets_a_password(self):
        said = self.call("one", "another", NEW, NEW)
        self.assertIn("do not match", said)
        self.assertIn("Password changed successfully", said)
        self.assertTrue(self.right(NEW))

    def test_a_login_that_comes_between_is_an_error(self):
        def login():
            with cheap(memory=128):
                self.assertEqual(authenticate(username="ann", password="old"), self.ann)

        with self.assertRaisesMessage(CommandError, "changed meanwhile") as caught:
            self.call(NEW, NEW, act=login)
        self.assertNotIn(NEW, str(caught.exception))
        self.assertTrue(self.right("old"))
        self.assertFalse(issubclass(User, users.CompareAndSetMixin))  # as it was before
