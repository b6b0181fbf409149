"""Compares a model that has the mixin with Django's own: they differ only in races, and the mixin
calls a model's own methods."""

import itertools
from unittest import mock

import project  # noqa: F401: Django, set up
from django.contrib.auth import authenticate
from django.contrib.auth.models import AbstractUser, User
from django.core import serializers
from django.db import DatabaseError, IntegrityError, transaction
from django.db.migrations.state import ModelState, ProjectState
from django.db.migrations.writer import MigrationWriter
from django.db.models.signals import post_save, pre_save
from django.test import TestCase, TransactionTestCase, override_settings
from meanwhile import Cheap, connected, is_right, reset_elsewhere, signed_up
from meanwhile import ACTS
from users_app.models import Peppered, Person, Plain, Unmixed, Unreached

from rigzumal.django import passwords, users


def beside(expected):
    """A test that a scenario returns `expected`, with the mixin and without it."""

    def decorated(scenario):
        def test(self):
            for model in (Plain, Person):
                with self.subTest(model):
                    ann = signed_up(model, username="ann")
                    self.assertEqual(scenario(self, model, ann), expected)

        return test

    return decorated


class AsDjangos(Cheap, TransactionTestCase):
    """Apart from races, a model behaves as with AbstractUser alone."""

    @beside([None] * 4 + [{"password"}] * 2 + [{"email"}] * 2 + [{"email", "password"}] * 2)
    def test_signals(self, model, ann):
        noted = mock.Mock()
        for signal in (pre_save, post_save):
            connected(self, signal, noted, model)
        ann.save()
        ann.set_password("new")
        ann.save()
        for fields in (["password"], ["email"], ["email", "password"], []):
            ann.save(update_fields=fields)
        deferred = model.objects.defer("password").get()
        deferred.save()
        columns = {it.name for it in model._meta.concrete_fields} - {"id", "password"}
        sent = [it.kwargs["update_fields"] for it in noted.mock_calls]
        self.assertEqual(sent[10:], [columns] * 2)
        return sent[:10]

    @beside([(True, 2), (True, 3)])
    def test_clones(self, model, ann):
        found = []
        for name, given in (("ben", {"pk": None}), ("eve", {"pk": 999_999, "email": "b@b.org"})):
            for field, value in {"username": name, **given}.items():
                setattr(ann, field, value)
            ann.save()
            made = model.objects.get(username=name)
            found.append((made.check_password("old"), model.objects.count()))
        return found

    @beside(True)
    def test_who_is_gone(self, model, ann):
        """A save of a deleted user inserts her again, unless it must be an UPDATE."""
        ann.set_password("new")
        model.objects.all().delete()
        for how in ({"force_update": True}, {"update_fields": ["password"]}):
            self.assertRaisesMessage(DatabaseError, "did not affect any rows", ann.save, **how)
        ann.save()
        return is_right(ann, "new")

    @beside(True)
    def test_force(self, model, ann):
        self.assertRaises(IntegrityError, ann.save, force_insert=True)
        ann.set_password("new")
        ann.save(False, True, "default")
        for wrong in ({"force_insert": True, "force_update": True}, {"update_fields": ["nothing"]}):
            self.assertRaises(ValueError, ann.save, **wrong)
        return is_right(ann, "new")

    @beside(True)
    def test_fixtures(self, model, ann):
        text = serializers.serialize("json", [ann])
        reset_elsewhere(ann, "reset")
        for it in serializers.deserialize("json", text):
            it.save()
        return is_right(ann, "old")

    @beside(["new"])
    def test_the_validators_are_told(self, model, ann):
        with mock.patch("django.contrib.auth.password_validation.password_changed") as told:
            ann.set_password("new")
            ann.save()
            ann.save()
        return [it.args[0] for it in told.mock_calls]

    @beside(True)
    def test_a_save_that_failed(self, model, ann):
        ann.set_password("new")
        with mock.patch.object(AbstractUser, "save", side_effect=OSError("no")):
            self.assertRaises(OSError, ann.save)
        ann.save()
        return is_right(ann, "new")

    @beside(None)
    def test_a_save_is_one_statement(self, model, ann):
        """A save is one statement; so is a save of another field in a transaction, as under
        ATOMIC_REQUESTS."""
        with self.assertNumQueries(1):
            ann.save()
        ann.set_password("new")
        with self.assertNumQueries(1):
            ann.save()
        with transaction.atomic():
            for fields in (None, ["email"], ["email", "password"]):
                ann.email = f"{fields}@new.org"
                with self.assertNumQueries(1):
                    ann.save(update_fields=fields)

    @beside(("(models.Model,)", None))
    def test_a_migration_names_what_it_does_of_djangos(self, model, ann):
        """A migration names Django's bases, so the package can be removed without editing any
        migration."""
        state = ModelState.from_model(model)
        return MigrationWriter.serialize(state.bases)[0], state.options.get("verbose_name")

    @beside(True)
    def test_a_migration_that_names_the_mixin_is_read(self, model, ann):
        """Old migrations name the mixin, from before it was an abstract model, and are still
        read."""
        name, state = model._meta.model_name, ProjectState()
        state.add_model(ModelState.from_model(model))
        mixed = state.models["users_app", name]
        if model is Person:
            mixed.bases = (users.CompareAndSetMixin, *mixed.bases)
        rendered = state.apps.get_model("users_app", name)
        return rendered.objects.get(pk=ann.pk).password == ann.password


@override_settings(AUTH_USER_MODEL="users_app.Peppered")
class OwnMethods(Cheap, TestCase):
    """A model's own check_password and set_password."""

    def setUp(self):
        super().setUp()
        self.ann = signed_up(Peppered, username="ann")

    def again(self):
        return Peppered.objects.get()

    def test_it_is_called_once(self):
        self.assertEqual(authenticate(username="ann", password="old").checks, 1)

    def test_a_change_is_noted(self):
        changes = self.ann.changes
        self.assertFalse(passwords.change_password(self.ann, "wrong", "new"))
        self.assertTrue(passwords.change_password(self.ann, "old", "new"))
        self.assertTrue(self.again().check_password("new"))
        passwords.set_password(self.again(), "newer")
        self.assertTrue(self.again().check_password("newer"))
        self.assertEqual(self.again().changes, changes + 2)
        passwords.set_password(self.again(), None)
        self.assertFalse(self.again().has_usable_password())

    def test_a_set_that_failed_leaves_no_password(self):
        """A failed set leaves no password in the user, nor for the validators of the next save."""
        before = self.ann.password
        for error, save in ((passwords.RecordChanged(), "lost"), (OSError("no"), "broken")):
            with mock.patch.object(AbstractUser, "save", side_effect=error):
                self.assertRaises(type(error), passwords.set_password, self.ann, "new")
            self.assertEqual((self.ann.password, self.ann._password), (before, None), save)
        self.reset("reset")
        self.assertRaises(passwords.RecordChanged, passwords.set_password, self.ann, "new")
        self.ann.save()
        self.assertTrue(self.right("reset"))

    def test_what_would_be_passed_over_is_refused(self):
        setting = passwords.set_password
        for act, model in ((passwords.check_password, User), (setting, User), (setting, Peppered)):
            self.assertRaises(ValueError, act, model(username="ben"), "new")
        acts = ("check", "verify", "change", "set")
        for model, act in itertools.product((Unmixed, Unreached), acts):
            user = model(pk=1, username="ann", password=self.ann.password)
            with self.assertRaisesMessage(Exception, "Methods.check_password"):
                ACTS[act](user)
        with users.comparing(Unmixed):
            self.assertEqual(users.unreached_methods(Unmixed), ["Methods.check_password"])
