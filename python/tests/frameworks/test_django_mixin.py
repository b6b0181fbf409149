"""The mixin's saves compare, however the user was read, and after any rollback."""

import copy
import itertools
import pickle
from unittest import mock

import project  # noqa: F401: Django, set up
from django.contrib.auth import hashers
from django.contrib.auth.models import User
from django.db import transaction
from django.db.models.signals import post_save, pre_save
from django.test import TestCase, TransactionTestCase, override_settings
from django.utils.functional import SimpleLazyObject
from meanwhile import Cheap, Router, cheap, comparing, connected, is_right, reset_elsewhere
from meanwhile import signed_up, stands, undone
from users_app.models import Person, Pupil

from rigzumal.django import passwords
from rigzumal.django.passwords import RecordChanged


def save(user, new, **how):
    user.set_password(new)
    return lambda: user.save(**how)


def save_one_field(user, new):
    return save(user, new, update_fields=["password"])


def set_(user, *news):
    return lambda: [passwords.set_password(user, new) for new in news]


def set_twice(user, new):
    return set_(user, "another", new)


def change(user, new):
    return lambda: passwords.change_password(user, "old", new)


class Written(Cheap):
    """The facts of each way to write a password, for the users of `model` and the ways in
    `writes`."""

    writes = [set_, set_twice]

    def setUp(self):
        super().setUp()
        self.ann = signed_up(self.model, username="ann", email="a@old.org")

    def again(self, **given):
        return self.model.objects.get(username="ann", **given)

    def test_a_transaction_that_is_tried_again(self):
        """A deadlock in the first turns: the transaction runs again, as the databases' manuals
        require."""
        for write in (*self.writes, change):
            self.reset("old")
            self.ann.refresh_from_db()
            again = write(self.ann, "new")
            for _ in range(2):
                with undone():
                    again()
                self.assertTrue(self.right("old"))
            with transaction.atomic():
                again()
            self.assertTrue(self.right("new"))

    def test_after_a_rollback_it_compares_with_what_stands(self):
        for write in self.writes:
            self.ann.refresh_from_db()
            again = write(self.ann, "new")
            with undone():
                again()
            self.reset("reset")
            self.assertRaises(RecordChanged, again)
            self.assertFalse(passwords.change_password(self.ann, "new", "newer"))
            self.assertTrue(self.right("reset"))

    def test_a_part_that_was_rolled_back(self):
        """The first of two changes in a transaction is stored, the second isn't."""
        for write in self.writes:
            with transaction.atomic():
                write(self.ann, "first")()
                again = write(self.ann, "second")
                with undone():
                    again()
                self.assertTrue(self.right("first"))
                again()
                self.assertTrue(self.right("second"))
                write(self.ann, "third")()
            self.assertTrue(self.right("third"))


class OfStock(Written, TestCase):
    model = User


class Compared(Written):
    """The other duties of each model with the mixin."""

    writes = [*Written.writes, save, save_one_field]

    def lose(self, user, new=None, **how):
        """A lost save, perhaps of a new password, writes nothing."""
        if new:
            user.set_password(new)
        before = stands(user)
        self.assertRaises(RecordChanged, user.save, **how)
        self.assertEqual(stands(user), before)

    def lazy(self):
        """A user in the form of `request.user`."""
        return SimpleLazyObject(self.again)

    def ways(self):
        """The ways to obtain a user whose password is "old"."""

        def made():
            self.model.objects.all().delete()
            return self.model.objects.create_user("ann", password="old")

        def after(act, got=self.again):
            def way():
                with cheap(memory=128):
                    act(ann := got())
                return ann

            return way

        acts = (
            lambda ann: save(ann, "old")(),
            lambda ann: ann.check_password("old"),
            lambda ann: passwords.change_password(ann, "old", "old"),
            lambda ann: passwords.set_password(ann, "old"),
        )
        saved = after(acts[0])
        return [
            self.again,
            self.lazy,
            made,
            lambda: self.model.objects.defer("password").get(),
            lambda: self.model.objects.only("email").get(),
            lambda: copy.copy(saved()),
            lambda: copy.deepcopy(saved()),
            lambda: pickle.loads(pickle.dumps(saved())),
            *(after(act, got) for act in acts for got in (self.again, self.lazy)),
        ]

    def test_a_user_is_compared_with_what_was_read_or_written(self):
        """A save compares with the record that was read or written, here within the open
        transaction of a TestCase."""
        unusable = "set_unusable_password"
        changes = (unusable,), ("set_password", "mine")
        for way, (change, *new) in itertools.product(self.ways(), changes):
            self.assertTrue(way().check_password("old"))
            user = way()
            reset_elsewhere(user, "reset")
            user.email = f"{change}@new.org"
            user.save()
            self.assertTrue(is_right(user, "reset"))
            self.assertEqual(self.again().email, user.email)
            for is_lost in (True, False):
                reset_elsewhere(user, "old")
                user = way()
                getattr(user, change)(*new)
                if is_lost:
                    reset_elsewhere(user, "reset")
                    self.lose(user)
            user.save()
            self.assertEqual(user.password, stands(user))
            reset_elsewhere(user, "old")

    def test_a_copy_knows_what_it_was_copied_with(self):
        other = copy.copy(self.ann)
        save(self.ann, "new")()
        other.email = "a@new.org"
        other.save()
        self.assertTrue(self.right("new"))
        self.lose(other, "other")

    def test_set_and_save(self):
        self.ann.set_password("new")
        self.assertTrue(self.ann.check_password("new"))
        self.assertTrue(self.right("old"))
        self.ann.email = "a@new.org"
        self.ann.save(update_fields=["email"])
        self.assertTrue(self.right("old"))
        self.ann.email = "a@newer.org"
        self.ann.save(update_fields=["password"])
        self.assertTrue(self.right("new"))
        self.assertEqual(self.again().email, "a@new.org")

    def test_a_lost_save_writes_no_field(self):
        self.reset("reset")
        self.ann.set_password("new")
        self.ann.email = "a@new.org"
        for fields in (None, ["password"], iter(["email", "password"])):
            self.lose(self.ann, update_fields=fields)
        self.assertEqual(self.again().email, "a@old.org")
        self.ann.save(update_fields=["email"])  # other fields can be saved
        self.assertEqual(self.again().email, "a@new.org")
        self.ann.refresh_from_db()
        save(self.ann, "new")()
        self.assertTrue(self.right("new"))

    def test_a_save_after_a_bulk_update_of_the_same_record(self):
        """No other process changed anything: the row already has the record that is saved."""
        self.ann.set_password("new")
        self.model.objects.bulk_update([self.ann], ["password"])
        self.ann.email = "a@new.org"
        self.ann.save()
        self.assertTrue(self.right("new"))
        self.assertEqual(self.again().email, "a@new.org")
        self.reset("reset")
        self.lose(self.ann, "newer")

    def test_a_new_user_is_remembered_before_signals(self):
        """A handler of post_save that saves again writes no password."""

        def profile(sender, instance, created, **_):
            if created:
                reset_elsewhere(instance, "reset")
                instance.first_name = "x"
                instance.save()

        connected(self, post_save, profile, self.model)
        self.assertTrue(is_right(self.model.objects.create_user("ben", password="a"), "reset"))

    def test_a_handler_that_sets_the_password(self):
        def expire(sender, instance, **_):
            instance.set_unusable_password()

        connected(self, pre_save, expire, self.model)
        self.ann.save()
        self.assertFalse(self.again().has_usable_password())

    def test_who_was_not_saved_is_judged_as_she_is(self):
        ben = self.model(username="ben")
        ben.set_password("secret")
        self.assertEqual([ben.check_password(it) for it in ("secret", "guess")], [True, False])


class OfPerson(Compared, TestCase):
    model = Person


class OfPupil(Compared, TestCase):
    """The password is in another table than the model's own."""

    model = Pupil


class OfUser(Compared, TestCase):
    """Django's own User, which the setting has given the mixin."""

    model, around = User, comparing


class Committed(Compared, TransactionTestCase):
    """The mixin under real transactions and the databases' own rollbacks."""

    model = Person
    databases = {"default", "other"}
    there = Person.objects.db_manager("other")

    def test_what_runs_at_the_commit(self):
        """A callback saves the user at the commit, before the callback of this app has run."""

        def stamp():
            self.ann.first_name = "committed"
            self.ann.save()

        with transaction.atomic():
            transaction.on_commit(stamp)
            save(self.ann, "new")()
        self.assertEqual(self.again().first_name, "committed")
        self.assertTrue(self.right("new"))

    def test_after_the_commit_the_record_before_is_another(self):
        before = stands(self.ann)
        with transaction.atomic():
            save(self.ann, "new")()
        Person.objects.update(password=before)  # a backup is put back
        self.lose(self.ann, "mine")

    def test_a_sign_up_that_was_rolled_back(self):
        ben = Person(username="ben")
        ben.set_password("secret")
        with undone():
            ben.save()
        ben.save()
        self.assertTrue(is_right(ben, "secret"))

    def test_a_change_in_another_database(self):
        """A save to another database than the router's is a copy, and isn't compared."""
        self.there.create(pk=self.ann.pk, username="ann", password="another")
        self.ann.save(using="other")
        self.assertEqual(self.there.get().password, self.ann.password)
        self.ann.set_password("new")
        self.ann.save(using="other")
        self.assertTrue(self.right("old"))
        self.reset("reset")
        self.lose(self.ann, using="default")

    @override_settings(DATABASE_ROUTERS=[Router("other", "other")])
    def test_a_lost_save_in_a_transaction_of_another_database(self):
        """The transaction of the other database goes on, and so does one of the first: under
        ATOMIC_REQUESTS a view shows its form again."""
        self.there.create(pk=self.ann.pk, username="ann", password=self.ann.password)
        ann = self.there.get()
        self.there.update(password="another")
        for first in ("default", "other"):
            ann.set_password("new")
            with transaction.atomic("other"), transaction.atomic(first):
                self.there.update(first_name="before")
                self.lose(ann)
                self.there.update(last_name=first)
            self.assertEqual(self.there.get().get_full_name(), f"before {first}")

    @override_settings(DATABASE_ROUTERS=[Router("default", "default")])
    def test_a_new_user_of_another_database_is_remembered_there(self):
        """A new user is remembered in the database of `using`, whatever the router says: a later
        save compares with that record."""
        ben = Person(username="ben", password="first")
        ben.save(using="other")
        self.there.update(password="reset")
        ben.password = "mine"
        self.assertRaises(RecordChanged, ben.save, using="other")
        self.assertEqual(self.there.get().password, "reset")

    def test_nobody_is_told_of_a_password_that_was_never_put(self):
        """No validator is told of a password after a lost save, or after the user was read
        again."""
        self.reset("reset")
        with mock.patch("django.contrib.auth.password_validation.password_changed") as told:
            self.lose(self.ann, "new")
            self.assertIsNone(self.ann._password)
            self.ann.save(update_fields=["email"])
            self.ann.set_password("newer")
            self.ann.refresh_from_db()
            self.ann.save()
        self.assertEqual(told.mock_calls, [])

    def test_a_replica_that_lags(self):
        self.there.create(pk=self.ann.pk, username="ann", password=self.ann.password)
        with override_settings(DATABASE_ROUTERS=[Router("other", "default")]):
            ann = Person.objects.get()
            self.assertEqual(ann._state.db, "other")
            save(ann, "new")()
            ann = self.there.get()  # as it was
            for fields in (None, ["email"]):
                ann.email = "a@new.org"
                ann.save(update_fields=fields)
                self.assertEqual(Person.objects.using("default").get().email, "a@new.org")
                ann.set_password("stale")
                self.assertRaises(RecordChanged, ann.save)
                ann.refresh_from_db(using="default")
                ann.refresh_from_db(using="other")
            ann.save()
        now = Person.objects.using("default").get().password
        self.assertTrue(hashers.check_password("new", now))
