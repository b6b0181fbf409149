"""rigzumal.django beside another process, which sets the password, rehashes it or deletes the user:
each operation, at each moment, for models of each shape."""

import contextlib
import itertools
import random
import threading
import time
from concurrent.futures import ThreadPoolExecutor
from unittest import mock

import project  # noqa: F401: Django, set up
from django.contrib.auth.models import User
from django.db import connections
from django.test import TransactionTestCase, override_settings
from django.utils.functional import SimpleLazyObject
from meanwhile import Cheap, before_update, cheap, comparing, delete_elsewhere
from meanwhile import is_right, meanwhile, reset_elsewhere, rows, signed_up, stands
from meanwhile import ACTS, CHANGES, LOGINS, NEW, OF_MIXIN, OLD, SETS
from users_app.models import ByMail, Hidden, Peppered, Member, Person, Pupil, Staff

from rigzumal.django import passwords
from rigzumal.django.hashers import Argon2PasswordHasher
from rigzumal.django.passwords import RecordChanged
from rigzumal.django.records import TRIES
from rigzumal.django.users import CompareAndSetMixin
from tests.helpers import each

GONE = "deleted"
NUMBERS = itertools.count()
THEIRS = "django.contrib.auth.backends.ModelBackend"
# The models; whether a stock User compares; whether the user is a lazy one, as `request.user` is.
SHAPES = [
    (model, False, False) for model in (User, Person, Peppered, Member, Staff, Hidden, ByMail)
]
SHAPES += [(Pupil, False, False), (User, True, False), (User, False, True), (Person, False, True)]


def edit(user):
    """A save of another field."""
    user.first_name = "edited"
    user.save()


WRITES = {"reset": lambda user: passwords.set_password(user, "reset"), "edit": edit}


def cases(model, is_raised):
    """The operations on a user of this model, with the moments when another process acts: not at
    all, before the call, after the password was judged, and before the record is written."""
    acts = ACTS.keys() - (LOGINS if model is Hidden else ())
    has_mixin = issubclass(model, CompareAndSetMixin)
    for act in sorted(acts if has_mixin else acts - OF_MIXIN.keys()):
        yield act, None, None
        # A save of a deleted user inserts a row, as Django's does.
        others = ["reset", OLD, GONE] if act != "save" else ["reset", OLD]
        at = ["before"] if act in SETS else ["before", meanwhile]
        writes = act in {**CHANGES, **SETS} or is_raised and act != "verify"
        # A child's save is a transaction, which would undo the other process's UPDATE.
        if writes and (act, model) != ("save", Pupil):
            at.append(before_update)
        yield from ((act, *it) for it in itertools.product(at, others))


def expected(act, other):
    """The answer, and the password that is right then."""
    left = None if other == GONE else other or OLD
    if act in SETS:
        return (RecordChanged, left) if other else (None, NEW)
    is_right = other in (None, OLD)
    return is_right, NEW if act in CHANGES and is_right else left


class Races(Cheap, TransactionTestCase):
    def signed_up(self, model):
        given = {"is_active": False} if model is Hidden else {}
        given[model.USERNAME_FIELD] = f"ann{next(NUMBERS)}@example.org"
        return signed_up(model, OLD, **given)

    def answer(self, act, user):
        try:
            operation = ACTS[act] if act in ACTS else WRITES[act]
            return operation(user)
        except RecordChanged as error:
            self.assertIn("has changed", str(error))
            return RecordChanged

    def race(self, read, user, act, moment, other):
        def elsewhere():
            if other == GONE:
                delete_elsewhere(read)
            else:
                reset_elsewhere(read, other)

        if moment == "before":
            elsewhere()
        with moment(elsewhere) if callable(moment) else contextlib.nullcontext():
            answer, left = self.answer(act, user), None
        if rows(read).exists():
            (left,) = [it for it in (OLD, NEW, "reset") if is_right(read, it)]
        self.assertEqual((answer, left), expected(act, other))
        if answer in (True, None):
            self.assertEqual(user.password, stands(read))
            rehashes = act != "verify" or isinstance(read, Peppered)
            is_raised = Argon2PasswordHasher.memory_cost == 128
            self.assertEqual("m=128," in user.password, is_raised and rehashes)

    def test_each(self):
        all_ = [(it, 128) for it in SHAPES] + [(it, 64) for it in SHAPES[:3]]  # no upgrade
        for (model, compares, is_lazy), memory in all_:
            label = override_settings(AUTH_USER_MODEL=model._meta.label)
            with label, comparing() if compares else contextlib.nullcontext():
                for act, moment, other in cases(model, memory == 128):
                    user = read = self.signed_up(model)
                    if is_lazy:
                        user = SimpleLazyObject(lambda: read)
                    with self.subTest(model, act=act, moment=moment, other=other), cheap(memory):
                        self.race(read, user, act, moment, other)

    @each(*itertools.product((User, Person, Peppered), ("authenticate", "check", "change")))
    def test_how_often(self, model, act):
        """An operation that loses seven times takes effect; one that loses eight times doesn't."""
        for turns in (TRIES - 1, TRIES):
            user = self.signed_up(model)
            again = before_update(lambda: reset_elsewhere(user, OLD), turns)
            label = override_settings(AUTH_USER_MODEL=model._meta.label)
            # The methods of a model upgrade before a change.
            memory = 64 if act in CHANGES else 128
            with self.subTest(model, act=act, turns=turns), cheap(memory), label, again:
                lost = False if act in LOGINS else RecordChanged
                self.assertEqual(self.answer(act, user), True if turns < TRIES else lost)
            new = NEW if act in CHANGES and turns < TRIES else OLD
            self.assertTrue(is_right(user, new))

    @each(*(User, Person) * 20)
    def test_threads(self, model):
        """Threads with their own connections: a change or a reset takes effect, and nothing undoes
        it."""
        user, barrier = self.signed_up(model), threading.Barrier(6)
        verify = Argon2PasswordHasher.verify

        def slow(*given):
            time.sleep(random.choice((0, 0.001, 0.003)))
            return verify(*given)

        def act(name):
            own = model.objects.get(pk=user.pk)
            barrier.wait(60)
            try:
                return self.answer(name, own)
            finally:
                connections.close_all()

        edit = "edit" if model is Person else "check"
        names = ("change", "reset", "check", "authenticate", "verify", edit)
        slowed = mock.patch.object(Argon2PasswordHasher, "verify", slow)
        label = override_settings(AUTH_USER_MODEL=model._meta.label)
        with label, slowed, cheap(memory=128), ThreadPoolExecutor(6) as pool:
            changed, was_reset, *_ = pool.map(act, names)
        done = []
        if changed is True:
            done.append(NEW)
        if was_reset is None:
            done.append("reset")
        right = [password for password in (NEW, "reset", OLD) if is_right(user, password)]
        self.assertEqual(right, done or [OLD])

    def test_djangos_own_undoes_the_change(self):
        """The reason for all of this: Django's backend restores the old password."""
        ann = self.signed_up(User)
        with override_settings(AUTHENTICATION_BACKENDS=[THEIRS]), cheap(memory=128):
            with meanwhile(lambda: reset_elsewhere(ann, "reset")):
                self.assertTrue(ACTS["authenticate"](ann))
        self.assertTrue(is_right(ann, OLD))
