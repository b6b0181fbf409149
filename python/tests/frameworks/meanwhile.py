"""Records with low costs, and acts of another process at the wrong moment."""

import contextlib
import functools
from unittest import mock

from asgiref.sync import async_to_sync
from django.contrib.auth import authenticate, hashers
from django.contrib.auth.models import User
from django.db import connections, transaction

from rigzumal.django import backends, passwords, users
from rigzumal.django.hashers import Argon2PasswordHasher


comparing = functools.partial(users.comparing, User)  # of a stock User, for a `with`


class Argon2(Argon2PasswordHasher):
    memory_cost = 64
    time_cost = 1
    parallelism = 1


def cheap(memory=64):
    """The costs of new records during a `with` block."""
    return mock.patch.multiple(Argon2PasswordHasher, memory_cost=memory, time_cost=1, parallelism=1)


class Cheap:
    """A case whose new records are cheap, with questions about its user, `ann`."""

    around = contextlib.nullcontext

    def setUp(self):
        super().setUp()
        self.enterContext(type(self).around())
        self.enterContext(cheap())

    def right(self, password):
        """Whether the password is right for the row's record."""
        return is_right(self.ann, password)

    def reset(self, password):
        reset_elsewhere(self.ann, password)

    def lost(self, turns=1, password="old"):
        """Another process writes a record of this password before each of this many UPDATEs, for a
        `with`."""
        return before_update(lambda: self.reset(password), turns)


class Ann(Cheap):
    """A case with a stock User, `ann`, whose password is "old"."""

    given = {}

    def setUp(self):
        super().setUp()
        self.ann = User.objects.create_user("ann", password="old", **self.given)


def signed_up(model, password="old", **given):
    """A new user, read from the database as in a view."""
    made = model(**given)
    made.set_password(password)
    made.save()
    return model._base_manager.get(pk=made.pk)


def connected(case, signal, handler, sender):
    """Connects a handler to a model's saves until the end of a test."""
    signal.connect(handler, sender=sender)
    case.addCleanup(signal.disconnect, handler, sender=sender)


def awaited(call, *given, **named):
    """The answer of a call that is awaited as in an asynchronous view."""

    async def view():
        return await call(*given, **named)

    return async_to_sync(view)()


def meanwhile(act):
    """Calls `act` once, after the next check of a password, during a `with` block."""
    verify, left = Argon2PasswordHasher.verify, [act]

    def judge(hasher, password, encoded):
        right = verify(hasher, password, encoded)
        if left:
            left.pop()()
        return right

    return mock.patch.object(Argon2PasswordHasher, "verify", judge)


@contextlib.contextmanager
def before_update(act, turns=1):
    """Calls `act` before each of the next UPDATEs of a user, during a `with` block."""
    left = [act] * turns

    def run(execute, sql, params, many, context):
        if left and sql.startswith("UPDATE") and '"password"' in sql:
            left.pop()()
        return execute(sql, params, many, context)

    with connections["default"].execute_wrapper(run):
        yield
    assert not left, "no UPDATE came"


def rows(user):
    """The row of a user, from a separate query."""
    return user.__class__._base_manager.filter(pk=user.pk)


def unseen():
    """The statements of a `with`, except the UPDATEs before which `act` is called."""
    return mock.patch.object(connections["default"], "execute_wrappers", [])


def reset_elsewhere(user, password):
    """Another process sets the password, at the old costs."""
    record = Argon2().encode(getattr(user, "pepper", "") + password, Argon2().salt())
    with unseen():
        rows(user).update(password=record)


def delete_elsewhere(user):
    with unseen():
        rows(user).delete()


def stands(user):
    """The record in the row."""
    return rows(user).values_list("password", flat=True).get()


def is_right(user, password):
    """Whether the password is right for the row's record."""
    return hashers.check_password(getattr(user, "pepper", "") + password, stands(user))


@contextlib.contextmanager
def undone():
    """A transaction that is rolled back, as a `with` block."""
    with contextlib.suppress(KeyError), transaction.atomic():
        yield
        raise KeyError


class Router:
    """A router that reads and writes these databases, and looks at its model, as Django's page
    shows."""

    def __init__(self, read, write):
        self.read, self.write = read, write

    def db_for_read(self, model, **hints):
        return self.read if model._meta.label else None

    def db_for_write(self, model, **hints):
        return self.write if model._meta.label else None


# ---- all that reads or writes a password, as its users call it

OLD, NEW = "topsecret old", "topsecret new"
BACKEND = backends.CompareAndSetBackend()


def log_in(by, field=None):
    """The backend's answer; the user gets the record whose change ends the session."""

    def act(user):
        given = {field or user.USERNAME_FIELD: user.get_username()}
        found = by(None, password=OLD, **given)
        user.password = found.password if found else user.password
        return found is not None

    return act


def save(user):
    user.set_password(NEW)
    user.save()


LOGINS = {
    # Django's login view passes the typed name as `username`, whatever the model's field is called.
    "authenticate": log_in(authenticate, "username"),
    "aauthenticate": log_in(functools.partial(awaited, BACKEND.aauthenticate)),
}
CHECKS = {
    "check": lambda user: passwords.check_password(user, OLD),
    "acheck": lambda user: awaited(passwords.acheck_password, user, OLD),
    "verify": lambda user: passwords.verify_password(user, OLD),
}
CHANGES = {
    "change": lambda user: passwords.change_password(user, OLD, NEW),
    "achange": lambda user: awaited(passwords.achange_password, user, OLD, NEW),
}
SETS = {
    "set": lambda user: passwords.set_password(user, NEW),
    "aset": lambda user: awaited(passwords.aset_password, user, NEW),
    "save": save,
}
OF_MIXIN = {
    "its check": lambda user: user.check_password(OLD),
    "its acheck": lambda user: awaited(user.acheck_password, OLD),
    "save": save,
}
ACTS = {**LOGINS, **CHECKS, **CHANGES, **SETS, **OF_MIXIN}
