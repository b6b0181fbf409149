"""The operations on a user's password; each one compares before it writes.

The operations call a model's own `check_password` and `set_password` if the model has the mixin of
`rigzumal.django.users`, and refuse any other model with such methods.

Each operation may raise:
    ValueError: the user isn't saved.
    RecordChanged: the row's record has changed since the user was read, and stays unchanged;
        the first three operations raise it only if the record changed eight times.
    ImproperlyConfigured: the model has a method that these calls would skip.
"""

from __future__ import annotations

from typing import Any, Optional

from django.contrib.auth import hashers, password_validation
from django.db import DatabaseError

from rigzumal._hidden import hidden_below
from rigzumal.django import records, users
from rigzumal.django.records import TRIES, Copy
from rigzumal.django.records import RecordChanged as RecordChanged


@hidden_below
def check_password(user: Any, password: Any) -> bool:
    """Whether the password is the user's, like `user.check_password`.

    The call replaces a record with old costs, or from another of PASSWORD_HASHERS, if the row still
    has that record. If the first of PASSWORD_HASHERS is ours, a wrong password costs as many hashes
    as a right one. After a right password `user.password` is the record that was checked.
    """
    if users.has_own_methods(user):
        right = bool(user.check_password(password))
    else:
        right = records.judge_login(user, password)
    if not right and _is_old(user.password):
        spend(password)
    return right


@hidden_below
def verify_password(user: Any, password: Any) -> bool:
    """Checks a password like `check_password`, but without a rehash, unless the model's own method
    rehashes."""
    if users.has_own_methods(user):
        return bool(user.check_password(password))
    return records.judge_alone(user, password)


@hidden_below
def change_password(user: Any, old_password: Any, new_password: Any) -> bool:
    """Writes the new password if the old one is right. Returns False if the old one is wrong.

    The call checks the old password against the record that the new one replaces, so a simultaneous
    reset stays. The call runs no validators, but calls their `password_changed`. The call writes
    one column and sends no signal. A wrong password costs as many hashes as a right one. If a model
    has its own `set_password`, however, the call saves all of its fields.
    """
    return change_judged(user, old_password, new_password, None)


@hidden_below
def change_judged(user: Any, old_password: Any, new_password: Any, judged: Optional[str]) -> bool:
    """Runs `change_password` after the old password was right for the record `judged`.

    If the row still has that record, the call doesn't check the password again.
    """
    if users.has_own_methods(user):
        changed = _change_by_methods(user, old_password, new_password)
    else:
        changed = records.judge_change(user, old_password, new_password, judged)
        if changed:
            password_validation.password_changed(new_password, user)
    if not changed:
        spend(new_password)
    return changed


@hidden_below
def set_password(user: Any, new_password: Any) -> None:
    """Writes a new password over the record that was read with the user.

    Use this call for a reset: the token was checked with that record, so a newer record stays, and
    a deleted user stays deleted. If the new password is None, every password is wrong afterwards.
    The columns, signals and validators are as in `change_password`.
    """
    if users.has_own_methods(user):
        _set_by_methods(user, new_password)
        return
    row = records.Row(user)
    record = hashers.make_password(new_password)
    if not row.put(_copy_of(user, row.database).records, record):
        raise RecordChanged
    if new_password is not None:
        password_validation.password_changed(new_password, user)


acheck_password = records.awaited(check_password)
achange_password = records.awaited(change_password)
aset_password = records.awaited(set_password)


def _is_old(record: str) -> bool:
    """Whether Django replaces a record after a right password."""
    try:
        hasher = hashers.identify_hasher(record)
    except ValueError:  # no password is right
        return False
    preferred = hashers.get_hasher()
    return bool(hasher.algorithm != preferred.algorithm or preferred.must_update(record))


@hidden_below
def spend(password: Any) -> None:
    """Hashes a password and discards the record: the time must tell neither a right password nor an
    absent user."""
    try:
        hashers.make_password(password)
    except ValueError:  # UTF-8 can't encode the text, so an empty password replaces it
        hashers.make_password("")


def _copy_of(user: Any, database: str) -> Copy:
    """Returns the record that was read with the user, even after a rollback."""
    copy = records.known_copy(user, database)
    compares = isinstance(user, users.CompareAndSetMixin)
    if copy is None or not (compares or copy.newest == user.password):
        return Copy(user.password)
    return copy


def _set_by_methods(user: Any, new_password: Any) -> None:
    """Sets the password and saves the user, as Django's own forms do."""
    row, before = records.Row(user), user.password
    if row.look() is None:
        raise RecordChanged
    if new_password is None:
        user.set_unusable_password()
    else:
        user.set_password(new_password)
    try:
        user.save(force_update=True)
    except BaseException as fault:
        user.password, user._password = before, None
        if isinstance(fault, DatabaseError) and row.look() is None:
            raise RecordChanged from None  # another request has deleted the user meanwhile
        raise


def _change_by_methods(user: Any, old_password: Any, new_password: Any) -> bool:
    for _ in range(TRIES):
        if not user.check_password(old_password):
            return False
        try:
            _set_by_methods(user, new_password)
        except RecordChanged:
            continue
        return True
    raise RecordChanged
