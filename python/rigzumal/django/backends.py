"""A ModelBackend that compares the record before it writes an upgrade at login.

    AUTHENTICATION_BACKENDS = ["rigzumal.django.backends.CompareAndSetBackend"]
"""

# mypy: allow-subclassing-any

from __future__ import annotations

from typing import Any, Optional

from django.contrib.auth import get_user_model
from django.contrib.auth.backends import ModelBackend
from django.db import router

from rigzumal._hidden import hidden_below
from rigzumal.django import passwords, records
from rigzumal.django.apps import require_app


class CompareAndSetBackend(ModelBackend):
    """Django's ModelBackend, which never undoes a change of a password.

    - After a right login the backend rehashes a record with old costs, by an UPDATE that compares
      the row's record. If the record has changed, the backend checks the password against the new
      one.
    - The backend reads the user from the database that it writes to, so a replica may lag.
    - An unknown name or an inactive user costs one hash and two queries, like a wrong password; the
      backend doesn't rehash an inactive user's record.
    """

    def __init__(self) -> None:
        require_app()

    @hidden_below
    def authenticate(
        self,
        request: Any,
        username: Optional[str] = None,
        password: Optional[str] = None,
        **kwargs: Any,
    ) -> Any:
        """Returns the user, or None for an unknown name, a wrong password or a user who may not log
        in."""
        model = get_user_model()
        if username is None:
            username = kwargs.get(model.USERNAME_FIELD)
        if username is None or password is None:
            return None
        users = model._default_manager.db_manager(router.db_for_write(model))
        try:
            user = users.get_by_natural_key(username)
        except model.DoesNotExist:
            passwords.spend(password)
            users.filter(**{model.USERNAME_FIELD: username}).exists()
            return None
        if not self.user_can_authenticate(user):
            passwords.spend(password)
            records.Row(user).look()
            return None
        try:
            return user if passwords.check_password(user, password) else None
        except passwords.RecordChanged:
            return None

    # Django 5.2 and later call it.
    aauthenticate = records.awaited(lambda self, *a, **b: self.authenticate(*a, **b))
