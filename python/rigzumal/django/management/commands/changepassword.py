"""Django's `manage.py changepassword`, which never undoes a simultaneous change.

This command replaces Django's own if INSTALLED_APPS has `rigzumal.django` before
`django.contrib.auth`.
"""

# mypy: allow-subclassing-any

from __future__ import annotations

from typing import Any

from django.contrib.auth import get_user_model
from django.contrib.auth.management.commands import changepassword
from django.core.management.base import CommandError

from rigzumal._hidden import hidden_below
from rigzumal.django import records, users


class Command(changepassword.Command):
    """Django's command, with a user model that compares while the command runs."""

    @hidden_below
    def handle(self, *args: Any, **options: Any) -> Any:
        """Asks for the new password and stores it, or raises a CommandError."""
        try:
            with users.comparing(get_user_model()):
                return super().handle(*args, **options)
        except records.RecordChanged:
            raise CommandError(
                "The password has changed meanwhile, perhaps at a login with an old"
                " record. This command saved nothing: please run it again."
            ) from None
