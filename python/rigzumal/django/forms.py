"""Django's forms for changes, resets and the admin, which compare before they write.

`save` raises a ValidationError if the record was changed after the form was validated. Our views
show the error; your own view can show it with `show(form, error)`. `commit=False` raises a
ValueError.
"""

# mypy: allow-subclassing-any

from __future__ import annotations

import contextlib
from collections.abc import Iterator
from typing import Any, Optional

from django.contrib.auth import forms
from django.core.exceptions import ValidationError
from django.utils.translation import gettext_lazy as _

from rigzumal._hidden import hidden_below
from rigzumal.django import passwords

CHANGED = _("The password has changed meanwhile. This form saved nothing: please begin again.")


@contextlib.contextmanager
def lost_as_error() -> Iterator[None]:
    """Turns RecordChanged into a ValidationError in a `with` block."""
    try:
        yield
    except passwords.RecordChanged:
        raise ValidationError(CHANGED, code="password_changed") from None


def show(form: Any, error: ValidationError) -> None:
    """Adds the error to the form's first field, since the admin pages show no other errors."""
    form.add_error(next(iter(form.fields)), error)


class _Comparing:
    """A form that hides its frames from error reports, since they contain passwords."""

    @hidden_below
    def full_clean(self) -> None:
        """Cleans the fields, like Form's method."""
        super().full_clean()  # type: ignore[misc]

    @hidden_below
    def save(self: Any, commit: bool = True) -> Any:
        """Writes the new password, unless the record has changed meanwhile."""
        if not commit:
            fault = "the comparison writes the record"
            raise ValueError(f"{fault}: commit=False is impossible")
        with lost_as_error():
            self._write()
        return self.user


class PasswordChangeForm(_Comparing, forms.PasswordChangeForm):
    """Changes the password of a user who enters the old one."""

    _judged: Optional[str] = None

    def clean_old_password(self) -> Any:
        """Checks the old password against the row's record, without a rehash."""
        old_password = self.cleaned_data["old_password"]
        with lost_as_error():
            if not passwords.verify_password(self.user, old_password):
                raise self._incorrect()
        self._judged = self.user.password
        return old_password

    def _write(self) -> None:
        old, new = self.cleaned_data["old_password"], self.cleaned_data["new_password1"]
        if not passwords.change_judged(self.user, old, new, self._judged):
            raise self._incorrect()

    def _incorrect(self) -> ValidationError:
        code = "password_incorrect"
        return ValidationError(self.error_messages[code], code=code)


class SetPasswordForm(_Comparing, forms.SetPasswordForm):
    """Sets the password of a user who followed a link, which a new record makes invalid."""

    def _write(self) -> None:
        passwords.set_password(self.user, self.cleaned_data["new_password1"])


class AdminPasswordChangeForm(_Comparing, forms.AdminPasswordChangeForm):
    """Sets the password of a user in the admin."""

    def _write(self) -> None:
        data = self.cleaned_data
        # Django 5.1 and later have a button that removes the password.
        is_usable = data.get("set_usable_password", True)
        passwords.set_password(self.user, data["password1"] if is_usable else None)


class AdminOwnPasswordChangeForm(PasswordChangeForm):
    """PasswordChangeForm as the admin shows it, for the user who is logged in."""

    required_css_class = "required"
