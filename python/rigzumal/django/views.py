"""Django's views for changes and resets, with the forms that compare."""

# mypy: allow-subclassing-any

from __future__ import annotations

from typing import Any

from django.contrib.auth import views
from django.core.exceptions import ValidationError

from rigzumal.django import forms


class _ShowsWhyNot:
    """Shows an exception of `form_valid` as an error of the form."""

    def form_valid(self, form: Any) -> Any:
        """Writes the password, or shows why the form couldn't write it."""
        try:
            with forms.lost_as_error():
                return super().form_valid(form)  # type: ignore[misc]
        except ValidationError as error:
            forms.show(form, error)
            return self.form_invalid(form)  # type: ignore[attr-defined]


class PasswordChangeView(_ShowsWhyNot, views.PasswordChangeView):
    """Django's PasswordChangeView, with the form that compares."""

    form_class = forms.PasswordChangeForm


class PasswordResetConfirmView(_ShowsWhyNot, views.PasswordResetConfirmView):
    """Django's PasswordResetConfirmView, with the form that compares."""

    form_class = forms.SetPasswordForm
