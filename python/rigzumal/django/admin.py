"""The admin of users, which never undoes a change of a password.

    admin.site.register(Person, UserAdmin)

With RIGZUMAL_USER_COMPARES, a stock User already has this admin instead of Django's own.
"""

# mypy: allow-subclassing-any

from __future__ import annotations

from typing import Any

from django.conf import settings
from django.contrib import messages
from django.contrib.admin import site
from django.contrib.auth import admin, get_user_model
from django.core.exceptions import ValidationError
from django.http import HttpResponseRedirect

from rigzumal.django import forms
from rigzumal.django.passwords import RecordChanged
from rigzumal.django.users import CompareAndSetMixin


class UserAdmin(admin.UserAdmin):
    """Django's UserAdmin, whose form reports an error if the password has changed meanwhile."""

    change_password_form = forms.AdminPasswordChangeForm

    def save_model(self, request: Any, obj: Any, form: Any, change: bool) -> None:
        """Saves the user; writes the password only if the model compares or if the form has set
        it."""
        compares = isinstance(obj, CompareAndSetMixin)
        if not change or compares or "password" in form.changed_data:
            super().save_model(request, obj, form, change)
            return
        names = [it.name for it in obj._meta.concrete_fields if not it.primary_key]
        names.remove("password")
        obj.save(update_fields=names)

    def changeform_view(self, request: Any, *args: Any, **kwargs: Any) -> Any:
        """Answers with a user's page, and shows the form again if it couldn't write the
        password."""
        try:
            return super().changeform_view(request, *args, **kwargs)
        except RecordChanged:
            return self._again(request)

    def user_change_password(self, request: Any, id: str, form_url: str = "") -> Any:
        """Answers with the page that sets a password, and shows the form again if the password was
        changed meanwhile."""
        try:
            return super().user_change_password(request, id, form_url)
        except (RecordChanged, ValidationError):
            return self._again(request)

    def _again(self, request: Any) -> HttpResponseRedirect:
        self.message_user(request, forms.CHANGED, messages.ERROR)
        return HttpResponseRedirect(request.get_full_path())


if getattr(settings, "RIGZUMAL_USER_COMPARES", False):
    if type(site._registry.get(get_user_model())) is admin.UserAdmin:
        site.unregister(get_user_model())
        site.register(get_user_model(), UserAdmin)
