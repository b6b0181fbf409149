"""The app: its checks for `manage.py check` and, with RIGZUMAL_USER_COMPARES, a stock User that
replaces only the record that was read."""

# mypy: allow-subclassing-any

from __future__ import annotations

from django.apps import AppConfig, apps
from django.conf import settings
from django.contrib.admin import apps as djangos
from django.core.exceptions import ImproperlyConfigured


_MISSING = (
    "put 'rigzumal.django' into INSTALLED_APPS, before 'django.contrib.auth':"
    " RIGZUMAL_USER_COMPARES and the checks need it"
)


class RigzumalConfig(AppConfig):
    """The app. List it before django.contrib.auth, so that `changepassword` is ours."""

    name = "rigzumal.django"
    label = "rigzumal"
    verbose_name = "Rigzumal"
    default = True
    has_started = False

    def ready(self) -> None:
        """Django calls this method after it has loaded all models."""
        RigzumalConfig.has_started = True
        from django.contrib.auth import get_user_model

        from rigzumal.django import checks, users

        if getattr(settings, "RIGZUMAL_USER_COMPARES", False):
            users.make_comparing(get_user_model())
        checks.register()


class AdminConfig(djangos.AdminConfig):
    """`django.contrib.admin` with a site whose own page for changing the password compares."""

    default_site = "rigzumal.django.site.AdminSite"
    default = False

    def ready(self) -> None:
        """Django calls this method after it has loaded all models."""
        if not apps.is_installed(RigzumalConfig.name):
            raise ImproperlyConfigured(_MISSING)
        super().ready()


def require_app() -> None:
    """Refuses a project with users whose INSTALLED_APPS lacks the app, and therefore the app's
    checks.

    Raises:
        ImproperlyConfigured: the app is missing.
    """
    has_users = apps.ready and apps.is_installed("django.contrib.auth")
    if has_users and not RigzumalConfig.has_started:
        raise ImproperlyConfigured(_MISSING)
