"""The checks of `manage.py check`: they report wrong settings, and unprotected ways of writing
passwords.

`manage.py check --database default`, and `migrate`, also examine the records.
"""

from __future__ import annotations

import difflib
import re
from collections.abc import Iterator
from typing import Any, Optional

from django.apps import apps
from django.conf import settings
from django.contrib.auth import get_user_model
from django.contrib.auth import hashers as djangos
from django.contrib.auth import views as djangos_views
from django.contrib.auth.backends import ModelBackend, RemoteUserBackend
from django.core import checks
from django.core.exceptions import FieldDoesNotExist
from django.core.management import get_commands
from django.db import connections, router
from django.urls import get_resolver
from django.utils.module_loading import import_string

from rigzumal.django import forms, hashers, users
from rigzumal.django.backends import CompareAndSetBackend

Messages = Iterator[checks.CheckMessage]

WIDTH = 128  # letters that a record of Django's may have

OURS = (hashers.Argon2PasswordHasher, hashers.ScryptPasswordHasher)

_SNAPSHOTS = {"repeatable read", "serializable"}
_PSYCOPG2_SNAPSHOTS = {2, 3}  # psycopg2's numbers for the same levels
_LEVEL = re.compile(r"isolation(?:[ _-]level)?[ =']+(repeatable|serializable)")
"""The form of a level in PostgreSQL's `options` and in MySQL's `init_command`."""


def register() -> None:
    """Registers the checks; the app calls this function once."""
    settings_checks = (backends, column, hashers_listed, isolation, own_methods)
    for check in (*settings_checks, user_model, admin_sites, url_views, command):
        checks.register(check, checks.Tags.security)
    checks.register(unlisted_hashers, checks.Tags.database)


def _message(number: str, text: str, hint: str) -> checks.CheckMessage:
    kind = checks.Error if number.startswith("E") else checks.Warning
    return kind(text, hint=hint, id=f"rigzumal.{number}")


def _path(of: type) -> str:
    return f"{of.__module__}.{of.__qualname__}"


def _compares() -> bool:
    return issubclass(get_user_model(), users.CompareAndSetMixin)


def _password_field() -> Optional[Any]:
    try:
        return get_user_model()._meta.get_field("password")
    except FieldDoesNotExist:
        return None


def _classes(setting: str, number: str) -> tuple[list[tuple[str, type]], list[Any]]:
    """Returns the classes in a setting's list with their paths, and the faults of the list."""
    listed = getattr(settings, setting)
    if isinstance(listed, str):
        text = f"{setting} is a string instead of a list."
        return [], [_message(number, text, f"Put {listed!r} into a list.")]
    found: list[tuple[str, type]] = []
    faults = []
    if not listed:
        faults.append(_message(number, f"{setting} is empty.", "Nobody can log in."))
    for path in listed:
        text = f"{setting} has {path!r}, which"
        try:
            named = import_string(path)
        except (ImportError, ValueError, AttributeError) as fault:
            faults.append(_message(number, f"{text} can't be imported.", str(fault)))
            continue
        if isinstance(named, type):
            found.append((path, named))
        else:
            hint = "Name a class by its whole path."
            faults.append(_message(number, f"{text} isn't a class.", hint))
    return found, faults


def _misspelt(setting: str) -> str:
    """Returns a hint about a setting that has a similar name."""
    others = set(dir(settings)) - {setting}
    near = difflib.get_close_matches(setting, others, 1, 0.9)
    return f" The settings have {near[0]}: is {setting} meant?" if near else ""


def backends(**_: Any) -> Messages:
    """Reports W001: no backend compares. W002: an additional backend doesn't compare. E012: a
    backend can't be imported or isn't a class, or none is listed. W014: the model compares, but
    under Django's own backend.

    If the model compares, its check_password does so under any backend that calls this method.
    """
    listed, faults = _classes("AUTHENTICATION_BACKENDS", "E012")
    yield from faults
    found = [it for _, it in listed]
    is_used = any(issubclass(it, CompareAndSetBackend) for it in found)
    hint = "Replace ModelBackend by 'rigzumal.django.backends.CompareAndSetBackend'."
    hint += _misspelt("AUTHENTICATION_BACKENDS")
    if _compares():
        if ModelBackend in found and not is_used:
            text = (
                "The only ModelBackend is Django's own. A login that overlaps a change ends in an"
                " error page, and Django rehashes an inactive user's right password."
            )
            yield _message("W014", text, hint)
        return
    if not is_used:
        text = "No backend is a CompareAndSetBackend: a login may undo a change."
        yield _message("W001", text, hint)
    judging_none = (CompareAndSetBackend, RemoteUserBackend)
    for backend in found:
        if issubclass(backend, ModelBackend) and not issubclass(backend, judging_none):
            text = f"{_path(backend)} upgrades records at login without a comparison."
            hint = "Remove this backend, or derive it from CompareAndSetBackend."
            yield _message("W002", text, hint)


def column(**_: Any) -> Messages:
    """Reports E003: the column is too short for a record."""
    field = _password_field()
    width: Optional[int] = field.max_length if field else None
    if width is not None and width < WIDTH:
        text = f"The password column has {width} characters, but a record up to {WIDTH}."
        yield _message("E003", text, f"Give it max_length={WIDTH}.")


def hashers_listed(**_: Any) -> Messages:
    """Reports E015: one of PASSWORD_HASHERS can't be imported, or none is listed. W004: another
    library hashes new records. E013: another hasher has the name of ours, and checks its records.

    If two hashers have the same algorithm, Django uses the later one.
    """
    listed, faults = _classes("PASSWORD_HASHERS", "E015")
    yield from faults
    if listed and not issubclass(listed[0][1], OURS):
        maker = "The first of PASSWORD_HASHERS, which hashes new passwords,"
        hint = "Put 'rigzumal.django.hashers.Argon2PasswordHasher' before all other hashers."
        hint += _misspelt("PASSWORD_HASHERS")
        yield _message("W004", f"{maker} isn't from Rigzumal.", hint)
    judges = {getattr(it, "algorithm", None): it for _, it in listed}
    for path, ours in listed:
        judge = judges[getattr(ours, "algorithm", None)]
        if issubclass(ours, OURS) and not issubclass(judge, OURS):
            text = f"{_path(judge)} comes after {path}, so Django never uses {path}."
            hint = f"Remove {_path(judge)}: Rigzumal's hasher reads its records."
            yield _message("E013", text, hint)


def isolation(**_: Any) -> Messages:
    """Reports W005: a transaction would read the record as it was at the transaction's start."""
    hint = "Remove the level, or set READ COMMITTED."
    for alias, database in settings.DATABASES.items():
        if _has_snapshots(database):
            text = f"The database {alias!r} has an isolation level of snapshots"
            outcome = "after a change, an open transaction accepts the old password, or fails"
            yield _message("W005", f"{text}: {outcome}.", hint)


def _has_snapshots(database: Any) -> bool:
    options = database.get("OPTIONS", {})
    for option in ("options", "init_command"):
        # libpq reads a space with a backslash before it.
        if _LEVEL.search(str(options.get(option, "")).replace("\\", "").lower()):
            return True
    level = options.get("isolation_level")
    if level is None:
        # None is the server's own level, which is REPEATABLE READ on MySQL and MariaDB.
        is_mysql = database.get("ENGINE", "").endswith("mysql")
        return is_mysql and "isolation_level" in options
    # psycopg 3 has an enumeration, whose numbers aren't psycopg2's.
    name = level if isinstance(level, str) else getattr(level, "name", None)
    if name is None:
        return level in _PSYCOPG2_SNAPSHOTS
    return name.lower().replace("_", " ") in _SNAPSHOTS


def own_methods(**_: Any) -> Messages:
    """Reports E006: our calls would skip a method of the user model."""
    hint = "Give the model the CompareAndSetMixin, after the class that has the method."
    for name in users.unreached_methods(get_user_model()):
        text = f"Our calls would bypass {name}, and therefore refuse logins."
        yield _message("E006", text, hint)


def user_model(**_: Any) -> Messages:
    """Reports W007: the user model's own methods write without a comparison."""
    if _compares() or _password_field() is None:
        return
    name = get_user_model()._meta.label
    text = f"{name}.save and check_password don't compare: they may undo a change."
    hint = "Set RIGZUMAL_USER_COMPARES = True, or give the model CompareAndSetMixin."
    yield _message("W007", text, hint + _misspelt("RIGZUMAL_USER_COMPARES"))


def _outcome() -> str:
    return "a late write ends in an error page" if _compares() else "it may undo a change"


def admin_sites(**_: Any) -> Messages:
    """Reports W008: an admin page for users, or for one's own password, is Django's."""
    if not apps.is_installed("django.contrib.admin"):
        return
    from django.contrib.admin.sites import all_sites

    from rigzumal.django.admin import UserAdmin
    from rigzumal.django.site import AdminSite

    for site in all_sites:
        front = f"The admin {site.name!r} has Django's"
        registered = site._registry.get(get_user_model())
        if registered is not None and not isinstance(registered, UserAdmin):
            hint = "Register the user model with rigzumal.django.admin.UserAdmin."
            yield _message("W008", f"{front} admin of users: {_outcome()}.", hint)
        if site._registry and not isinstance(site, AdminSite):
            hint = (
                "Install 'rigzumal.django.apps.AdminConfig' for 'django.contrib.admin',"
                " or derive the site from rigzumal.django.site.AdminSite."
            )
            yield _message("W008", f"{front} password_change: {_outcome()}.", hint)


def url_views(**_: Any) -> Messages:
    """Reports W009: a URL leads to Django's own view for a change or a reset."""
    if not getattr(settings, "ROOT_URLCONF", None):
        return
    hint = "Include 'rigzumal.django.urls', or use the views of rigzumal.django.views."
    for route, view, form in _password_views(get_resolver().url_patterns):
        if not issubclass(form, (forms.PasswordChangeForm, forms.SetPasswordForm)):
            text = f"The URL {route!r} is Django's {view}: {_outcome()}."
            yield _message("W009", text, hint)


def _password_views(patterns: Any, front: str = "") -> Iterator[tuple[str, str, Any]]:
    kinds = (djangos_views.PasswordChangeView, djangos_views.PasswordResetConfirmView)
    for url in patterns:
        route = front + str(url.pattern)
        if hasattr(url, "url_patterns"):
            yield from _password_views(url.url_patterns, route)
            continue
        view = getattr(url.callback, "view_class", None)
        if view is not None and issubclass(view, kinds):
            form = url.callback.view_initkwargs.get("form_class", view.form_class)
            yield route, view.__name__, form


def command(**_: Any) -> Messages:
    """Reports W010: `manage.py changepassword` is Django's."""
    if get_commands().get("changepassword") == "django.contrib.auth":
        outcome = "a traceback" if _compares() else "undone"
        text = "changepassword is Django's own: a simultaneous change is"
        hint = "Put 'rigzumal.django' before 'django.contrib.auth' in INSTALLED_APPS."
        yield _message("W010", f"{text} {outcome}.", hint)


def unlisted_hashers(databases: Any = None, **_: Any) -> Messages:
    """Reports W011: the table has records without a listed hasher: their users can't log in."""
    field = _password_field()
    if field is None or _classes("PASSWORD_HASHERS", "E015")[1]:
        return
    hint = "List your earlier hashers after Rigzumal's."
    for alias in databases or []:
        if not router.allow_migrate_model(alias, field.model):
            continue
        found = _unlisted(field.model, alias)
        if found is not None:
            text = f"The database {alias!r} has records of {found}, which"
            text += " PASSWORD_HASHERS doesn't list: their users can't log in."
            yield _message("W011", text, hint)


def _unlisted(holder: Any, alias: str) -> Optional[str]:
    """Returns the algorithm of a record that no listed hasher accepts, or None."""
    if holder._meta.db_table not in connections[alias].introspection.table_names():
        return None  # `migrate` runs the checks too, before it creates the table.
    others = holder._base_manager.using(alias).exclude(password="")
    others = others.exclude(password__startswith=djangos.UNUSABLE_PASSWORD_PREFIX)
    for algorithm in djangos.get_hashers_by_algorithm():
        others = others.exclude(password__startswith=f"{algorithm}$")
    for record in others.values_list("password", flat=True).iterator():
        try:
            djangos.identify_hasher(record)
        except ValueError:
            name = record.partition("$")[0]
            classes = [it for it in vars(djangos).values() if isinstance(it, type)]
            known = {getattr(it, "algorithm", None) for it in classes}
            # The check shows no text that isn't Django's: it may be a password in the clear.
            return repr(name) if name in known else "another hasher"
    return None
