"""The messages of `manage.py check`."""

import contextlib
import itertools
import runpy
import sys
import unittest
from unittest import mock

import project  # noqa: F401: Django, set up
from django.conf import settings
from django.contrib import admin
from django.contrib.auth import admin as djangos_admin
from django.contrib.auth import hashers
from django.contrib.auth import views as djangos_views
from django.contrib.auth.backends import ModelBackend
from django.contrib.auth.models import User
from django.core.checks import run_checks
from django.test import TestCase, override_settings
from django.urls import get_resolver, include, path
from meanwhile import Cheap, comparing

from rigzumal.django import admin as our_admin
from rigzumal.django import checks, forms
from tests.helpers import each, run

try:
    import psycopg
except ImportError:
    psycopg = None

THEIRS, OURS = "django.contrib.auth.backends.", "rigzumal.django.backends.CompareAndSetBackend"
# Backends, and the messages about them: for a stock User, and for one that compares.
NO_CLASS = f"{__name__}.urlpatterns"
UPGRADING = [THEIRS + "ModelBackend", THEIRS + "AllowAllUsersModelBackend"]
BACKENDS = [
    *((it, [], []) for it in ([OURS], [OURS, THEIRS + "RemoteUserBackend"])),
    ([THEIRS + "RemoteUserBackend"], ["W001"], []),
    ([THEIRS + "ModelBackend"], ["W001", "W002"], ["W014"]),
    *(([OURS, it], ["W002"], []) for it in (*UPGRADING, f"{__name__}.EmailBackend")),
    *(([OURS, it], ["E012"], ["E012"]) for it in ("nowhere.Backend", ".", NO_CLASS)),
    *((it, ["E012", "W001"], ["E012"]) for it in ([], OURS)),  # a tuple of one without its comma
]
OUR_ARGON2, OUR_SCRYPT = (
    f"rigzumal.django.hashers.{it}PasswordHasher" for it in ("Argon2", "Scrypt")
)
ARGON2, PBKDF2 = (f"django.contrib.auth.hashers.{it}PasswordHasher" for it in ("Argon2", "PBKDF2"))
# Hashers: if two have one name, Django asks the later, so its own would judge our records.
HASHERS = [
    *((it, []) for it in ([OUR_SCRYPT], ["meanwhile.Argon2"], [OUR_ARGON2, PBKDF2])),
    ([OUR_ARGON2, ARGON2, "meanwhile.Argon2"], []),
    *((it, ["W004"]) for it in ([PBKDF2], [ARGON2, OUR_ARGON2])),
    *(([it, ARGON2], ["E013"]) for it in (OUR_ARGON2, "meanwhile.Argon2")),
    ([OUR_SCRYPT, f"{__name__}.ScryptLike"], ["E013"]),
    *(([OUR_ARGON2, it], ["E015"]) for it in ("nowhere.Hasher", NO_CLASS)),
    *((it, ["E015"]) for it in ([], OUR_ARGON2)),
]
# Names of settings that nobody reads, and the check whose hint names them.
MISSPELT = [
    ("AUTHENTICATION_BACKEND", "W001", {"AUTHENTICATION_BACKENDS": [THEIRS + "ModelBackend"]}),
    ("PASSWORD_HASHER", "W004", {"PASSWORD_HASHERS": [PBKDF2]}),
    ("RIGZUMAL_USER_COMPARE", "W007", {}),
]
# Levels of isolation in the options of a database, and whether they are of snapshots.
ISOLATION = "-c default_transaction_isolation"
POSTGRES = [
    ({}, False),
    ({"isolation_level": "repeatable read"}, True),
    ({"isolation_level": "READ COMMITTED"}, False),
    *(({"isolation_level": it}, it in (2, 3)) for it in (1, 2, 3, None)),  # psycopg2's
    *(({"options": f"{ISOLATION}={it}"}, True) for it in ("serializable", "repeatable\\ read")),
    ({"options": "-c lock_timeout=5 --default-transaction-isolation=SERIALIZABLE"}, True),
    ({"options": f"{ISOLATION}=read\\ committed"}, False),
    ({"options": "-c search_path=serializable"}, False),
]
if psycopg:  # whose numbers aren't psycopg2's
    snapshots = (psycopg.IsolationLevel.REPEATABLE_READ, psycopg.IsolationLevel.SERIALIZABLE)
    POSTGRES += [({"isolation_level": it}, it in snapshots) for it in psycopg.IsolationLevel]
MYSQL = [
    ({}, False),  # Django's own level is READ COMMITTED
    ({"isolation_level": None}, True),  # the server's
    ({"init_command": "SET SESSION TRANSACTION ISOLATION LEVEL REPEATABLE READ"}, True),
    ({"init_command": "SET SESSION TRANSACTION ISOLATION LEVEL READ COMMITTED"}, False),
    ({"init_command": "SET transaction_isolation='SERIALIZABLE'"}, True),
    ({"init_command": "SET sql_mode='STRICT_TRANS_TABLES'"}, False),
]


class Checks(unittest.TestCase):
    """The checks with a stock User, without W007, which warns of such a User."""

    def found(self):
        found = [it for it in run_checks(tags=["security"]) if it.id.startswith("rigzumal.")]
        for message in found:
            self.assertIs(message.is_serious(), message.id.startswith("rigzumal.E"))
            self.assertTrue(message.hint)
        return [it for it in found if it.id != "rigzumal.W007"]

    def ids(self, **settings):
        with override_settings(**settings):
            return sorted(it.id.rpartition(".")[2] for it in self.found())

    def test_all_is_well(self):
        self.assertEqual(self.ids(), [])
        with comparing():
            self.assertEqual([it for it in run_checks() if it.id.startswith("rigzumal")], [])
        self.assertEqual(self.ids(AUTH_USER_MODEL="users_app.NoPassword"), [])

    @each(*BACKENDS)
    def test_backends(self, listed, of_stock, of_comparing):
        self.assertEqual(self.ids(AUTHENTICATION_BACKENDS=listed), of_stock)
        with comparing():
            self.assertEqual(self.ids(AUTHENTICATION_BACKENDS=listed), of_comparing)
        with override_settings(AUTHENTICATION_BACKENDS=listed):
            for message in self.found():
                if "W001" in message.id:
                    self.assertIn("a CompareAndSetBackend", message.msg)
                elif listed and not isinstance(listed, str):
                    self.assertIn(listed[-1], message.msg)

    @each(*HASHERS)
    def test_hashers(self, listed, said):
        self.assertEqual(self.ids(PASSWORD_HASHERS=listed), said)
        if said == ["E013"]:
            with override_settings(PASSWORD_HASHERS=listed):
                self.assertIn(listed[-1], self.found()[0].msg)

    def test_a_database_whose_hashers_are_wrong(self):
        """If the hashers of a database are wrong, the look at its records adds no message."""
        with override_settings(PASSWORD_HASHERS=[OUR_ARGON2, "nowhere.Hasher"]):
            self.assertEqual([*checks.unlisted_hashers(databases=["default"])], [])

    @each(*itertools.product(MISSPELT, (True, False)))
    def test_a_misspelt_setting_is_named(self, misspelt, is_there):
        name, number, more = misspelt
        with override_settings(**{name: []} if is_there else {}, **more):
            (hint,) = (it.hint for it in run_checks() if it.id == f"rigzumal.{number}")
        self.assertEqual(f" {name}:" in hint, is_there)

    @each(*(("postgresql", *it) for it in POSTGRES), *(("mysql", *it) for it in MYSQL))
    def test_levels_of_isolation(self, engine, options, is_warned):
        sqlite = {"ENGINE": "django.db.backends.sqlite3"}
        other = {"ENGINE": f"django.db.backends.{engine}", "OPTIONS": options}
        with mock.patch.object(checks.settings, "DATABASES", {"default": sqlite, "other": other}):
            self.assertEqual(self.ids(), ["W005"] * is_warned)

    @each((127, ["E003"]), (128, []), (None, []))
    def test_a_short_column(self, width, said):
        with mock.patch.object(User._meta.get_field("password"), "max_length", width):
            self.assertEqual(self.ids(), said)

    def test_a_model_that_does_not_compare(self):
        (warning,) = checks.user_model()
        self.assertEqual(warning.id, "rigzumal.W007")
        self.assertIn("RIGZUMAL_USER_COMPARES", warning.hint)

    @each(
        ("Unmixed", ["Methods.check_password", "Methods.set_password"]),
        ("Unreached", ["Methods.check_password"]),
        ("Peppered", []),
        ("Person", []),
    )
    def test_methods_that_would_be_passed_over(self, model, names):
        with override_settings(AUTH_USER_MODEL=f"users_app.{model}"):
            found = [it for it in self.found() if it.id == "rigzumal.E006"]
        said = [f"Our calls would bypass {name}, and therefore refuse logins." for name in names]
        self.assertEqual([it.msg for it in found], said)

    def test_the_admin(self):
        get_resolver().url_patterns  # urls.py registers ours
        site = admin.AdminSite(name="theirs")
        site.register(User, djangos_admin.UserAdmin)
        for compares, text in ((contextlib.nullcontext, "may undo"), (comparing, "error page")):
            with compares():
                found = self.found()
            self.assertEqual([it.id for it in found], ["rigzumal.W008"] * 2)
            self.assertTrue(all("'theirs'" in it.msg and text in it.msg for it in found))
        site.unregister(User)
        self.assertEqual(self.ids(), [])  # a site of nothing has no pages

    def test_urls(self):
        with override_settings(ROOT_URLCONF=__name__):
            found = self.found()
        self.assertEqual({it.id for it in found}, {"rigzumal.W009"})
        routes = ("'theirs/password_change/'", "'theirs/reset/<uidb64>/<token>/'", "'alone/'")
        self.assertEqual([it.msg.split()[2] for it in found], list(routes))

    def test_no_urls(self):
        """A project may have no URLs, and no setting for them."""
        with override_settings():
            del settings.ROOT_URLCONF
            self.assertEqual(self.ids(), [])

    @each(("django.contrib.auth", ["W010"]), ("own", []))
    def test_the_command(self, owner, said):
        with mock.patch.object(checks, "get_commands", lambda: {"changepassword": owner}):
            self.assertEqual(self.ids(), said)


class ScryptLike(hashers.MD5PasswordHasher):
    algorithm = "scrypt"


class EmailBackend(ModelBackend):
    """The usual snippet: a project's own backend."""

    def authenticate(self, request, username=None, password=None, **kwargs):
        user = User.objects.get(email=username)
        return user if user.check_password(password) else None


ours = forms.PasswordChangeForm
urlpatterns = [
    path("theirs/", include("django.contrib.auth.urls")),
    path("ours/", include("rigzumal.django.urls")),
    path("alone/", djangos_views.PasswordChangeView.as_view()),
    path("with-our-form/", djangos_views.PasswordChangeView.as_view(form_class=ours)),
]


class Projects(unittest.TestCase):
    @each((djangos_admin, False, False), (djangos_admin, True, True), (our_admin, True, False))
    def test_the_admin_of_the_setting(self, owner, compares, is_replaced):
        """The setting's admin replaces Django's own, and leaves a project's own."""
        registered = owner.UserAdmin(User, admin.site)
        registry = mock.patch.dict(admin.site._registry, {User: registered})
        with registry, override_settings(RIGZUMAL_USER_COMPARES=compares):
            runpy.run_path(our_admin.__file__, run_name="ran")
            found = type(admin.site._registry[User]).__module__
        self.assertEqual(found, "ran" if is_replaced else owner.__name__)

    def test_without_the_app(self):
        """Hashers, backends and the admin's app refuse a project without the app, whose settings
        would have no effect."""
        code = (
            "from django.conf import settings\n"
            "settings.configure(INSTALLED_APPS={apps}, SECRET_KEY='x', USE_TZ=True,\n"
            "    PASSWORD_HASHERS=['rigzumal.django.hashers.Argon2PasswordHasher'])\n"
            "import django; django.setup()\n"
            "{act}\nprint('went on')"
        )
        theirs = ["django.contrib.auth", "django.contrib.contenttypes"]
        admins = [*theirs, "django.contrib.sessions", "django.contrib.messages"]
        hashes = "from django.contrib.auth import hashers; hashers.get_hasher()"
        logs_in = f"from django.contrib.auth import load_backend; load_backend({OURS!r})"
        for apps, act, is_refused in (
            (theirs, hashes, True),
            (theirs, logs_in, True),
            (["rigzumal.django.apps.AdminConfig", *admins], "", True),
            (["rigzumal.django", *theirs], f"{hashes}; {logs_in}", False),
            (["rigzumal.django", "rigzumal.django.apps.AdminConfig", *admins], hashes, False),
            ([], hashes, False),  # a script that has no users
        ):
            with self.subTest(apps=apps, act=act):
                words = (sys.executable, "-c", code.format(apps=apps, act=act))
                said = run(*words, env={"DJANGO_SETTINGS_MODULE": ""}, status=int(is_refused))
                wanted = "ImproperlyConfigured: put 'rigzumal.django'" if is_refused else "went on"
                self.assertIn(wanted, said if is_refused else [said.strip()])


class Records(Cheap, TestCase):
    """`manage.py check --database default` looks at the records."""

    def found(self):
        return [it.msg for it in run_checks(databases=["default"]) if it.id == "rigzumal.W011"]

    def test_a_project_that_has_users(self):
        """Settings with one hasher lock out users who have a record of Django's default."""
        User.objects.create_user("new", password="secret")
        User.objects.create_user("none")
        ann = User.objects.create(username="ann")
        for algorithm in ("pbkdf2_sha256", "md5"):
            ann.password = hashers.make_password("secret", hasher=algorithm)
            ann.save()
            self.assertEqual(self.found(), [])
            with override_settings(PASSWORD_HASHERS=["meanwhile.Argon2"]):
                (said,) = self.found()
                self.assertIn(f"'{algorithm}'", said)
                self.assertEqual([it.id for it in run_checks()], ["rigzumal.W007"])  # asks none

    def test_what_is_no_record_is_not_shown(self):
        User.objects.create(username="ann", password="topsecret$1")
        (said,) = self.found()
        self.assertIn("another hasher", said)
        self.assertNotIn("topsecret", said)

    def test_unsalted_md5(self):
        User.objects.create(username="ann", password="5f4dcc3b5aa765d61d8327deb882cf99")
        self.assertEqual(len(self.found()), 1)
        unsalted = "django.contrib.auth.hashers.UnsaltedMD5PasswordHasher"
        if hasattr(hashers, "UnsaltedMD5PasswordHasher"):
            with override_settings(PASSWORD_HASHERS=["meanwhile.Argon2", unsalted]):
                self.assertEqual(self.found(), [])

    def test_no_table_and_no_column(self):
        """The checks find nothing before the tables are created, and for a model without a
        password."""
        User.objects.create(username="ann", password="topsecret$1")
        with mock.patch.object(User._meta, "db_table", "not_made_yet"):
            self.assertEqual(self.found(), [])
        with override_settings(AUTH_USER_MODEL="users_app.NoPassword"):
            self.assertEqual(self.found(), [])
