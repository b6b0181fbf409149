"""Runs Django's own tests of its hashers and of auth over Rigzumal: a sample of them, or all with
RIGZUMAL_WHOLE=1.

    python3 django_own.py FOLDER-OF-DJANGO'S-SOURCE [LABEL..]

Its stock User compares, as with RIGZUMAL_USER_COMPARES. FRAMEWORKS_POSTGRES=PORT selects PostgreSQL
instead of SQLite.
"""

import os
import pathlib
import sys

import here  # noqa: F401: the paths

FOLDER = pathlib.Path(sys.argv[1]) / "tests"
sys.path.insert(0, str(FOLDER))

import django
from django.conf import global_settings, settings
from django.test.runner import DiscoverRunner
import runtests
from settings import DATABASES, PORT, ROOM, TEMPLATES

BACKEND = "rigzumal.django.backends.CompareAndSetBackend"
# The tests that fail under these settings, and the reasons.
EXPECTED = {
    "test_username_non_unique": "names that aren't unique are an error to Django only if"
    " its own backend is the one that is used, else a warning",
    "test_username_partially_unique": "the same",
}
if django.VERSION < (5, 1):
    EXPECTED["test_view_user_password_is_readonly"] = "it takes a record for MD5's, of three parts"
if django.VERSION >= (4, 2):
    EXPECTED["test_check_password_fake_runtime"] = "its mock of `encode` makes no record"
# The tests require PBKDF2 first, and the others by their algorithms.
OURS = [f"{scheme}PasswordHasher" for scheme in ("Argon2", "Scrypt")]
global_settings.PASSWORD_HASHERS = [
    *(it for it in global_settings.PASSWORD_HASHERS if not it.endswith(tuple(OURS))),
    *(f"rigzumal.django.hashers.{it}" for it in OURS),
]
global_settings.AUTHENTICATION_BACKENDS = [BACKEND]
# As in Django's runner.
if (4, 1) <= django.VERSION < (5, 0):
    global_settings.FORM_RENDERER = "django.forms.renderers.DjangoDivFormRenderer"

if not PORT:
    for name, database in DATABASES.items():
        database["TEST"] = {"NAME": f"file:{name}?mode=memory&cache=shared"}

# The settings of that runner; the app comes behind auth, so the command is Django's.
settings.configure(
    DATABASES=DATABASES,
    INSTALLED_APPS=[*runtests.ALWAYS_INSTALLED_APPS, "auth_tests", "rigzumal.django"],
    MIDDLEWARE=runtests.ALWAYS_MIDDLEWARE,
    TEMPLATES=[{**TEMPLATES[0], "DIRS": [runtests.TEMPLATE_DIR]}],
    ROOT_URLCONF="urls",
    STATIC_URL="static/",
    STATIC_ROOT=os.path.join(ROOM, "static"),
    LANGUAGE_CODE="en",
    SITE_ID=1,
    PASSWORD_HASHERS=["meanwhile.Argon2", "django.contrib.auth.hashers.MD5PasswordHasher"],
    MIGRATION_MODULES={"auth": None, "contenttypes": None, "sessions": None},
    SILENCED_SYSTEM_CHECKS=["fields.W342", "fields.W903", "models.W042"],
    SECRET_KEY="django_tests_secret_key",
    USE_TZ=False,
)
django.setup()
from auth_tests import test_auth_backends
from django.contrib.auth.models import User

from rigzumal.django.users import make_comparing
from tests.samples import sample
from tests.told import tests_in

make_comparing(User)
# Django's tests add the backend under test behind those of the settings.
test_auth_backends.BaseModelBackendTest.backend = BACKEND


def names_of(tests):
    """The names of the methods of these tests, or of the tests of these subtests."""
    return {it.id().partition(" ")[0].rpartition(".")[2] for it in tests}


class Runner(DiscoverRunner):
    """Django's runner, which runs a sample of the tests, and accepts the expected failures."""

    def build_suite(self, *labels, **named):
        tests = sample([*tests_in(super().build_suite(*labels, **named))])
        self.names = names_of(tests)
        return self.test_suite(tests)

    def suite_result(self, suite, result, **kwargs):
        failed = names_of(it for it, _ in result.failures + result.errors)
        print("skipped:", len(result.skipped), sorted({why for _, why in result.skipped}))
        for name in sorted(failed & EXPECTED.keys()):
            print(f"fails as expected: {name}: {EXPECTED[name]}")
        unexpected = failed ^ (EXPECTED.keys() & self.names)
        for name in sorted(unexpected):
            print("NOT EXPECTED:", name, "failed" if name in failed else "passed")
        return len(unexpected)


words = [it for it in sys.argv[2:] if not it.startswith("-")]
sys.exit(bool(Runner(verbosity=1).run_tests(words or ["auth_tests"])))
