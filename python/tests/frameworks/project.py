"""The tests' project of Django, with its databases; each test of Django imports it first.
FRAMEWORKS_POSTGRES=PORT selects PostgreSQL instead of SQLite.
"""

import atexit
import os

import here  # noqa: F401 (before rigzumal)
from tests.helpers import need_module

os.environ.setdefault("DJANGO_SETTINGS_MODULE", "settings")
need_module("django")

import django

django.setup()

from django.core.checks import run_checks
from django.db.backends.signals import connection_created
from django.test import utils


def hurry(connection, **_):
    """Makes SQLite wait for no disk, since no test loses power."""
    if connection.vendor == "sqlite":
        connection.cursor().execute("PRAGMA synchronous = OFF")


connection_created.connect(hurry)

run_checks()  # which reads the URLs, and runs their registrations, as `manage.py test` does
utils.setup_test_environment()
_databases = utils.setup_databases(0, False)
atexit.register(utils.teardown_databases, _databases, 0)
