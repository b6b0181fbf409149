"""Settings of the tests. FRAMEWORKS_POSTGRES=PORT selects PostgreSQL instead of SQLite."""

import os
import tempfile

ROOM = os.environ.get("FRAMEWORKS_ROOM") or tempfile.mkdtemp(prefix="rigzumal-")
PORT = os.environ.get("FRAMEWORKS_POSTGRES")


def _database(name):
    if PORT:
        engine = {"ENGINE": "django.db.backends.postgresql", "HOST": "127.0.0.1"}
        return {**engine, "PORT": PORT, "USER": "store", "NAME": name}
    sqlite = {"ENGINE": "django.db.backends.sqlite3", "NAME": f"{ROOM}/{name}.db"}
    return {**sqlite, "OPTIONS": {"timeout": 60}, "TEST": {"NAME": f"{ROOM}/test-{name}.db"}}


DATABASES = {"default": _database("one"), "other": _database("two")}
INSTALLED_APPS = [
    # Before auth: its changepassword is ours.
    *("rigzumal.django", "rigzumal.django.apps.AdminConfig", "users_app"),
    *(f"django.contrib.{it}" for it in ("auth", "contenttypes", "sessions", "messages")),
]
PASSWORD_HASHERS = [
    *(f"rigzumal.django.hashers.{it}PasswordHasher" for it in ("Argon2", "Scrypt")),
    *(f"django.contrib.auth.hashers.{it}PasswordHasher" for it in ("PBKDF2", "MD5")),
]
AUTHENTICATION_BACKENDS = ["rigzumal.django.backends.CompareAndSetBackend"]
MIDDLEWARE = [
    "django.contrib.sessions.middleware.SessionMiddleware",
    "django.contrib.auth.middleware.AuthenticationMiddleware",
    "django.contrib.messages.middleware.MessageMiddleware",
]
_ENGINE = {"BACKEND": "django.template.backends.django.DjangoTemplates", "APP_DIRS": True}
_PROCESSORS = ("template.{}.request", "contrib.auth.{}.auth", "contrib.messages.{}.messages")
_ADDED = [f"django.{it.format('context_processors')}" for it in _PROCESSORS]
TEMPLATES = [{**_ENGINE, "OPTIONS": {"context_processors": _ADDED}}]
ROOT_URLCONF = "urls"
SECRET_KEY = "of the tests"
DEFAULT_AUTO_FIELD = "django.db.models.AutoField"
USE_TZ = True
STATIC_URL = "/static/"
# The tables are created from the models, since a model of the tests inherits from one of auth's.
MIGRATION_MODULES = {name: None for name in ("admin", "auth", "contenttypes", "sessions")}
