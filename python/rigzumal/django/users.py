"""A mixin for user models: the models' own methods compare before they write.

    class User(CompareAndSetMixin, AbstractUser):
        pass

A project with Django's own User sets RIGZUMAL_USER_COMPARES = True: see `make_comparing`.
"""

# mypy: allow-subclassing-any

from __future__ import annotations

import contextlib
from collections.abc import Collection, Iterable, Iterator
from typing import Any, Optional

from django.contrib.auth import hashers
from django.contrib.auth.base_user import AbstractBaseUser
from django.core.exceptions import ImproperlyConfigured
from django.db import connections, models, transaction

from rigzumal._hidden import hidden_below, hidden_in_django
from rigzumal.django import records
from rigzumal.django.records import RecordChanged


class CompareAndSetMixin(models.Model):
    """Put this mixin before AbstractBaseUser or AbstractUser among a model's bases.

    - `check_password` replaces a record with old costs only if the row still has that record.
    - `save` writes the password only if your code has set the password since the user was read, and
      only over the record that was read. If the password is set and the row has another record,
      `save` raises RecordChanged and writes no field. Saving other fields therefore never restores
      an old password.

    Everything else is as in Model. Put your own methods that check or set passwords in a class
    before the mixin, and let them call `super()`. These ways of writing don't compare: `update`,
    `bulk_create`, `bulk_update`, fixtures, and a save to a database other than the router's.

    The mixin is an abstract model without fields, so no migration names it.
    """

    password: str

    class Meta:
        abstract = True

    @classmethod
    def from_db(cls, db: Any, field_names: Any, values: Any, **more: Any) -> Any:
        """Django calls this method for each row that it reads."""
        user = super().from_db(db, field_names, values, **more)
        user._note_read()
        return user

    def refresh_from_db(
        self,
        using: Optional[str] = None,
        fields: Optional[Collection[str]] = None,
        **kwargs: Any,
    ) -> None:
        """Reads the fields again, like Model's method."""
        super().refresh_from_db(using=using, fields=fields, **kwargs)
        if fields is None or "password" in fields:
            self._note_read()
            self._password = None  # it wasn't saved, so no validator is called

    def _note_read(self) -> None:
        if "password" in self.__dict__:
            records.note_read(self, self._state.db, self.password)

    @hidden_below
    def check_password(self, raw_password: Any) -> bool:
        """Returns whether the password is right, and raises RecordChanged if the record changed
        eight times."""
        copy = records.known_copy(self, records.database_of(self))
        if self._state.adding or copy is None or self.password != copy.newest:
            # A password was set and isn't saved yet.
            return bool(hashers.check_password(raw_password, self.password))
        return records.judge_login(self, raw_password)

    acheck_password = records.awaited(
        lambda self, raw_password: bool(self.check_password(raw_password))
    )

    @hidden_below
    def set_password(self, raw_password: Any) -> None:
        """Sets the password, like the method of AbstractBaseUser; `save` writes it."""
        _ = self.password  # Reads a deferred password, so that the save compares it.
        super().set_password(raw_password)

    def set_unusable_password(self) -> None:
        """Sets an unusable record, for which every password is wrong; `save` writes it."""
        _ = self.password
        super().set_unusable_password()

    @hidden_in_django
    def save(
        self,
        force_insert: Any = False,
        force_update: bool = False,
        using: Optional[str] = None,
        update_fields: Optional[Iterable[str]] = None,
    ) -> None:
        """Writes the user, like Model's method.

        Raises:
            RecordChanged: the password was set, and the row's record has changed. The
                caller's transaction can continue.
        """
        if update_fields is not None:
            update_fields = frozenset(update_fields)
        database = using or records.database_of(self)
        savepoint: Any = contextlib.nullcontext()
        if self._may_lose(database, update_fields):
            savepoint = transaction.atomic(database)
        try:
            with savepoint:
                super().save(
                    force_insert=force_insert,
                    force_update=force_update,
                    using=using,
                    update_fields=update_fields,
                )
        except RecordChanged:
            self._password = None  # it wasn't saved, so no validator is called
            raise

    def _may_lose(self, database: str, update_fields: Optional[Collection[str]]) -> bool:
        """Whether a save, in a transaction, writes a password over the record that was read."""
        if update_fields is not None and "password" not in update_fields:
            return False
        copy = records.known_copy(self, database)
        return (
            connections[database].in_atomic_block
            and copy is not None
            and "password" in self.__dict__
            and (self.password != copy.newest or copy.is_in_doubt(database))
        )

    @hidden_in_django
    def _do_update(
        self, rows: Any, using: str, pk: Any, values: Any, *rest: Any, **more: Any
    ) -> Any:
        """Runs Model's UPDATE of one table, which compares if it writes the password."""
        update = super()._do_update
        written = [it[2] for it in values if it[0].attname == "password"]
        copy = records.known_copy(self, using)
        if not written or copy is None:
            updated = update(rows, using, pk, values, *rest, **more)
            if written and updated:
                records.note_put(self, using, records.Copy(written[0]))
            return updated
        if written[0] == copy.newest and not copy.is_in_doubt(using):
            others = [it for it in values if it[0].attname != "password"]
            return update(rows, using, pk, others, *rest, **more)
        # A `bulk_update` of this user may have written the new record already.
        compared = rows.filter(password__in=[*copy.records, written[0]])
        updated = update(compared, using, pk, values, *rest, **more)
        if updated:
            records.note_put(self, using, copy.followed_by(written[0], using))
        elif rows.filter(pk=pk).exists():
            raise RecordChanged
        return updated

    @hidden_in_django
    def _do_insert(self, manager: Any, using: str, fields: Any, *rest: Any, **more: Any) -> Any:
        """Runs Model's INSERT into one table."""
        made = super()._do_insert(manager, using, fields, *rest, **more)
        if any(it.attname == "password" for it in fields):
            # Before Django sends post_save, whose handlers may save again.
            records.note_put(self, using, records.Copy(self.password))
        return made


# Otherwise this Meta would come before AbstractUser's.
del CompareAndSetMixin.Meta


def make_comparing(model: Any) -> None:
    """Puts the mixin before a model's bases, as if the model's source had it there.

    If RIGZUMAL_USER_COMPARES is True, the app calls this function for the user model.
    """
    if not issubclass(model, CompareAndSetMixin):
        model.__bases__ = (CompareAndSetMixin, *model.__bases__)


@contextlib.contextmanager
def comparing(model: Any) -> Iterator[None]:
    """Applies `make_comparing` for the duration of a `with` block."""
    bases = model.__bases__
    make_comparing(model)
    try:
        yield
    finally:
        model.__bases__ = bases


def own_methods(classes: Any, *names: str) -> list[str]:
    """Returns the methods with these names that belong neither to Django nor to the mixin."""
    known = (AbstractBaseUser, CompareAndSetMixin)
    others = [cls for cls in classes if cls not in known]
    return [f"{cls.__qualname__}.{name}" for name in names for cls in others if name in vars(cls)]


def unreached_methods(model: Any) -> list[str]:
    """Returns a model's own methods that our calls would skip, or that would not compare."""
    classes = model.__mro__
    if not issubclass(model, CompareAndSetMixin):
        return own_methods(classes, "check_password", "set_password")
    behind = classes[classes.index(CompareAndSetMixin) :]
    return own_methods(behind, "check_password")


def has_own_methods(user: Any) -> bool:
    """Returns whether the user's model has such methods. Raises ImproperlyConfigured if our calls
    can't reach one."""
    unreached = unreached_methods(user.__class__)
    if unreached:
        raise ImproperlyConfigured(
            f"our calls would skip {unreached[0]}: give {user._meta.label} the"
            " CompareAndSetMixin, after the class that has the method"
        )
    return bool(own_methods(user.__class__.__mro__, "check_password", "set_password"))
