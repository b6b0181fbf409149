"""User models of several shapes, for the tests."""

from django.contrib.auth.base_user import AbstractBaseUser, BaseUserManager
from django.contrib.auth.models import AbstractUser, User, UserManager
from django.db import models

from rigzumal.django.users import CompareAndSetMixin


class Member(User):
    """Inherits its password from another table."""

    card = models.CharField(max_length=20)


class Staff(User):
    """A proxy: the same table by another name."""

    class Meta:
        proxy = True


class Groupless(AbstractUser):
    """AbstractUser without the tables of groups and permissions."""

    groups = None
    user_permissions = None

    class Meta:
        abstract = True


class Plain(Groupless):
    """A custom model in Django's own form, for a comparison with the mixin."""


class Person(CompareAndSetMixin, Groupless):
    """A custom model with the mixin."""


class Pupil(CompareAndSetMixin, Plain):
    """The mixin in a child, whose password is in its parent's table."""

    form = models.CharField(max_length=20, default="")


class Methods:
    """A model's own methods: they add a pepper, and note a change."""

    pepper = "pepper "

    def check_password(self, raw_password):
        self.checks = getattr(self, "checks", 0) + 1
        return super().check_password(self.pepper + raw_password)

    def set_password(self, raw_password):
        super().set_password(self.pepper + raw_password)
        self.changes += 1


class Counted(models.Model):
    """The column of these methods."""

    changes = models.IntegerField(default=0)

    class Meta:
        abstract = True


class Peppered(Methods, CompareAndSetMixin, Counted, Groupless):
    """A model with its own methods before the mixin."""


class Unreached(CompareAndSetMixin, Methods, Counted, Groupless):
    """A model with its own methods after the mixin, which would skip them."""


class Unmixed(Methods, Counted, Groupless):
    """A model with its own methods and without the mixin."""


class OnlyActive(UserManager):
    """A manager that hides rows, as some projects have."""

    def get_queryset(self):
        return super().get_queryset().filter(is_active=True)


class Hidden(Groupless):
    """A model whose default manager hides some users."""

    objects = OnlyActive()


class ByMail(AbstractBaseUser):
    """A user model whose name is an address, without is_active and permissions."""

    mail = models.EmailField(unique=True)
    objects = BaseUserManager()
    USERNAME_FIELD = "mail"


class NoPassword(models.Model):
    """A user model whose users come from elsewhere."""

    name = models.CharField(max_length=30, unique=True)
    USERNAME_FIELD = "name"
    REQUIRED_FIELDS = []
    is_anonymous = False
    is_authenticated = True
