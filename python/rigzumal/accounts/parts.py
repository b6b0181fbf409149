"""The old name of `rigzumal.accounts.types`, which works until the next version."""

from rigzumal.accounts.types import *  # noqa: F401,F403
