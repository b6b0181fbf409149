"""The differences between databases: a file for each driver.

Your own dialect is a subclass of `Dialect`, which documents each part. The tests of every engine,
`python/tests/accounts/of_engines.py`, can also test your dialect.
"""

from rigzumal.accounts.dialects._dialect import Dialect, Mode, Verdict
from rigzumal.accounts.dialects._faults import Fault, Findings, Severity
from rigzumal.accounts.dialects.mariadb import MariaDB, MySQL
from rigzumal.accounts.dialects.postgres import Postgres
from rigzumal.accounts.dialects.sqlite import Sqlite

__all__ = [
    "Dialect",
    "Fault",
    "Findings",
    "MariaDB",
    "Mode",
    "MySQL",
    "Postgres",
    "Severity",
    "Sqlite",
    "Verdict",
]
