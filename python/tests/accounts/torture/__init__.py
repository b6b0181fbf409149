"""Runs many processes at the same time on one database, and judges their answers.

    /usr/bin/python3 python/tests/accounts/torture --database URL --processes 8 --kill
    /usr/bin/python3 python/tests/accounts/torture LOG..

The processes run operations on a few accounts in a new table, with almost free hashes. `history`
decides whether their answers are one legal history, from the logs that `logs` describes. The second
command only judges logs.
"""

from torture._torture import Torture
from torture.history import verdict

__all__ = ["Torture", "verdict"]
