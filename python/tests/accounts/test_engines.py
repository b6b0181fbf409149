"""The operations on each engine; the engines' traps are in separate files."""

import engines
import of_engines
import of_hooks
import of_tables
from support import Base, commanded
from rigzumal.accounts import cli
from torture import __main__ as torture

SERVERS = (engines.OnPostgres, engines.OnMariaDB, engines.OnMySQL)
ENGINES = (engines.OnSqlite, *SERVERS)
TASKS = (engines.OnSqliteTasks, engines.OnPostgresTasks)
HASHERS = (engines.OnSqliteWithPepper, engines.OnSqliteWithScrypt)
# Tests that don't apply if a connection isn't one session, or the other node doesn't see a lock.
SHARED = (engines.OnPgBouncer, engines.OnGalera)


globals().update(
    engines.made(suite, engine)
    for suite, on in (
        (of_engines.Operations, (*ENGINES, *TASKS, engines.OnAiosqlite, *SHARED, *HASHERS)),
        (of_engines.LostAnswers, (*ENGINES, *TASKS, *SHARED)),
        (of_tables.Connections, ENGINES),
        (of_tables.Tables, ENGINES),
        (of_engines.Confirmed, (*ENGINES, *SHARED)),
        (of_hooks.RowsOfOnesOwn, (*ENGINES, *SHARED)),
        (of_engines.OnServers, SERVERS),
        (of_engines.AtOnce, SERVERS[:2]),
    )
    for engine in on
)


class TheCommandOnMySQL(engines.OnMySQL, Base):
    def test_a_table_and_a_torture(self):
        """The command creates a table, and a torture of the table is legal."""
        given = ("--database", self.server.url)
        commanded(cli.main, *given, "--table", "made", "init")
        words = ["--seconds", "3", "--processes", "4", "--kill"]
        self.assertIn("legal: ", commanded(torture.main, *given, *words))
        self.execute("DROP TABLE made")
