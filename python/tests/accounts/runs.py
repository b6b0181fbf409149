"""A torture in a separate process, and the servers that it uses."""

import contextlib
import functools
import itertools
import multiprocessing
import os
import random
import re
import signal
import sys
import time

import disks
import servers
from galera import Galera
from support import server
import torture
from rigzumal.accounts import Accounts, MariaDB, PerThread, Reply
from tests.helpers import longest, until
from torture import logs
from torture._torture import LOW, hasher

SECONDS = float(os.environ.get("RIGZUMAL_SECONDS", "8"))


# SQLite's message on a full disk, also in the words of Python before 3.11.
FULL = "SQLITE_FULL|SQLITE_IOERR|OperationalError;"


# The exceptions of operations, by a line each.
EXPECTED = re.compile("(StoreFault|OutcomeUnknown|Unavailable|NoConnection): ")


class Run:
    """A torture in a separate process, while this process kills servers."""

    numbers = itertools.count(1)

    def __init__(self, url, **given):
        number = next(Run.numbers)
        self.folder = servers.ROOM / f"run{number}"
        # The alteration affects the accounts of a process, and none of asyncio's.
        given = {"tasks": 0 if "alter" in given else 4, **given}
        given = {"seconds": SECONDS, "table": f"t{number}", **given}
        self.torture = torture.Torture(url, folder=self.folder, **given)
        self.said = multiprocessing.SimpleQueue()
        self.process = multiprocessing.Process(target=self.judge)
        self.process.start()

    def judge(self):
        sys.stderr.flush()
        os.dup2(os.open(f"{self.folder}.err", os.O_WRONLY | os.O_CREAT), 2)
        accounts = self.torture.run()
        found = torture.verdict(accounts)
        summary = logs.summary(accounts.values())
        summary += f", {self.torture.killed} killed, seed {self.torture.seed}"
        self.said.put((found and found.reason, found and [*map(str, found.part)], summary))

    def verdict(self):
        """The reason why the history is illegal, the operations that show it, and the counts."""
        self.process.join()
        if self.process.exitcode:
            with open(f"{self.folder}.err") as file:
                told = [line for line in file if not EXPECTED.match(line)]
            tail = "".join(told)[-9000:]
            raise AssertionError(f"the run ended with {self.process.exitcode}: {tail}")
        return self.said.get()


def legal(run, fault="nothing else"):
    """The summary of a legal history, in which each fault has this form."""
    reason, part, summary = run.verdict()
    if reason:
        raise AssertionError(f"{reason}: {part}; {summary}")
    with open(f"{run.folder}.err") as file:
        # A replica may not have the table yet.
        lines = {line.strip() for line in file if "42P01" not in line}
    faults = [it for it in lines if it.startswith("StoreFault") and not re.search(fault, it)]
    if faults:
        raise AssertionError(f"the history is legal, but {faults}")
    return summary


def refused(start, turns=8):
    """Whether a run with broken accounts is refused; by luck one run may be legal."""
    for _ in range(turns):
        reason, part, summary = start().verdict()
        if reason:
            return f"{reason} ({len(part)} operations)"
    raise AssertionError(f"the history is legal: {summary}")


class WithoutLog(servers.MariaServer):
    more_lines = ()


# Each engine's server, which starts at its first use, and its URL.
postgres = functools.partial(server, servers.PostgresServer)
maria = functools.partial(server, servers.MariaServer)
maria_without_log = functools.partial(server, WithoutLog)
# With Galera's defaults, since a node is killed.
galera = functools.cache(lambda: Galera("galera", 3, silence=5).start())
SQLITE = lambda: servers.SqliteFile().url
POSTGRES = lambda: postgres().url
MARIADB = lambda: maria().url
GALERA = lambda: galera().url


def killed_servers(run, node, pause=1.5):
    """The verdict of a run whose server is alternately stopped at once and killed."""
    count = 0
    time.sleep(1.5)
    while run.process.is_alive():
        if count % 2:
            node.end(signal.SIGQUIT)
        else:
            node.kill()
        node.start()
        count += 1
        run.process.join(pause)
    return f"{legal(run)}, {count} kills of the server"


def on_a_full_disk(case, **given):
    """The verdict of a run on SQLite, whose disk is full half of the time."""
    folder = disks.small_disk(case, "2m")
    # In a caller's own transaction a full disk is the driver's error, which is the caller's.
    ways = ("whole", "also", "parts")
    run = Run(f"sqlite:///{folder}/users.db", ways=ways, **given)
    count = 0
    while run.process.is_alive():
        run.process.join(0.5)
        with disks.full(folder):
            run.process.join(0.2)
        count += 1
    return f"{legal(run, FULL)}, {count} times full"


class Pair:
    made = 0

    def __init__(self, is_synchronous=False):
        Pair.made += 1
        self.primary = servers.PostgresServer(f"first{Pair.made}").start()
        self.standby = servers.PostgresServer(f"second{Pair.made}", self.primary)
        self.standby.start()
        if is_synchronous:
            name = self.standby.folder.name
            self.primary.set(synchronous_standby_names=name, synchronous_commit="on")
        until(self.is_streaming, "the standby follows")

    def is_streaming(self):
        with self.primary.connect() as conn:
            found = conn.execute("SELECT state FROM pg_stat_replication").fetchall()
            return ("streaming",) in found

    @property
    def url(self):
        places = f"host=127.0.0.1,127.0.0.1&port={self.primary.port},{self.standby.port}"
        return f"postgresql:///postgres?user=store&{places}&target_session_attrs=read-write"

    def end(self):
        for node in (self.primary, self.standby):
            if node.process.poll() is None:
                node.kill()

    def fail_over(self):
        self.primary.kill()
        self.standby.promote()

    def fail_over_with_lag(self):
        until(self.is_streaming, "the standby follows")
        with self.standby.connect() as conn:
            ((receiver,),) = conn.execute("SELECT pid FROM pg_stat_wal_receiver").fetchall()
        os.kill(receiver, signal.SIGSTOP)
        time.sleep(1.0)
        self.primary.kill()
        os.kill(receiver, signal.SIGKILL)
        time.sleep(1.0)
        self.standby.promote()


@functools.cache
def lagging():
    pair = Pair()
    pair.standby.set(recovery_min_apply_delay="30ms")
    return pair


# ---- a server that is killed as soon as it has shown a change that had no answer yet

DIALECT = MariaDB("shown_early", "name", "record")
CHEAP = hasher(LOW)


class Crashes:
    """One client changes a password again and again, one logs in, and others keep the disk busy.

    Kills the server just after a login got YES from a change that had no answer; some of these
    kills lose the change: then that password is wrong, and the old one right.
    """

    def __init__(self, server, confirm=False):
        self.server, self.confirm = server, confirm
        self.kills = self.lost = 0
        with server.connect() as conn, conn.cursor() as cursor:
            cursor.execute("DROP TABLE IF EXISTS shown_early, noise")
            cursor.execute(DIALECT.create())
            cursor.execute(DIALECT.insert, ("ann",))
            cursor.execute("CREATE TABLE noise (id INT PRIMARY KEY, v TEXT)")
            cursor.execute("INSERT INTO noise VALUES (0, ''), (1, ''), (2, '')")
        self.accounts().reset("ann", "p0")

    def accounts(self, **more):
        pool = PerThread(self.server.connect)
        return Accounts(pool, DIALECT, CHEAP, patience=30.0, **more)

    def noise(self, number):
        while True:
            with contextlib.suppress(Exception), self.server.connect() as conn:
                cursor = conn.cursor()
                while True:
                    text = "x" * random.randint(1, 20000)
                    cursor.execute("UPDATE noise SET v = %s WHERE id = %s", (text, number))
            time.sleep(0.2)

    def change(self, answered):
        accounts = self.accounts()
        while True:
            now = answered.value
            said = accounts.change("ann", f"p{now}", f"p{now + 1}")
            answered.value = now + (said is Reply.REPLACED)

    def run(self, turns, until_lost=False):
        """Runs this many turns, each up to a kill; ends early at the first loss."""
        others = [self.started(self.noise, number) for number in range(3)]
        now = 0
        for _ in range(turns):
            answered = multiprocessing.Value("i", now)
            changer = self.started(self.change, answered)
            try:
                now = self.turn(answered, changer)
            finally:
                changer.kill()
                changer.join()
            if self.lost and until_lost:
                break
        for other in others:
            other.kill()
            other.join()
        return self

    def started(self, act, *given):
        process = multiprocessing.Process(target=act, args=given, daemon=True)
        process.start()
        return process

    def turn(self, answered, changer):
        """The number of the password in the table after a kill."""
        looking, end = self.accounts(confirm=self.confirm), time.monotonic() + longest()
        while time.monotonic() < end:
            now = answered.value
            said = looking.verify("ann", f"p{now + 1}")
            if said is Reply.YES and answered.value == now:
                break
        else:
            raise AssertionError("no look came before an answer")
        os.kill(self.server.process.pid, signal.SIGKILL)
        changer.kill()
        changer.join()
        self.server.process.wait()
        self.server.start()
        self.kills += 1
        after = self.accounts()
        is_new = after.verify("ann", f"p{now + 1}") is Reply.YES
        is_old = after.verify("ann", f"p{now}") is Reply.YES
        self.lost += answered.value == now and is_old and not is_new
        return now + is_new
