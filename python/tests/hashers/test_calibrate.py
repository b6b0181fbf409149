"""Tests of the calibration over simulated machines, whose times follow a rule: no test reads a
clock."""

import contextlib
import io
import itertools
import sys
import unittest
from unittest import mock

import records  # noqa: F401 (before rigzumal)
from rigzumal import PasswordHasher, __main__, _calibrate
from rigzumal._calibrate import Measured, measured, trials
from tests.helpers import each


EACH_WORD = "--target-ms 70 --memory 32M --lanes 3 --threads 2 --below"


def linear(rate):
    """A machine whose threads share the work: milliseconds a KiB of a pass."""
    return lambda hasher: hasher.time_cost * hasher.memory_cost * rate / hasher.threads


def with_dear_passes(rate):
    """A machine on which each pass takes longer than the one before."""
    return lambda hasher: hasher.time_cost**1.5 * hasher.memory_cost * rate


def with_a_slow_start(hasher):
    """A machine on which the first pass takes much longer than each other one."""
    return 50 + 10 * hasher.time_cost


def tried(machine, target, memory, lanes, threads=1, below=True):
    def timed(hasher, turns=5):
        return Measured(hasher, machine(hasher))

    with mock.patch.object(_calibrate, "measured", timed):
        return list(itertools.islice(trials(target, memory, lanes, threads, below), 200))


class Trials(unittest.TestCase):
    @each(
        (linear(1 / 1024), 250, 65536, 1, (65536, 3)),
        (linear(1 / 264), 250, 65536, 1, (65536, 1)),
        (linear(1 / 512), 255, 65536, 1, (65536, 1)),
        (linear(1 / 512), 256, 65536, 1, (65536, 2)),
        (linear(1 / 1024), 1000, 65536, 1, (65536, 15)),
        (linear(0.01), 40, 16, 1, (16, 250)),
        *((linear(1000), 1, 65536, lanes, (8 * lanes, 1)) for lanes in (1, 2, 255)),
        (linear(1 / 64), 250, 65536, 4, (16000, 1)),
        (with_a_slow_start, 250, 65536, 1, (65536, 19)),
        (with_a_slow_start, 59.9, 65536, 1, (8, 1)),
        (linear(1 / 512), 250, 65536, 4, (65536, 1)),
        (linear(1 / 512), 250, 65536, 4, (65536, 7), 4),
    )
    def test_the_last(self, machine, target, memory, lanes, wanted, threads=1):
        """The result has as many passes as the time allows, and more with threads. If one pass is
        too slow, it has less memory, down to the least, which comes soon if memory costs
        nothing."""
        last = tried(machine, target, memory, lanes, threads)[-1].hasher
        self.assertEqual((last.memory_cost, last.time_cost), wanted)

    @each(50, 60, 64, 65, 100, 500, 2000)
    def test_the_last_is_never_too_slow(self, target):
        found = tried(with_dear_passes(1 / 1024), target, 65536, 2)
        self.assertLessEqual(found[-1].milliseconds, max(target, found[0].milliseconds))
        fits = [it for it in found if it.milliseconds <= target]
        self.assertEqual(found[-1], max(fits, key=lambda it: it.milliseconds))


class Safety(unittest.TestCase):
    """OWASP's costs are the least, unless the caller allows lower ones."""

    @each(
        *((*it, True) for it in ((19456, 2), (47104, 1), (65536, 3))),
        *((*it, False) for it in ((19456, 1), (19455, 2), (19455, 9), (47103, 1))),
    )
    def test_the_least_costs_are_owasps(self, memory, passes, is_safe):
        hasher = PasswordHasher(passes, memory, 1)
        self.assertEqual(_calibrate.is_safe(hasher), is_safe)

    @each(linear(1), linear(1 / 64), with_dear_passes(1), with_a_slow_start)
    def test_a_slow_machine_has_them_all_the_same(self, machine):
        for memory in (19456, 20000, 47103, 47104, 65536, 2**20):
            for lanes in (1, 4, 255):
                found = [it.hasher for it in tried(machine, 20, memory, lanes, below=False)]
                self.assertGreaterEqual(min(it.memory_cost for it in found), 19456)
                last = found[-1]
                self.assertTrue(_calibrate.is_safe(last), (memory, last))
                self.assertLessEqual(last.memory_cost, memory)


class Busy(unittest.TestCase):
    @each(
        *((it, 4, None) for it in (0.0, 2.0)),
        (2.1, 4, "the machine is busy (a load of 2.1 on 4 processors)"),
        (0.6, 1, "the machine is busy (a load of 0.6 on 1 processors)"),
    )
    def test_it_is_said_when_half_of_the_processors_are(self, load, processors, reason):
        system = mock.Mock(getloadavg=lambda: (load, 9, 9), cpu_count=lambda: processors)
        with mock.patch.object(_calibrate, "os", system):
            self.assertEqual(_calibrate.why_busy(), reason)


class Timing(unittest.TestCase):
    @each(0, 4, 6, 100)
    def test_the_time_is_the_best_after_the_first(self, first):
        hasher, clock = mock.Mock(), itertools.accumulate((0, first, 0, 5, 0, 1, 0, 9, 0, 3, 0, 7))
        with mock.patch.object(_calibrate.time, "perf_counter", lambda: next(clock)):
            found = measured(hasher)
        self.assertEqual((found.milliseconds, hasher.hash.call_count), (1000, 6))


class Shell(unittest.TestCase):
    def asked(self, *words):
        """The shell's command: its costs, its output and its messages."""
        out, err, argv = io.StringIO(), io.StringIO(), ["rigzumal", "calibrate", *words]

        def found(*given):
            return iter(tried(linear(1 / 1024), *given))

        asked = mock.Mock(side_effect=found)
        with mock.patch.object(__main__, "trials", asked), mock.patch.object(sys, "argv", argv):
            with contextlib.redirect_stdout(out), contextlib.redirect_stderr(err):
                self.assertEqual(__main__.main(), 0)
        return [it.args for it in asked.mock_calls], out.getvalue(), err.getvalue()

    @each(
        ("", (250, 65536, 4, 1, False), "m=65536,t=3,p=4", None),
        ("--target-ms 20", (20, 65536, 4, 1, False), "m=19456,t=2,p=4", "take 38 ms here; --below"),
        ("--target-ms 20 --below", (20, 65536, 4, 1, True), "m=20480,t=1,p=4", None),
        (EACH_WORD, (70, 32768, 3, 2, True), "m=32768,t=4,p=3", None),
    )
    def test_each_word_counts(self, words, asked, costs, advice):
        """Each word of the command counts, and a message reports costs that take too long."""
        calls, output, faults = self.asked(*words.split())
        self.assertEqual((calls, output), ([asked], f"$argon2id$v=19${costs}\n"))
        self.assertEqual("lowest costs" in faults, advice is not None)
        self.assertIn(advice or "", faults)

    @each("the machine is busy", None)
    def test_a_busy_machine_is_said(self, reason):
        with mock.patch.object(__main__, "why_busy", lambda: reason):
            self.assertEqual("the machine is busy: " in self.asked()[2], reason is not None)
