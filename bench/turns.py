"""The shared part of the benchmarks: the programs under comparison take turns, so that the
machine's other work slows all of them. The best turn of each counts, or the median of the
ratios."""

import os
import random
import statistics
import sys
import time
from concurrent.futures import ThreadPoolExecutor


def timed(work, *given):
    """Measures the wall time and the processor time of a call in milliseconds, and returns its
    result too."""
    wall, cpu = time.perf_counter(), time.process_time()
    made = work(*given)
    return (1000 * (time.perf_counter() - wall), 1000 * (time.process_time() - cpu)), made


def rate(work, seconds, at_once):
    """Measures calls a second of this many threads, each of which repeats its call."""
    start = time.perf_counter()

    def works(_):
        count = 0
        while time.perf_counter() < start + seconds:
            work()
            count += 1
        return count

    with ThreadPoolExecutor(at_once) as pool:
        return sum(pool.map(works, range(at_once))) / (time.perf_counter() - start)


def take_turns(rows, times, warm=1):
    """Returns the figures of each way of each row, turn by turn.

    A way of a row is a call that returns its figures and its result; all ways of a row have the
    same result. The rows take turns, and their ways in any order. The first turns load and warm up.
    """
    found = {row: {name: [] for name in ways} for row, ways in rows.items()}
    for turn in range(warm + times):
        for row, ways in rows.items():
            all_made = set()
            for name in random.sample(sorted(ways), len(ways)):
                figures, made = ways[name]()
                all_made.add(made)
                if turn >= warm:
                    found[row][name].append(figures)
            if len(all_made) != 1:
                sys.exit(f"the results of {row} differ")
    return found


def best(turns, part=0):
    return min(it[part] for it in turns)


def median(turns, part=0):
    return statistics.median(it[part] for it in turns)


def ratio(turns, others, part=0):
    """Returns the ratio of the best turns."""
    return best(turns, part) / best(others, part)


def median_ratio(turns, others, part=0):
    """Returns the median of the turns' ratios."""
    return statistics.median(one[part] / other[part] for one, other in zip(turns, others))


def print_row(cells):
    print("| " + " | ".join(map(str, cells)) + " |", flush=True)


def print_head(names):
    print_row(names)
    print("|" + "---|" * len(names))


def print_load(before):
    now, processors = os.getloadavg()[0], os.cpu_count()
    print(f"The load was {before:.1f} before and {now:.1f} after, on {processors} processors.")
