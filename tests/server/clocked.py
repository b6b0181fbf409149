"""bin/credkeep-server with the tests' clock, for failed tries and the dates of an old file: the
file that CLOCK names contains its seconds."""

import os
import pathlib
import sys
import time
import types

sys.path.insert(0, str(pathlib.Path(__file__).parents[2] / "python/rigzumal/server"))
from daemon import aging, tally, tries  # noqa: E402
from daemon.main import main  # noqa: E402

CLOCK = pathlib.Path(os.environ["CLOCK"])
steady = types.SimpleNamespace(time=time.time, monotonic=lambda: float(CLOCK.read_text()))
tries.time = tally.time = steady  # type: ignore
aging.time = types.SimpleNamespace(time=lambda: float(CLOCK.read_text()))  # type: ignore

if __name__ == "__main__":
    sys.exit(main())
