"""The paths of the package and the tests. Each test imports this module first, so that the test and
its processes find these paths."""

import os
import pathlib
import sys

HERE = pathlib.Path(__file__).resolve().parent
PACKAGE = HERE.parent.parent
TOP = PACKAGE.parent

sys.path = [str(PACKAGE), str(HERE), str(TOP), *sys.path]
_NAMED = os.environ.get("PYTHONPATH")
os.environ["PYTHONPATH"] = os.pathsep.join(filter(None, (str(PACKAGE), str(HERE), _NAMED)))

import tests.helpers  # noqa: E402, F401: unittest as in Python 3.11
