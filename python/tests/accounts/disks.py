"""A small disk in memory, which only root can mount, and which a test can fill."""

import contextlib
import os
import subprocess
import tempfile

import support  # noqa: F401: finds the tests
from tests.helpers import need_root


def small_disk(case, size):
    """The folder of a disk of this size for a test, in the form of tmpfs: "120k"."""
    need_root()
    folder = case.enterContext(tempfile.TemporaryDirectory(prefix="rigzumal-full-"))
    mounting = ["mount", "-t", "tmpfs", "-o", f"size={size}", "tmpfs", folder]
    if subprocess.run(mounting, capture_output=True).returncode:
        case.skipTest("nothing can be mounted here")
    case.addCleanup(subprocess.run, ["umount", "-l", folder], check=True)
    return folder


@contextlib.contextmanager
def full(folder):
    """Fills the disk during a `with` block."""
    path = os.path.join(folder, "filling")
    with open(path, "wb", buffering=0) as filling, contextlib.suppress(OSError):
        while True:
            filling.write(b"x" * 4096)
    try:
        yield
    finally:
        os.remove(path)
