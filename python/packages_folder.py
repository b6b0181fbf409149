"""Prints the folder below a prefix in which Python searches for packages, for `make install`.

    python3 packages_folder.py PREFIX

Below a prefix that this Python doesn't search by default, such as /opt/NAME, this is the folder
that a Python installed there would search.
"""

import os
import site
import sys
import sysconfig


def packages_folder(prefix: str) -> str:
    """The first folder of the system or the user that is in the prefix's lib."""
    prefix = os.path.normpath(prefix)
    for folder in (*site.getsitepackages(), site.getusersitepackages()):
        if folder.startswith(os.path.join(prefix, "lib", "")):
            return folder
    return sysconfig.get_path("purelib", "posix_prefix", {"base": prefix})


if __name__ == "__main__":
    print(packages_folder(sys.argv[1]))
