#!/usr/bin/env python3
"""Writes out/rigzumal-VERSION.tar.xz with its checksum beside it; `make dist` runs this script.

    python3 tools/dist.py

The tarball contains each committed file, and a list of its compiled code with the licences. One
commit always gives the same bytes, wherever, whenever and by whomever they are packed.
"""

import hashlib
import io
import lzma
import subprocess
import sys
import tarfile

from tree import TOP

sys.path.insert(0, str(TOP / "packaging"))
import components  # noqa: E402

VERSION = (TOP / "VERSION").read_text().strip()
NAME = f"rigzumal-{VERSION}"
OUT = TOP / "out"


def git(*words):
    """Returns the output of git, independent of configured line ends and owners."""
    words = ["git", "-c", f"safe.directory={TOP}", "-c", "core.autocrlf=false", *words]
    return subprocess.run(words, cwd=TOP, stdout=subprocess.PIPE, check=True).stdout


def committed():
    """Returns each committed file by its name, with its bytes, and whether it is executable."""
    if git("status", "--porcelain"):
        sys.exit("make dist packs committed files: commit your changes first")
    with tarfile.open(fileobj=io.BytesIO(git("archive", "--format=tar", "HEAD"))) as archive:
        files = [it for it in archive if it.isfile()]
        return {it.name: (archive.extractfile(it).read(), bool(it.mode & 0o100)) for it in files}


def tarball(files, seconds):
    """Packs a tarball of these files in the order of their names, without owners."""
    packed = io.BytesIO()
    with tarfile.open(fileobj=packed, mode="w", format=tarfile.USTAR_FORMAT) as archive:
        for name, (data, is_program) in sorted(files.items()):
            entry = tarfile.TarInfo(f"{NAME}/{name}")
            entry.size, entry.mtime = len(data), seconds
            entry.mode = 0o755 if is_program else 0o644
            archive.addfile(entry, io.BytesIO(data))
    return lzma.compress(packed.getvalue(), preset=9)


def main():
    files = committed()
    compiled = {name: data for name, (data, _) in files.items() if name.endswith(".o")}
    files[f"{NAME}.spdx.json"] = (components.spdx("rigzumal", compiled), False)
    OUT.mkdir(exist_ok=True)
    written = OUT / f"{NAME}.tar.xz"
    data = tarball(files, components.source_date())
    written.write_bytes(data)
    summed = f"{hashlib.sha256(data).hexdigest()}  {written.name}\n"
    (OUT / f"{written.name}.sha256").write_text(summed)
    print(f"{written}: {len(data)} bytes of {len(files)} files")


if __name__ == "__main__":
    main()
