"""Builds the wheel; both pip (PEP 517) and `make -C python wheel` call this module.

    python3 build_backend.py FOLDER

The wheel contains the library from `make -C c`, or, with ARCH=arm64 in the environment, from
`make -C c ARCH=arm64`; the module builds the library if it is missing. The wheel is for Linux on
that processor, and for every Python 3, since ctypes loads the library.
"""

from __future__ import annotations

import base64
import hashlib
import os
import pathlib
import platform
import re
import subprocess
import sys
import zipfile
from typing import Any, Optional

HERE = pathlib.Path(__file__).resolve().parent
sys.path.insert(0, str(HERE.parent / "packaging"))
# What a wheel's name and the library's head (e_machine, at 18) call a processor.
MACHINES = {62: "x86_64", 183: "aarch64"}
FOR_ARM64 = os.environ.get("ARCH") == "arm64" and platform.machine() != "aarch64"
OUT = HERE.parent / "c" / "out" / ("arm64" if FOR_ARM64 else "")
LIBRARY = OUT / "librigzumal.so.1"
PARTS = ("c/src", "c/include", "c/proved", "crates")  # from which make builds the library


def version() -> str:
    """The version of the repository."""
    return (HERE.parent / "VERSION").read_text().strip()


def field(name: str) -> str:
    """The value of this name in the project table of pyproject.toml."""
    found = re.search(rf'^{name} = "(.*)"', (HERE / "pyproject.toml").read_text(), re.MULTILINE)
    if found is None:
        sys.exit(f"pyproject.toml has no {name}")
    return found[1]


def lists() -> str:
    """The lines of METADATA for the classifiers and the optional dependencies of pyproject.toml."""
    text = (HERE / "pyproject.toml").read_text()
    lines = [f"Classifier: {it}" for it in re.findall(r'^    "(.* :: .*)",$', text, re.MULTILINE)]
    table = text.partition("[project.optional-dependencies]\n")[2].partition("\n\n")[0]
    for extra, needed in re.findall(r'^(\w+) = \["(.*)"\]$', table, re.MULTILINE):
        lines += [f"Provides-Extra: {extra}", f'Requires-Dist: {needed}; extra == "{extra}"']
    return "\n".join(lines)


def tag() -> str:
    """The wheel's tag: the newest glibc version that the library requires is the oldest that runs
    it."""
    library = LIBRARY.read_bytes()
    names = re.findall(rb"GLIBC_2\.(\d+)\0", library)
    if not names:
        sys.exit(f"{LIBRARY} is for musl: a wheel needs the library for glibc 2.34 or later")
    machine = MACHINES[int.from_bytes(library[18:20], "little")]
    return f"py3-none-manylinux_2_{max(map(int, names))}_{machine}"


def metadata() -> dict[str, bytes]:
    """The files of the folder dist-info, except RECORD."""
    about = f"""Metadata-Version: 2.1
Name: rigzumal
Version: {version()}
Summary: {field("description")}
License: none yet, for evaluation only
Requires-Python: {field("requires-python")}
{lists()}
Description-Content-Type: text/markdown

{(HERE / "README.md").read_text()}"""
    wheel = f"""Wheel-Version: 1.0
Generator: rigzumal
Root-Is-Purelib: false
Tag: {tag()}
"""
    scripts = f"[console_scripts]\nrigzumal = {field('rigzumal')}\n"
    return {
        "METADATA": about.encode(),
        "WHEEL": wheel.encode(),
        "entry_points.txt": scripts.encode(),
    }


def is_built(top: pathlib.Path) -> bool:
    """Whether c/out has the library, and no source of it is newer, nor a folder from which one may
    be gone. Otherwise make decides what to build."""
    if not LIBRARY.exists():
        return False
    sources = [top / "crates.txt", top / "c/Makefile"]
    for part in PARTS:
        sources += [path for path in (top / part).rglob("*") if "out" not in path.parts]
    built = LIBRARY.stat().st_mtime
    return all(path.stat().st_mtime <= built for path in sources)


def need_library() -> None:
    """Builds the library, unless c/out has the present one. If the build fails, the last line gives
    the reason."""
    c = HERE.parent / "c"
    if is_built(HERE.parent):
        return
    if not (c / "Makefile").exists():
        sys.exit(f"{c} is not there: pip before 21.3 builds a copy of this folder alone")
    try:
        done = subprocess.run(["make", "-C", str(c)], stdout=sys.stderr)
    except FileNotFoundError:
        sys.exit("make is not there: the library is built by make and a C compiler")
    if done.returncode != 0 or not LIBRARY.exists():
        sys.exit(f"`make -C {c}` did not build {LIBRARY.name}: its lines above say why")


def package() -> dict[str, bytes]:
    """The package's files, including the library."""
    need_library()
    files = {
        str(path.relative_to(HERE)): path.read_bytes()
        for path in sorted((HERE / "rigzumal").rglob("*"))
        if path.suffix in (".py", ".typed")
    }
    return {**files, f"rigzumal/{LIBRARY.name}": LIBRARY.read_bytes()}


def line_of(name: str, data: bytes) -> str:
    """A file's line in RECORD."""
    digest = base64.urlsafe_b64encode(hashlib.sha256(data).digest()).decode().rstrip("=")
    return f"{name},sha256={digest},{len(data)}\n"


def write_wheel(directory: str, held: dict[str, bytes], about: dict[str, bytes]) -> str:
    """Writes a wheel of these files with its metadata into the folder, and returns its name."""
    folder = f"rigzumal-{version()}.dist-info"
    files = {**held, **{f"{folder}/{name}": data for name, data in about.items()}}
    record = "".join(line_of(name, data) for name, data in files.items())
    files[f"{folder}/RECORD"] = (record + f"{folder}/RECORD,,\n").encode()
    name = f"rigzumal-{version()}-{tag()}.whl"
    with zipfile.ZipFile(pathlib.Path(directory) / name, "w", zipfile.ZIP_DEFLATED) as archive:
        for path, data in files.items():
            entry = zipfile.ZipInfo(path)  # of 1980, so that one tree makes one wheel
            entry.external_attr = 0o644 << 16
            entry.compress_type = zipfile.ZIP_DEFLATED
            archive.writestr(entry, data)
    return name


def about_components() -> dict[str, bytes]:
    """The files of the folder dist-info that list the owners of the library's compiled code."""
    import components  # of the folder packaging, which a copy of this folder alone lacks

    files = {f"rigzumal/{LIBRARY.name}": LIBRARY.read_bytes()}
    return {
        "licenses/NOTICES": components.notices("wheel").encode(),
        "sboms/rigzumal.spdx.json": components.spdx("wheel", files),
    }


def build_wheel(
    wheel_directory: str,
    config_settings: Optional[dict[str, Any]] = None,
    metadata_directory: Optional[str] = None,
) -> str:
    """Writes the wheel into the folder, and returns its name."""
    held = package()
    return write_wheel(wheel_directory, held, {**metadata(), **about_components()})


def build_editable(
    wheel_directory: str,
    config_settings: Optional[dict[str, Any]] = None,
    metadata_directory: Optional[str] = None,
) -> str:
    """Writes a wheel that refers to this folder, for `pip install -e` (PEP 660): changes here
    affect everyone who imports the package. The library is the one in c/out.
    """
    need_library()
    return write_wheel(wheel_directory, {"rigzumal.pth": f"{HERE}\n".encode()}, metadata())


def build_sdist(sdist_directory: str, config_settings: Optional[dict[str, Any]] = None) -> str:
    """No source distribution exists, since Python can't build the library's proved code."""
    sys.exit("there is no sdist: build a wheel, by `make -C python wheel`")


if __name__ == "__main__":
    print(build_wheel(sys.argv[1]))
