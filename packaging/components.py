#!/usr/bin/env python3
"""Lists other projects' compiled code in our packages, with its licences, for `make dist`, the
wheel and Debian's packages.

        python3 components.py copyright PACKED       prints a package's file copyright, with notices
    python3 components.py spdx PACKED [FILE..]   prints an SPDX document, which lists these files

PACKED is a key of PARTS. components.json names the crates of the toolchain whose compiled code is
in each part.
"""

from __future__ import annotations

import datetime
import hashlib
import json
import pathlib
import subprocess
import sys
import uuid
from typing import Any

HERE = pathlib.Path(__file__).resolve().parent
VERSION = (HERE.parent / "VERSION").read_text().strip()
KNOWN = json.loads((HERE / "components.json").read_text())
PROGRAMS = ("credbook", "credkeep")
# The parts with proved code in each package.
PARTS = {
    "rigzumal": ("librigzumal", *PROGRAMS),
    "wheel": ("librigzumal",),
    "librigzumal1": ("librigzumal",),
    "librigzumal-dev": ("librigzumal",),
    "python3-rigzumal": (),
    "rigzumal-tools": PROGRAMS,
    "libpam-rigzumal": (),
}
NOBODY = "NOASSERTION"
OURS = {
    "SPDXID": "SPDXRef-rigzumal",
    "name": "rigzumal",
    "versionInfo": VERSION,
    "licenseDeclared": "NONE",
    "copyrightText": "2026 The Rigzumal authors",
    "comment": "There is no licence yet: for evaluation only.",
}


def crates_in(packed: str) -> list[dict[str, Any]]:
    """Returns the crates of the toolchain whose compiled code is in a package."""
    wanted = {*PARTS[packed]}
    return [it for it in KNOWN["crates"] if wanted & {*it["in"]}]


def notices(packed: str) -> str:
    """Returns the licence, and the copyright of each crate whose licence requires a notice."""
    named = [it for it in crates_in(packed) if it["licence"] != NOBODY]
    if not named:
        return ""
    parts = ["This package contains compiled code of these crates, under the MIT licence below."]
    for crate in named:
        lines = [f"{crate['name']}, after {crate['after']} ({crate['licence']})"]
        parts.append("\n".join([*lines, *(f"Copyright {it}" for it in crate["copyright"])]))
    return "\n\n".join([*parts, "\n".join(KNOWN["MIT"])]) + "\n"


def copyright_of(packed: str) -> str:
    """Returns a Debian package's file copyright, with the notices as its comment."""
    head, _, rest = (HERE / "copyright").read_text().partition("\n\n")
    lines = [f" {it or '.'}" for it in notices(packed).splitlines()]
    comment = "\n".join(["", "Comment:", *lines] if lines else [])
    return f"{head}{comment}\n\n{rest}"


def described(crate: dict[str, Any]) -> dict[str, Any]:
    """Returns the SPDX package of a crate."""
    found = {
        "SPDXID": f"SPDXRef-crate-{crate['name'].replace('_', '-')}",
        "name": crate["name"],
        "versionInfo": KNOWN["toolchain"],
        "licenseDeclared": crate["licence"],
        "copyrightText": "; ".join(crate["copyright"]) or NOBODY,
    }
    if crate["licence"] == NOBODY:
        return {**found, "comment": "of the Rattle toolchain, whose pages name no licence"}
    return {**found, "comment": f"of the Rattle toolchain, after {crate['after']}"}


def package(about: dict[str, Any]) -> dict[str, Any]:
    """Returns an SPDX package with the fields that all our packages share."""
    unknown = {"downloadLocation": NOBODY, "filesAnalyzed": False, "licenseConcluded": NOBODY}
    return {**about, **unknown}


def file_of(number: int, name: str, data: bytes) -> dict[str, Any]:
    """Returns the entry of a file in an SPDX document."""
    sums = {"SHA1": hashlib.sha1(data).hexdigest(), "SHA256": hashlib.sha256(data).hexdigest()}
    return {
        "SPDXID": f"SPDXRef-file-{number}",
        "fileName": f"./{name.removeprefix('./')}",
        "checksums": [{"algorithm": kind, "checksumValue": value} for kind, value in sums.items()],
        "licenseConcluded": NOBODY,
        "copyrightText": NOBODY,
    }


def related(one: str, how: str, other: str) -> dict[str, str]:
    return {"spdxElementId": one, "relationshipType": how, "relatedSpdxElement": other}


def source_date() -> int:
    """Returns the time of the files in a package."""
    done = subprocess.run([HERE / "source-date"], stdout=subprocess.PIPE, check=True)
    return int(done.stdout)


def spdx(packed: str, files: dict[str, bytes]) -> bytes:
    """Returns an SPDX 2.3 document of a package, with these of the package's files."""
    name = f"{packed}-{VERSION}"
    listed = [file_of(at, *it) for at, it in enumerate(sorted(files.items()))]
    crates = [described(it) for it in crates_in(packed)]
    parts = [it["SPDXID"] for it in [*crates, *listed]]
    ours = str(OURS["SPDXID"])
    made = datetime.datetime.fromtimestamp(source_date(), datetime.timezone.utc)
    document = {
        "spdxVersion": "SPDX-2.3",
        "dataLicense": "CC0-1.0",
        "SPDXID": "SPDXRef-DOCUMENT",
        "name": name,
        "creationInfo": {
            "created": made.strftime("%Y-%m-%dT%H:%M:%SZ"),
            "creators": ["Tool: rigzumal-components"],
        },
        "packages": [package(it) for it in [OURS, *crates]],
        "files": listed,
        "relationships": [
            related("SPDXRef-DOCUMENT", "DESCRIBES", ours),
            *(related(ours, "CONTAINS", it) for it in parts),
        ],
    }
    unique = uuid.uuid5(uuid.NAMESPACE_URL, json.dumps(document))
    document["documentNamespace"] = f"https://spdx.org/spdxdocs/{name}-{unique}"
    return (json.dumps(document, indent=1) + "\n").encode()


def main() -> None:
    what, packed, *names = sys.argv[1:]
    if what == "copyright":
        sys.stdout.write(copyright_of(packed))
    else:
        files = {name: pathlib.Path(name).read_bytes() for name in names}
        sys.stdout.buffer.write(spdx(packed, files))


if __name__ == "__main__":
    main()
