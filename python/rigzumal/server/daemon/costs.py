"""The memory and the work of a hash, as --most-memory and --most-work of credkeep(1) count them."""

import math
import re
from dataclasses import dataclass
from typing import Optional

USUAL = "$argon2id$v=19$m=65536,t=3,p=4"  # credkeep's new records, if --setting isn't given
TIMES = 16  # a line's costs may be this many times those of new records
SALT_AND_TAG = r"(?:\$.*)?"  # which a setting may lack
ARGON2 = re.compile(
    r"\$argon2(?:d|i|id)\$v=19\$m=(?P<memory>[0-9]{1,7}),t=(?P<passes>[0-9]{1,10}),p=[0-9]{1,3}"
    + SALT_AND_TAG
)
SCRYPT = re.compile(
    r"\$scrypt\$ln=(?P<log2_n>[0-9]{1,2}),r=(?P<r>[0-9]{1,3}),p=(?P<p>[0-9]{1,3})" + SALT_AND_TAG
)
MOST = 2**32 - 1  # of a size's number
GIB = 2**20  # in KiB


@dataclass(frozen=True)
class Costs:
    """The memory of a hash, and its work: the sum of the memory over all passes. Both are in
    KiB."""

    memory: int
    work: int


def costs_of(setting: str) -> Optional[Costs]:
    """Returns the costs of a setting, with or without its salt, or None for any other text."""
    if argon2 := ARGON2.fullmatch(setting):
        memory = int(argon2["memory"])
        return Costs(memory, memory * int(argon2["passes"]))
    if scrypt := SCRYPT.fullmatch(setting):
        blocks = int(scrypt["r"]) * int(scrypt["p"]) * 2 ** int(scrypt["log2_n"])
        memory = math.ceil(128 * blocks / 1024)  # blocks of 128 bytes
        return Costs(memory, 2 * memory)
    return None


def size_of(kib: int) -> str:
    """Returns a bound in the form that credkeep reads: a number of KiB, or of GiB if that number is
    too large."""
    if kib <= MOST:
        return str(kib)
    return f"{min(math.ceil(kib / GIB), MOST)}G"
