"""The bytes that hashes leave in the memory of a service, and in its core."""

import base64
import os
import pathlib
import re
import shutil
import signal
import subprocess
import sys
import time

from tests.credkeep.books import DONE, SALT, BookTest, Service
from tests.credkeep.doors import in_base64
from tests.helpers import TOP, memory_of

sys.path.insert(0, str(TOP / "crates/hash_tests/vectors"))
import compress  # noqa: E402

LOGINS = 100


def words_of(setting: str, password: bytes) -> list[bytes]:
    """Words of the first block of Argon2id's memory (RFC 9106, section 3.2), which one pass leaves
    as they are."""
    memory, passes, lanes = (int(it) for it in re.findall(r"=(\d+)", setting)[1:])
    inputs = (password, base64.b64decode(f"{SALT}=="), b"", b"")
    first = compress.first_hash(2, memory, passes, lanes, 32, inputs)
    block = compress.first_block(first, 0, 0)
    return [block[:8], block[512:520]]


class MemoryTest(BookTest):
    def left(self, service: Service, words: list[bytes]) -> list[bytes]:
        """Which words are in the memory of a service, or in its core."""
        pid, core = service.process.pid, self.room / "core"
        parts = [*memory_of(pid)]
        if os.getuid() == 0 and shutil.which("gcore"):
            subprocess.run(["gcore", "-o", core, str(pid)], check=True, capture_output=True)
            parts.append(pathlib.Path(f"{core}.{pid}").read_bytes())
        left = set[bytes]()
        for part in parts:
            left |= {word for word in words if word in part}
        return [word for word in words if word in left]

    def stop_with(self, service: Service, words: list[bytes]) -> None:
        """Stops a service once its memory has these words. It is killed if it never has."""
        pid = service.process.pid
        while True:
            service.process.send_signal(signal.SIGSTOP)
            whole = b"".join(memory_of(pid))
            if all(it in whole for it in words):
                return
            service.process.send_signal(signal.SIGCONT)
            time.sleep(0.01)

    def test_blocks(self) -> None:
        """Blocks of Argon2 are in memory while a hash is worked, and no more after it: neither
        after a hundred logins, whose memory is kept, nor after one whose memory isn't."""
        kept, costly = "$argon2id$v=19$m=1024,t=1,p=1", "$argon2id$v=19$m=262144,t=1,p=1"
        for name, setting in (("ann", kept), ("bob", costly)):
            self.book.add(name, "right", f"{setting}${SALT}")
        with self.book.tagged("--at-once", "2", "--setting", kept) as service:
            for at in range(LOGINS):
                self.assertEqual(service.ask(f"t login ann {in_base64(f'wrong {at}')}"), "t no")
            some = [f"wrong {at}".encode() for at in (0, LOGINS // 2, LOGINS - 2, LOGINS - 1)]
            self.assertEqual(self.left(service, [w for it in some for w in words_of(kept, it)]), [])
            service.send(f"t login bob {in_base64('wrong')}\n")
            words = words_of(costly, b"wrong")
            self.stop_with(service, words)
            service.process.send_signal(signal.SIGCONT)
            self.assertEqual(service.answer(), "t no")
            self.assertEqual(self.left(service, words), [])
            self.assertEqual(service.end(), DONE)
