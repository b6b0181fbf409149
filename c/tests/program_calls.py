"""The calls of C by the proved programs, in the library that LIBRARY names: programs/calls.c, or
the toolchain's own."""

import ctypes
import errno
import fcntl
import os
import sys
import tempfile
import unittest

CALLS = ctypes.CDLL(os.environ["LIBRARY"], use_errno=True)
PLACE, SIZE, OFFSET = ctypes.c_void_p, ctypes.c_size_t, ctypes.c_int64
TOO_MUCH = 2**63 - 1


class Tried(ctypes.Structure):
    _fields_ = [("is_there", ctypes.c_bool), ("at", PLACE)]


CALLS.rattle_alloc.restype = CALLS.rattle_realloc.restype = Tried
CALLS.rattle_alloc.argtypes = [SIZE, SIZE]
CALLS.rattle_realloc.argtypes = [PLACE, SIZE, SIZE, SIZE]
CALLS.rattle_dealloc.argtypes = [PLACE]
CALLS.rattle_arg.argtypes, CALLS.rattle_arg.restype = [SIZE, PLACE, SIZE], ctypes.c_ssize_t
CALLS.rattle_lock_range.argtypes = [ctypes.c_int, ctypes.c_int16, OFFSET, OFFSET]


class Calls(unittest.TestCase):
    def test_memory(self):
        """Blocks of each size, also of no bytes, in any order; a refused size leaves the block as
        it was."""
        block, other, before = CALLS.rattle_alloc(0, 16), CALLS.rattle_alloc(24, 8), b""
        ctypes.memmove(other.at, b"x" * 24, 24)
        for size in (0, 1, 100, 70000, 40, 0, 300, 0):
            block = CALLS.rattle_realloc(block.at, len(before), size, 16)
            self.assertTrue(block.is_there and block.at % 16 == 0 and block.at != other.at)
            kept = before[:size]
            self.assertEqual(ctypes.string_at(block.at, len(kept)), kept)
            before = os.urandom(size)
            ctypes.memmove(block.at, before, size)
            refused = CALLS.rattle_realloc(block.at, size, TOO_MUCH, 1)
            self.assertFalse(refused.is_there)
            self.assertNotIn(refused.at, (None, block.at))
            self.assertEqual(ctypes.string_at(block.at, size), before)
        self.assertEqual(ctypes.string_at(other.at, 24), b"x" * 24)
        for each in (block, other):
            CALLS.rattle_dealloc(each.at)
        refused = CALLS.rattle_alloc(TOO_MUCH, 1)
        self.assertEqual((refused.is_there, ctypes.string_at(refused.at, 1)), (False, b"\0"))

    def test_errno(self):
        CALLS.rattle_set_errno(errno.ENOENT)
        self.assertEqual(ctypes.get_errno(), errno.ENOENT)
        ctypes.set_errno(errno.EINTR)
        self.assertEqual(CALLS.rattle_errno(), errno.EINTR)

    def test_words(self):
        """A word in a buffer that is larger, of its size, and smaller: then the buffer gets the
        word's front. Nothing is written behind the buffer."""
        words = [os.fsencode(it) for it in sys.orig_argv]
        for at, word in enumerate(words):
            for room in range(len(word) + 3):
                buffer = ctypes.create_string_buffer(b"\x5a" * 4096, 4096)
                wanted = -2 if room < len(word) else len(word)
                self.assertEqual(CALLS.rattle_arg(at, buffer, room), wanted)
                self.assertEqual(buffer.raw, word[:room].ljust(4096, b"\x5a"))
        for at in (len(words), 2**64 - 1):
            self.assertEqual(CALLS.rattle_arg(at, None, 0), -1)

    def test_locks(self):
        """A range that one open file description has locked is refused to another of the same
        process until its release, wherever both are in the file."""
        at, size = 1 << 30, 512

        def lock(file, kind, start=at, size=size):
            answer = CALLS.rattle_lock_range(file.fileno(), kind, start, size)
            return ctypes.get_errno() if answer == -1 else answer

        with tempfile.NamedTemporaryFile() as one, open(one.name, "r+b") as other:
            one.write(b"so that it stands elsewhere")
            one.flush()
            self.assertEqual(lock(one, fcntl.F_WRLCK), 0)
            for start, count, wanted in (
                *((at, size, errno.EAGAIN), (at + size - 1, 1, errno.EAGAIN)),
                *((at - 1, 2, errno.EAGAIN), (0, 0, errno.EAGAIN)),
                *((0, at, 0), (at + size, 0, 0), (at - 1, 1, 0)),
            ):
                self.assertEqual(lock(other, fcntl.F_WRLCK, start, count), wanted, (start, count))
                self.assertEqual(lock(other, fcntl.F_UNLCK, 0, 0), 0)
            for file, kind, wanted in (
                *((other, fcntl.F_RDLCK, errno.EAGAIN), (one, fcntl.F_RDLCK, 0)),
                *((other, fcntl.F_RDLCK, 0), (one, fcntl.F_WRLCK, errno.EAGAIN)),
                *((other, fcntl.F_UNLCK, 0), (one, fcntl.F_WRLCK, 0)),
            ):
                self.assertEqual(lock(file, kind), wanted)
            one.close()
            self.assertEqual(lock(other, fcntl.F_WRLCK), 0)
