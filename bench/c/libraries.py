"""The libraries under test, and the calls of each: a call computes a tag or a key under its
costs."""

import ctypes
import hashlib
import pathlib
import sys

OURS = pathlib.Path(__file__).resolve().parents[2] / "c/out/librigzumal.so.1"
ORIGINAL = "/usr/lib/x86_64-linux-gnu/libargon2.so.1"
PASSWORD, SALT, SIZE = b"password", b"sixteen of salt.", 32
INPUTS = (PASSWORD, len(PASSWORD), SALT, len(SALT))
NUMBER, WIDE = ctypes.c_uint32, ctypes.c_ulonglong
LENGTH, TEXT = ctypes.c_size_t, ctypes.c_char_p
DATA = [TEXT, LENGTH]
ROOM = object()  # marks the buffer that a call writes


class Numbers(ctypes.Structure):
    """struct rigzumal_argon2, and the first three of struct rigzumal_scrypt."""

    _fields_ = [(f"number{at}", NUMBER) for at in range(5)]


def library(path):
    """Loads a library, or returns None if this machine lacks it."""
    try:
        return ctypes.CDLL(str(path))
    except OSError:
        print(f"{path} is not there", file=sys.stderr)
        return None


def libsodium():
    """Loads libsodium. sodium_init chooses the code for this processor; until then libsodium runs
    slow code for any processor."""
    found = library("libsodium.so.23")
    if found is not None and found.sodium_init() < 0:
        sys.exit("libsodium can't be initialised")
    return found


def need_initialised(sodium):
    """Ends the program unless libsodium was initialised before: sodium_init then returns 1."""
    if sodium.sodium_init() != 1:
        sys.exit("libsodium isn't initialised")


def made(call, *given):
    """Returns the bytes that a call writes into its ROOM."""
    room = ctypes.create_string_buffer(SIZE)
    words = [room if word is ROOM else word for word in given]
    if call(*words) != 0:
        sys.exit(f"{call.__name__} refused its inputs")
    return room.raw


def rigzumal_argon2(ours, most_threads=1):
    """Returns our Argon2, with a thread for each lane, up to this many."""
    call = ours.rigzumal_argon2_threads
    call.argtypes = [*DATA, ctypes.POINTER(Numbers), *DATA * 4, NUMBER]
    none = (None, 0, None, 0)

    def hashed(memory, passes, lanes):
        numbers = Numbers(2, 0x13, memory, passes, lanes)
        return made(call, ROOM, SIZE, numbers, *INPUTS, *none, min(lanes, most_threads))

    return hashed


def original_argon2(original):
    call = original.argon2id_hash_raw
    call.argtypes = [NUMBER] * 3 + DATA * 3
    return lambda memory, passes, lanes: made(call, passes, memory, lanes, *INPUTS, ROOM, SIZE)


def sodium_argon2(sodium):
    """Returns libsodium's Argon2, which has one lane."""
    need_initialised(sodium)
    call = sodium.crypto_pwhash
    call.argtypes = [TEXT, WIDE, TEXT, WIDE, TEXT, WIDE, LENGTH, ctypes.c_int]
    return lambda memory, passes, _: made(call, ROOM, SIZE, *INPUTS[:3], passes, memory * 1024, 2)


def rigzumal_scrypt(ours):
    call = ours.rigzumal_scrypt
    call.argtypes = [*DATA, ctypes.POINTER(Numbers), *DATA * 2]
    return lambda *costs: made(call, ROOM, SIZE, Numbers(*costs), *INPUTS)


def openssl_scrypt(ln, r, p):
    costs = {"n": 1 << ln, "r": r, "p": p, "maxmem": 2**31 - 1}
    return hashlib.scrypt(PASSWORD, salt=SALT, dklen=SIZE, **costs)


def sodium_scrypt(sodium):
    need_initialised(sodium)
    call = sodium.crypto_pwhash_scryptsalsa208sha256_ll
    call.argtypes = [*DATA * 2, ctypes.c_uint64, NUMBER, NUMBER, *DATA]
    return lambda ln, r, p: made(call, *INPUTS, 1 << ln, r, p, ROOM, SIZE)
