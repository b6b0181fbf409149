"""The calls of rigzumal.h over the library that the variable LIBRARY names. A call may write
nothing behind its output, and nothing at all with a fault."""

import ctypes
import os
import pathlib
import re
import types

HEADER = (pathlib.Path(__file__).parents[1] / "include/rigzumal.h").read_text()
# The header's numbers by their names, such as RIGZUMAL.OK for RIGZUMAL_OK.
RIGZUMAL = types.SimpleNamespace(
    **{name: int(number) for name, number in re.findall(r"\bRIGZUMAL_(\w+) = (\d+)\b", HEADER)}
)
UNTOUCHED = b"\x5a"
LIBRARY = ctypes.CDLL(os.environ["LIBRARY"])
LIBRARY.rigzumal_strerror.restype = LIBRARY.rigzumal_word.restype = ctypes.c_char_p

# By the argon2 program, of the password "password" (printf password | argon2 somesalt -id -t 2 -k
# 256 -p 1 -l 32 -e; with -p 4 -l 24; with -i; with -i -v 10, without the version, as programs wrote
# it then); by passlib, of another one.
RECORD = "$argon2id$v=19$m=256,t=2,p=1$c29tZXNhbHQ$nf65EOgLrQMR/uIPnA4rEsF5h7TKyQwu9U1bMCHGi/4"
RECORD_OF_LANES = "$argon2id$v=19$m=256,t=2,p=4$c29tZXNhbHQ$O71Gv0rP/8cqejNQA/lwVH32qlqGxXH5"
RECORD_OF_I = "$argon2i$v=19$m=256,t=2,p=1$c29tZXNhbHQ$iekCn0Y3spW+sCcFanM2xBT63UP2sghkUoHLIUpWRS8"
OLD_RECORD = "$argon2i$m=256,t=2,p=1$c29tZXNhbHQ$/U3YPXYsSb3q9XxHvc0MLxur+GP960kN9j7emXX8zwY"
SCRYPT_RECORD = "$scrypt$ln=8,r=8,p=1$YmVucyBzYWx0$+KFelNIG2qBCL4ql+mf/Ah1wLJw+NsQMbjEE0WoA3TI"


def call(name, *given):
    """The answer of a call: bytes are passed with their size, as are pairs of a pointer and a
    size."""
    words = []
    for value in given:
        if isinstance(value, bytes):
            words += [value, ctypes.c_size_t(len(value))]
        elif isinstance(value, tuple):
            start, size = value
            words += [start, ctypes.c_size_t(size)]
        elif isinstance(value, int):
            words.append(ctypes.c_size_t(value))
        elif isinstance(value, ctypes.Structure):
            words.append(ctypes.byref(value))
        elif isinstance(value, str):
            words.append(value.encode("latin1"))
        else:
            words.append(value)
    return getattr(LIBRARY, f"rigzumal_{name}")(*words)


def written(name, room, *given):
    """The answer of a call that writes into a buffer of this size, and the bytes that it wrote."""
    buffer = ctypes.create_string_buffer(UNTOUCHED * (room + 1), room + 1)
    answer = call(name, (buffer, room), *given)
    if buffer.raw[room:] != UNTOUCHED:
        raise AssertionError(f"{name} wrote behind its room")
    if answer != RIGZUMAL.OK and buffer.raw.strip(UNTOUCHED):
        raise AssertionError(f"{name} wrote with the fault {answer}")
    return answer, buffer.raw[:room]


def written_text(name, room, *given):
    """The answer of a call that writes a text, and the text; nothing may be written behind its
    end."""
    answer, data = written(name, room, *given)
    text, end, rest = data.partition(b"\0")
    lacks_end = room > 0 and not end
    if answer == RIGZUMAL.OK and (lacks_end or rest.strip(UNTOUCHED)):
        raise AssertionError(f"{name} wrote behind the text")
    return answer, text.decode("latin1") if answer == RIGZUMAL.OK else ""


def numbers(*given):
    """A structure of numbers, as rigzumal_argon2, rigzumal_scrypt and rigzumal_parts."""
    return ctypes.byref((ctypes.c_uint32 * len(given))(*given))


def structure(*names):
    """A structure of pointers, of texts, of pairs of a pointer and a size, and of numbers."""
    fields = []
    for name in names:
        kind = ctypes.c_uint32 if name in ("threads", "operation") else ctypes.c_char_p
        fields.append((name, kind))
        if name in ("password", "new_password", "salt", "secret", "associated"):
            fields.append((f"{name}_size", ctypes.c_size_t))

    class Structure(ctypes.Structure):
        _fields_ = fields

    return Structure


Inputs = structure("password", "salt", "secret", "associated", "threads")
StepInputs = structure(
    "operation", "copy", "password", "new_password", "setting", "secret", "threads"
)


def inputs(kind=Inputs, **given):
    """Inputs by name: bytes with their size, unless the call names a size."""
    made = kind()
    for name, value in given.items():
        value = value.encode() if isinstance(value, str) else value
        setattr(made, name, value)
        if hasattr(made, f"{name}_size") and value is not None and f"{name}_size" not in given:
            setattr(made, f"{name}_size", len(value))
    return made
