"""The calls of argon2.h with random inputs, good and bad, and all of their output."""

import ctypes
import mmap
import random

KINDS = ("argon2d", "argon2i", "argon2id")
ARENA = 32768
NUMBER, POINTER, SIZE = ctypes.c_uint32, ctypes.c_void_p, ctypes.c_size_t


class Context(ctypes.Structure):
    """argon2_context of argon2.h."""

    _fields_ = [
        *(
            (name, kind)
            for it in ("out", "pwd", "salt", "secret", "ad")
            for name, kind in ((it, POINTER), (f"{it}len", NUMBER))
        ),
        *((name, NUMBER) for name in ("t_cost", "m_cost", "lanes", "threads", "version")),
        *((name, POINTER) for name in ("allocate_cbk", "free_cbk")),
        ("flags", NUMBER),
    ]


def library(path):
    found = ctypes.CDLL(path)
    text, data = ctypes.c_char_p, [POINTER, SIZE]
    found.argon2_error_message.restype = text
    found.argon2_type2string.restype = text
    found.argon2_encodedlen.restype = SIZE
    found.argon2_hash.argtypes = [NUMBER] * 3 + data * 4 + [ctypes.c_int, NUMBER]
    found.argon2_verify.argtypes = [POINTER, *data, ctypes.c_int]
    found.argon2_verify_ctx.argtypes = [POINTER, text, ctypes.c_int]
    for kind in KINDS:
        getattr(found, kind + "_hash_raw").argtypes = [NUMBER] * 3 + data * 3
        getattr(found, kind + "_hash_encoded").argtypes = [NUMBER] * 3 + data * 2 + [SIZE, *data]
        getattr(found, kind + "_verify").argtypes = [POINTER, *data]
        getattr(found, kind + "_verify_ctx").argtypes = [POINTER, text]
    return found


ALLOCATE = ctypes.CFUNCTYPE(
    ctypes.c_int, ctypes.POINTER(ctypes.POINTER(ctypes.c_uint8)), ctypes.c_size_t
)
FREE = ctypes.CFUNCTYPE(None, ctypes.POINTER(ctypes.c_uint8), ctypes.c_size_t)


class Callbacks:
    """A context's functions for memory, which note their arguments. They return memory that isn't
    zero, or none; memory that comes back must be zero."""

    def __init__(self, gives, askew=0):
        self.gives, self.askew, self.calls, self.held = gives, askew, [], {}
        self.allocate, self.free = ALLOCATE(self._allocate), FREE(self._free)

    def _allocate(self, memory, size):
        self.calls.append(("allocate", size))
        if self.gives:
            room = (ctypes.c_uint8 * (size + 16))(*b"\xa5" * 4096)
            place = ctypes.addressof(room) + -ctypes.addressof(room) % 16 + self.askew
            self.held[place] = room
            memory[0] = ctypes.cast(place, ctypes.POINTER(ctypes.c_uint8))
        return 77  # which the calls ignore

    def _free(self, memory, size):
        place = ctypes.addressof(memory.contents)
        is_clear = not any(ctypes.string_at(place, size))
        self.calls.append(("free", size, is_clear, self.held.pop(place, None) is not None))


class Inputs:
    """The numbers and bytes of a call: mostly good, each now and then bad."""

    def __init__(self, draw):
        def mostly(good, *bad):
            return draw.choice(bad) if draw.random() < 0.06 else good

        self.lanes = mostly(draw.choice((1, 1, 2, 3, 4, 7)), 0, 0x1000000, 0x20000001)
        least = 8 * (self.lanes if self.lanes < 100 else 1)
        self.memory = mostly(draw.randrange(max(least, 8), 300), 0, 7, least - 1)
        self.passes = mostly(draw.choice((1, 1, 2, 3)), 0)
        self.tag_size = mostly(
            draw.choice((draw.randrange(4, 65), draw.randrange(4, 101))), 0, 3, 65, 200, 1024
        )
        salt_size = draw.choice((draw.randrange(8, 50), draw.randrange(8, 201)))
        self.salt = draw.randbytes(mostly(salt_size, 0, 7, 48, 49))
        self.password = draw.randbytes(draw.choice((0, 1, 8, 33, 200, 256, 257, 1000, 5000)))
        self.secret = draw.randbytes(draw.choice((0, 0, 5, 64)))
        self.associated = draw.randbytes(draw.choice((0, 0, 12, 100)))
        self.kind = mostly(draw.randrange(3), 3, -1)
        self.version = draw.choice((0x10, 0x13))
        self.null = draw.choice("psxaohhh") if draw.random() < 0.08 else ""
        self.threads = mostly(draw.choice((self.lanes or 1, 1, 9)), 0, 0x1000000)
        self.callbacks = draw.choice(("", "", "", "", "", "gives", "gives", "none", "odd", "dod"))
        self.flags = draw.choice((0, 0, 1, 2, 3))
        self.overlap = draw.randrange(4000)

    def __repr__(self):
        return f"Inputs({vars(self)})"

    @classmethod
    def plain(cls, **changes):
        """Good inputs of two lanes, except for these."""
        plain = cls(random.Random(1))
        good = {"salt": b"somesalt", "password": b"password", "secret": b"x", "associated": b"y"}
        good |= {"null": "", "flags": 0, "callbacks": "", "overlap": 0, "version": 0x13}
        good |= {"lanes": 2, "memory": 16, "passes": 1, "threads": 1, "tag_size": 32, "kind": 2}
        vars(plain).update({**good, **changes})
        return plain


def zeros(size):
    """The address of this many zero bytes; the system has no page for them until a read."""
    flags = mmap.MAP_PRIVATE | mmap.MAP_ANONYMOUS | 0x4000  # MAP_NORESERVE
    return ctypes.c_char.from_buffer(mmap.mmap(-1, size, flags=flags))


def places(inputs):
    """The addresses of the inputs in an arena, one behind another, and of the output: over any of
    them, or behind them."""
    sizes = {
        "p": len(inputs.password),
        "s": len(inputs.salt),
        "x": len(inputs.secret),
        "a": len(inputs.associated),
    }
    at, found = 64, {}
    for name, size in sizes.items():
        found[name] = at
        at += size + 8
    found["o"] = 64 + inputs.overlap * 2 % at if inputs.overlap % 2 else at
    return found


def address_of(call):
    return ctypes.cast(call, ctypes.c_void_p).value


def context_at(inputs, arena, callbacks):
    """A context over an arena into which the inputs are written."""
    found = places(inputs)
    start = ctypes.addressof(arena)
    data = {"p": inputs.password, "s": inputs.salt, "x": inputs.secret, "a": inputs.associated}
    for name, content in data.items():
        ctypes.memmove(start + found[name], content, len(content))

    def address(name):
        return None if name in inputs.null else start + found[name]

    fields = [address("o"), inputs.tag_size]
    for name, content in data.items():
        fields += [address(name), len(content)]
    fields += [inputs.passes, inputs.memory, inputs.lanes, inputs.threads, inputs.version]
    allocate = None if inputs.callbacks in ("", "dod") else address_of(callbacks.allocate)
    free = None if inputs.callbacks in ("", "odd") else address_of(callbacks.free)
    return Context(*fields, allocate, free, inputs.flags if inputs.null == "" else 0)


def by_context(lib, inputs, name, *given):
    """A call of a context, with all that it wrote, into the inputs too, and what its callbacks
    saw."""
    arena = ctypes.create_string_buffer(b"\x5a" * ARENA, ARENA)
    callbacks = Callbacks(inputs.callbacks == "gives")
    context = context_at(inputs, arena, callbacks)
    answer = getattr(lib, name)(ctypes.byref(context), *given)
    at = places(inputs)["o"]
    tag = arena.raw[at : at + inputs.tag_size]
    return answer, tag, arena.raw, context.pwdlen, context.secretlen, callbacks.calls


def by_hash(lib, inputs, encoded_size, has_raw):
    raw = ctypes.create_string_buffer(b"\x5a" * 1100, 1100)
    encoded = ctypes.create_string_buffer(b"\x5a" * 3000, 3000)
    password = None if inputs.null == "p" else inputs.password, len(inputs.password)
    salt = None if inputs.null == "s" else inputs.salt, len(inputs.salt)
    tag = ctypes.addressof(raw) if has_raw else None, inputs.tag_size
    text = None if encoded_size is None else ctypes.addressof(encoded), encoded_size or 0
    costs = (inputs.passes, inputs.memory, inputs.lanes)
    answer = lib.argon2_hash(*costs, *password, *salt, *tag, *text, inputs.kind, inputs.version)
    return answer, encoded.raw, raw.raw


def encoded_by_kind(lib, inputs, kind):
    raw = ctypes.create_string_buffer(1100)
    encoded = ctypes.create_string_buffer(3000)
    common = (inputs.passes, inputs.memory, inputs.lanes, inputs.password, len(inputs.password))
    salt = (inputs.salt, len(inputs.salt))
    first = getattr(lib, kind + "_hash_raw")(*common, *salt, raw, inputs.tag_size)
    size = (inputs.tag_size, ctypes.addressof(encoded), 3000)
    second = getattr(lib, kind + "_hash_encoded")(*common, *salt, *size)
    return second, encoded.raw, first, raw.raw
