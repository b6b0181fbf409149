"""Compares out/libargon2.so.1 with Debian's over random calls, good and bad.

    /usr/bin/python3 tests/against_libargon2.py OURS THEIRS SEED TURN..

Each of the 22 calls runs on both, in turns of these numbers. Their answers must be the same, and
all bytes that they could write, and their requests to a context's callbacks. src/libargon2.c lists
the calls that only ours refuses: these return the listed answer, and write nothing.
"""

import base64
import ctypes
import itertools
import random
import re
import sys

from libargon2_calls import ARENA, KINDS, Callbacks, Inputs
from libargon2_calls import by_context, by_hash, context_at, encoded_by_kind, library, zeros

MISMATCH = -35
HASHED = (0, -31, MISMATCH)  # the answers that the original gives after it has hashed


def with_high_bytes(draw, text):
    """A string whose '/' are bytes that no base64 has, which the original reads as '/'."""
    return re.sub("/", lambda _: chr(draw.randrange(0x80, 0x100)), text)


def damaged(draw, text):
    """A string with one part changed, cut, doubled or out of range."""
    at = draw.randrange(len(text) + 1)
    ways = [
        lambda: text[:at],
        lambda: text[:at] + draw.choice("$,=a0+/\x7f ") + text[at:],
        lambda: text[:at] + draw.choice("$,=a0+/Z9") + text[at + 1 :],
        lambda: text[:at] + chr(draw.randrange(0x80, 0x100)) + text[at + 1 :],
        lambda: with_high_bytes(draw, text),
        lambda: with_high_bytes(draw, text),
        lambda: text + draw.choice(("$", "A", "=", "AAAA")),
        lambda: text.replace("m=", draw.choice(("m=0", "m=", "M=", "m=+", "m=1")), 1),
        lambda: text.replace("t=", draw.choice(("t=0", "t", "t=-")), 1),
        lambda: text.replace("p=", draw.choice(("p=0", "p=x", "p=9999")), 1),
        lambda: text.replace("v=19", draw.choice(("v=", "v=019", "v=19$v=19", "v=18", "v=16"))),
        lambda: text.replace("m=", "m=99999999999", 1),
        lambda: re.sub(r"\$v=\d+", "", text, count=1),  # as of version 0x10
    ]
    return draw.choice(ways)()


LANES_TOO_MANY, MEMORY_TOO_MUCH, NO_VERSION = -17, -15, -26


def refused_here(text):
    """The number by which ours refuses a string that the original accepts, or none."""
    form = r"\$argon2\w+(?:\$v=(\d+))?\$m=(\d+),t=\d+,p=(\d+)\$([^$]*)\$([^$]*)"
    found = re.fullmatch(form, text)
    if found is None:
        return None
    version, memory, lanes = int(found[1] or 16), int(found[2]), int(found[3])
    if version not in (16, 19):
        return NO_VERSION
    if lanes > 255:
        return LANES_TOO_MANY
    return MEMORY_TOO_MUCH if memory > 2**21 else None


def is_costly(text):
    """Whether a check of the string would hash for a long time."""
    found = re.search(r"m=(\d+),t=(\d+),", text)
    if found is None:
        return False
    memory, passes = map(int, found.groups())
    return memory * passes > 10000 and max(memory, passes) < 2**32


def letters(data):
    return base64.b64encode(data).decode().rstrip("=")


def text_of(inputs):
    salt = letters(inputs.salt or b"somesalt")
    tag = letters(inputs.password + b"tags"[: inputs.tag_size])
    numbers = f"m={inputs.memory},t={inputs.passes},p={inputs.lanes}"
    return f"${KINDS[inputs.kind % 3]}$v=19${numbers}${salt}${tag}"


def asked(library, call, given):
    """The result of a call, by its name or as a function of the library."""
    return getattr(library, call)(*given) if isinstance(call, str) else call(library, *given)


def first_of(result):
    return result[0] if isinstance(result, tuple) else result


class Comparison:
    def __init__(self, ours, theirs):
        self.ours, self.theirs = ours, theirs
        self.answers, self.refused = {}, {}

    def same(self, call, *given, refused=None):
        """The answers of both libraries must be the same; but if a number is given, ours refuses by
        that number the call that the original hashes."""
        one, other = asked(self.ours, call, given), asked(self.theirs, call, given)
        answer, wanted = first_of(one), first_of(other)
        if refused is not None and wanted in HASHED:
            self.refused[refused] = self.refused.get(refused, 0) + 1
            # the output is unchanged: all of one byte
            is_good = answer == refused and (answer is one or len(set(one[1])) == 1)
        else:
            is_good = one == other
        if not is_good:
            what = f"{call} {given}"
            sys.exit(f"{what:.900}\nours {one!s:.600}\ntheirs {other!s:.600}, refused {refused}")
        self.answers[answer] = self.answers.get(answer, 0) + 1
        return one


def compare_contexts(draw, comparison, inputs):
    comparison.same(by_context, inputs, "argon2_ctx", inputs.kind)
    for number, kind in enumerate(KINDS):
        tag = comparison.same(by_context, inputs, kind + "_ctx")[1]
        for at in (None, 0, len(tag) // 2, len(tag) - 1, draw.randrange(len(tag) or 1)):
            tried = bytearray(tag)
            if at is not None and tag:
                tried[at] ^= 1 << draw.randrange(8)
            tried = bytes(tried) + b"\0"
            comparison.same(by_context, inputs, kind + "_verify_ctx", tried)
            comparison.same(by_context, inputs, "argon2_verify_ctx", tried, number)


def compare_texts(comparison, inputs, texts):
    for text in texts:
        if is_costly(text):
            continue
        refused = refused_here(text)
        for password, size in (
            (inputs.password, len(inputs.password)),
            (inputs.password + b"x", len(inputs.password) + 1),
            (inputs.password[:-1], len(inputs.password[:-1])),
            (None, 7),
            (None, 0),
        ):
            given = (text.encode("latin1"), password, size)
            comparison.same("argon2_verify", *given, inputs.kind, refused=refused)
            for kind in KINDS:
                comparison.same(kind + "_verify", *given, refused=refused)


def compare(draw, comparison):
    inputs = Inputs(draw)
    compare_contexts(draw, comparison, inputs)
    inputs.threads, inputs.flags, inputs.callbacks = inputs.lanes, 0, ""
    numbers = (
        inputs.passes,
        inputs.memory,
        inputs.lanes,
        len(inputs.salt),
        inputs.tag_size,
        inputs.kind % 3,
    )
    fits = comparison.same("argon2_encodedlen", *numbers)
    size, has_raw = draw.choice((None, 0, 1, 40, 100, 3000, 3000, 3000)), draw.random() < 0.5
    answer, encoded, _ = comparison.same(by_hash, inputs, size, has_raw)
    if size == 3000:
        for room in (fits - 1, fits, fits + 1):
            comparison.same(by_hash, inputs, room, has_raw)
    if answer == 0 and size == 3000:
        texts = [encoded.split(b"\0")[0].decode()]
    else:
        texts = [text_of(inputs)]
    texts += [damaged(draw, texts[0]) for _ in range(4)]
    texts.append(damaged(draw, texts[-1]))
    compare_texts(comparison, inputs, texts)
    for kind in KINDS:
        comparison.same(encoded_by_kind, inputs, kind)


def compare_memory_beyond_ours(ours):
    """The inputs that cost the original minutes, or more than this machine's memory."""
    for text, wanted in (
        ("$argon2id$v=19$m=2097153,t=1,p=1$c29tZXNhbHQ$c29tZXRhZw", MEMORY_TOO_MUCH),
        ("$argon2id$v=19$m=4294967295,t=1,p=256$c29tZXNhbHQ$c29tZXRhZw", LANES_TOO_MANY),
        ("$argon2id$v=19$m=4194304,t=1,p=255$c29tZXNhbHQ$c29tZXRhZw", MEMORY_TOO_MUCH),
        (f"$argon2id$v=18$m=4194304,t=1,p=1${'A' * 66}$c29tZXRhZw", NO_VERSION),
        (f"$argon2id$v=17$m=8,t=1,p=1$c29tZXNhbHQ${'A' * 600}", NO_VERSION),
    ):
        answer = ours.argon2_verify(text.encode(), b"x", 1, 2)
        if answer != wanted:
            sys.exit(f"{text}: {answer}, and not {wanted}")


def compare_refused_contexts(ours):
    """A context that only the proved code refuses: the answer is its number, and nothing is written
    or cleared, whatever the flags."""
    for lanes, memory, version, wanted in (
        (256, 4096, 0x13, LANES_TOO_MANY),
        (1000, 8000, 0x13, LANES_TOO_MANY),
        (1, 2**21 + 1, 0x13, MEMORY_TOO_MUCH),
        (1, 2**32 - 1, 0x13, MEMORY_TOO_MUCH),
        (1, 8, 0x12, NO_VERSION),
        (1, 8, 0, NO_VERSION),
    ):
        for callbacks in ("", "gives"):
            inputs = Inputs.plain(lanes=lanes, memory=memory, version=version, flags=3)
            inputs.secret, inputs.callbacks = b"secret", callbacks
            answer, _, arena, *sizes, calls = by_context(ours, inputs, "argon2_ctx", 2)
            before = ctypes.create_string_buffer(b"\x5a" * ARENA, ARENA)
            context_at(inputs, before, Callbacks(False))
            if (answer, arena, sizes, calls) != (wanted, before.raw, [8, 6], []):
                sys.exit(f"a context of {lanes}, {memory}, {version}: {answer}, {sizes}, {calls}")


# The faults of a call of two lanes.
FAULTS = (
    *({"null": name} for name in "opsxa"),
    {"tag_size": 3},
    {"salt": b"seven.."},
    {"memory": 7},
    {"memory": 15},
    {"passes": 0},
    {"lanes": 0},
    {"lanes": 0x1000000},
    {"threads": 0},
    {"threads": 0x1000000},
    {"callbacks": "odd"},
    {"callbacks": "dod"},
    {"kind": 3},
)


def compare_kept_memory(ours):
    """Our library keeps an area and frees it once, or keeps none; Debian's has no such calls."""
    keep, trim, found = ours.rigzumal_libargon2_keep, ours.rigzumal_libargon2_trim, []
    for most in (0, 2**26):
        found += [keep(most), trim()]
        by_hash(ours, Inputs.plain(memory=1024), None, True)
        found += [trim(), trim()]
    if found != [2**26, 0, 0, 0, 0, 0, 2**24, 0]:
        sys.exit(f"kept: {found}")


def compare_pairs_of_faults(comparison):
    """Of two faults our call returns the original's first."""
    for one, other in itertools.combinations(FAULTS, 2):
        null = one.get("null", "") + other.get("null", "")
        inputs = Inputs.plain(**{**one, **other, "null": null})
        comparison.same(by_context, inputs, "argon2_ctx", inputs.kind)
        for kind in KINDS:
            comparison.same(by_context, inputs, kind + "_ctx")
        comparison.same(by_hash, inputs, 3000, True)


def compare_memory_askew(ours):
    """Memory at an address where no number can be stored is freed, and counts as none."""
    arena = ctypes.create_string_buffer(ARENA)
    inputs = Inputs.plain(callbacks="gives")
    for askew in (1, 2, 4):
        callbacks = Callbacks(True, askew)
        answer = ours.argon2_ctx(ctypes.byref(context_at(inputs, arena, callbacks)), 2)
        calls = [call[0] for call in callbacks.calls]
        if (answer, calls, callbacks.held) != (-22, ["allocate", "free"], {}):
            sys.exit(f"memory at {askew}: {answer}, {calls}")


def hashed_to(lib, size):
    """A tag of this many bytes with its string, and the answers to the right password and
    another."""
    raw = ctypes.create_string_buffer(b"\x5a" * 70008, 70008)
    encoded = ctypes.create_string_buffer(b"\x5a" * 100_000, 100_000)
    room = (ctypes.addressof(encoded), 100_000)
    made = lib.argon2_hash(1, 8, 1, b"password", 8, b"somesalt", 8, raw, size, *room, 2, 0x13)
    text = encoded.value
    answers = [lib.argon2_verify(text, it, len(it), 2) for it in (b"password", b"x")]
    return made, encoded.raw, raw.raw, answers


def compare_large_numbers(comparison):
    """Passes past 16 bits, tags past a page and past 16 bits, and texts of over 32 bits."""
    for passes in (257, 65536, 65537 + 256):
        comparison.same(by_context, Inputs.plain(passes=passes, lanes=1, memory=8), "argon2_ctx", 2)
    for size in (1023, 4095, 4096, 4097, 65535, 65536, 70000):
        answers = comparison.same(hashed_to, size)[3]
        if answers != [0, MISMATCH]:
            sys.exit(f"a tag of {size} bytes: {answers}")
    for salt, tag in ((2**31, 8), (8, 2**31), (2**32 - 1, 2**32 - 1)):
        comparison.same("argon2_encodedlen", 2**32 - 1, 2**32 - 1, 2**32 - 1, salt, tag, 1)


def compare_long_password(ours, theirs):
    """A password of over 31 bits isn't the one of its first eight bytes."""
    size = 2**31 + 8
    text = ctypes.create_string_buffer(200)
    given = (1, 8, 1, bytes(8), 8, b"somesalt", 8, None, 32, ctypes.addressof(text), 200)
    if theirs.argon2_hash(*given, 2, 0x13) != 0:
        sys.exit("the original makes no string")
    password = zeros(size)
    at = ctypes.addressof(password)
    answers = [ours.argon2_verify(text.value, at, it, 2) for it in (8, size)]
    if answers != [0, MISMATCH]:
        sys.exit(f"a password of {size} bytes: {answers}")


def compare_long_sizes(comparison):
    """Sizes of over 32 bits, which no call may truncate: the bytes can't be read."""
    long = 2**32 + 8
    for password, salt, tag in ((long, 8, 32), (8, long, 32), (8, 8, long), (long, long, long)):
        for encoded in (None, ctypes.create_string_buffer(600)):
            room = (None if encoded is None else ctypes.addressof(encoded), 600)
            given = (b"password", password, b"somesalt", salt, None, tag, *room)
            comparison.same("argon2_hash", 1, 8, 1, *given, 2, 0x13)
    record = b"$argon2id$v=19$m=256,t=2,p=1$c29tZXNhbHQ$nf65EOgLrQMR/uIPnA4rEsF5h7TKyQwu9U1bMCHGi/4"
    for text in (record, record + b"$", b"", None):
        comparison.same("argon2_verify", text, b"password", long, 2)


def compare_words_and_nulls(comparison):
    for number in range(2, -40, -1):
        comparison.same("argon2_error_message", number)
    for kind, upper in itertools.product(range(-1, 4), (0, 1)):
        comparison.same("argon2_type2string", kind, upper)
    comparison.same("argon2_ctx", None, 1)
    comparison.same("argon2_verify_ctx", None, b"x", 1)
    comparison.same("argon2_verify", None, b"", 0, 1)
    for kind in KINDS:
        comparison.same(kind + "_ctx", None)
        comparison.same(kind + "_verify_ctx", None, b"x")


def main():
    ours, theirs = map(library, sys.argv[1:3])
    comparison = Comparison(ours, theirs)
    compare_words_and_nulls(comparison)
    compare_memory_beyond_ours(ours)
    compare_refused_contexts(ours)
    compare_memory_askew(ours)
    compare_kept_memory(ours)
    compare_pairs_of_faults(comparison)
    compare_large_numbers(comparison)
    compare_long_password(ours, theirs)
    compare_long_sizes(comparison)
    seed, *turns = sys.argv[3:]
    for turn in turns:
        compare(random.Random(f"{seed} {turn}"), comparison)
    numbers = sorted(it for it in comparison.answers if isinstance(it, int) and it <= 0)
    refused = ", ".join(f"{count} by {it}" for it, count in sorted(comparison.refused.items()))
    print(
        f"the same over {sum(comparison.answers.values())} calls; answers seen: {numbers};"
        f" refused here alone: {refused}"
    )


if __name__ == "__main__":
    main()
