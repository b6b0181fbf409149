"""The changes that tools/compile_proved.py makes to LLVM modules of proved code.

- Rattle has no prefetch, so cred_argon calls a function with an empty body at each place for a
  prefetch of a block. That body becomes LLVM's prefetches, which change no value.
- rattle drops `#[inline(always)]` from some functions. Calls of these functions would move the
  vectors of half a block to memory, so they are inlined.
- A module for every x86-64 processor gets another level of processors.
- A program's module is cut in two: the lanes, which take nearly all of a hash's time and are
  compiled for several levels, and the rest.

If a module lacks the place of a change, the script stops.
"""

from __future__ import annotations

import hashlib
import re
import sys

PLAIN = "x86-64"
PREFETCHES = "cred_argon::block::prefetch_block"
# The whole function: its head, perhaps a label, and its return.
EMPTY_BODY = re.compile(
    rf'^define internal void @"{PREFETCHES}"\(ptr noundef %(\w+)\) #\d+ \{{\n'
    r"(?:\w+:.*\n)?"
    r"  ret void\n"
    r"\}\n",
    re.M,
)
# Half a block, by lines of the cache. More would fill the processor's list of pending reads, and
# G's own reads would wait for a place in it.
OFFSETS = range(0, 512, 64)
DECLARED = "declare void @llvm.prefetch.p0(ptr, i32, i32, i32)\n"
# Functions that lose `#[inline(always)]` in rattle. Some have several instances.
INLINED = (
    "cred_argon::block::add_half",
    "cred_argon::block::compress_over",
    "cred_argon::block::compress_onto",
    "cred_argon::next_reference::NextReferencePrefetch::prefetch",
)

# Where a program's module is cut: the functions' names in objects, as c/programs/lanes.c declares
# them, and the number of their arguments, all addresses.
LANES = {
    "cred_argon::segment::SegmentPartSharedVecSegment::work": ("lanes_work_segment", 2),
    "cred_argon::segment::work_interleaved": ("lanes_work_interleaved", 3),
    "cred_scrypt::pieces::Piece::mix": ("lanes_mix_piece", 3),
}
NAME = re.compile(r'@(?:"[^"]*"|[\w.$+-]+)')
NUMBER = re.compile(r"(?m)(?<= )[#!]\d+(?=$|[ ,])")


def with_prefetches(text: str) -> str:
    """Returns the module with prefetches at the places that request a block."""
    found = EMPTY_BODY.findall(text)
    if len(found) != 1 or text.count(f'define internal void @"{PREFETCHES}"') != 1:
        sys.exit(f"the module has {len(found)} empty functions {PREFETCHES} instead of one")
    lines = [f'define internal void @"{PREFETCHES}"(ptr noundef %block) alwaysinline nounwind {{']
    for at in OFFSETS:
        lines += [f"  %line{at} = getelementptr i8, ptr %block, i64 {at}"]
        # a read, to be kept in all caches, of data
        lines += [f"  call void @llvm.prefetch.p0(ptr %line{at}, i32 0, i32 3, i32 1)"]
    body = "\n".join([*lines, "  ret void", "}", ""])
    return EMPTY_BODY.sub(lambda _: body, text) + DECLARED


def with_inlined(text: str) -> str:
    """Returns the module with inlining for the functions whose source requests it."""
    for name in INLINED:
        # The head of a function with this name, up to its arguments; and its attributes.
        head = re.compile(rf'^(define internal [^@\n]*@"{name}[^{{\n]*\) )(#\d+ \{{)', re.M)
        text, places = head.subn(r"\1alwaysinline \2", text)
        if not places:
            sys.exit(f"the module has no function {name}")
    return text


def prepared(text: str) -> str:
    """Returns the module with prefetches and inlining."""
    return with_inlined(with_prefetches(text))


def at_level(text: str, level: str) -> str:
    """Returns the module, which is for every x86-64 processor, for a level of processors."""
    plain = f'"target-cpu"="{PLAIN}"'
    if plain not in text:
        sys.exit(f"the module has no {plain}")
    return text.replace(plain, f'"target-cpu"="{level}"')


class Module:
    """The text of a module by its parts."""

    def __init__(self, text: str) -> None:
        head, *parts = re.split(r"(?m)^(?=define )", text)
        self.functions: dict[str, str] = {}
        self.rest = head
        for part in parts:
            end = part.index("\n}\n") + len("\n}\n")
            self.functions[name_in(part)] = part[:end]
            self.rest += part[end:]
        self.variables: dict[str, str] = {}
        self.declared: dict[str, str] = {}
        self.numbered: dict[str, str] = {}  # groups of attributes, and metadata
        for line in self.rest.splitlines():
            head, _, value = line.partition(" = ")
            if line.startswith("@"):
                self.variables[head] = value
            elif line.startswith("declare "):
                self.declared[name_in(line)] = line
            elif line.startswith("attributes "):
                self.numbered[head.split()[1]] = value.strip("{ }")
            elif re.match(r"!\d+$", head):
                self.numbered[head] = value

    def below(self, names: list[str]) -> set[str]:
        """Returns these functions, and everything that they name, and so on."""
        found, left = set[str](), [*names]
        while left:
            name = left.pop()
            if name not in found:
                found.add(name)
                text = self.functions.get(name) or self.variables.get(name) or ""
                left += NAME.findall(text)
        return found

    def without_numbers(self, text: str) -> str:
        """Returns functions with their attributes and metadata in place of their numbers."""
        return NUMBER.sub(lambda found: self.numbered[found.group()], text)


def head_of(text: str) -> str:
    """Returns a module's lines about the target, and those that name the logic."""
    kept = ("target ", "!llvm.ident = !{!0}", "!0 = ")
    return "".join(f"{line}\n" for line in text.splitlines() if line.startswith(kept))


def name_in(text: str) -> str:
    found = NAME.search(text)
    assert found is not None, text
    return found.group()


def lanes_of(module: Module) -> dict[str, str]:
    """Returns the functions of a program's lanes by their names, as each program has them: the
    names of constants, and numbers, which differ, are replaced."""
    found = module.below([f'@"{name}"' for name in LANES])
    constants = {name: module.variables[name] for name in found if name in module.variables}
    for name, value in constants.items():
        if not re.search(r"\bconstant\b", value) or NAME.search(value):
            sys.exit(f"the lanes read {name}, which is no plain constant")
    renamed = {
        name: f"@constant.{hashlib.sha256(value.encode()).hexdigest()[:16]}"
        for name, value in constants.items()
    }
    texts = {renamed[name]: f"{renamed[name]} = {value}\n" for name, value in constants.items()}
    for name in found:
        if name in module.functions:
            text = module.without_numbers(module.functions[name])
            texts[name] = NAME.sub(lambda it: renamed.get(it.group(), it.group()), text)
        elif name in module.declared:
            texts[name] = module.without_numbers(module.declared[name]) + "\n"
    return texts


def lanes(module: Module) -> str:
    """Returns the module of a program's lanes, whose text is the same for each program."""
    texts = lanes_of(module)
    code = head_of(module.rest) + "".join(texts[name] for name in sorted(texts))
    for name, (_, count) in LANES.items():
        arguments = ", ".join(f"ptr noundef %a{at}" for at in range(count))
        head = f'define internal void @"{name}"({arguments})'
        if head not in code:
            sys.exit(f"the module has no function {head}")
        code = code.replace(head, head.replace("internal", "hidden"))
    return code


def at_names(text: str, ending: str = "") -> str:
    """Returns a module in which the functions of the cut have the names of lanes.c."""
    for name, (of_object, _) in LANES.items():
        text = text.replace(f'@"{name}"', f"@{of_object}{ending}")
    return text


def without_lanes(module: Module) -> str:
    """Returns a program's module without its lanes, which it calls by their names in objects."""
    cut = {f'@"{name}"' for name in LANES}
    declared = "".join(
        f"declare hidden void @{name}({', '.join(['ptr'] * count)})\n"
        for name, count in LANES.values()
    )
    kept = "".join(body for name, body in module.functions.items() if name not in cut)
    return at_names(module.rest + kept) + declared
