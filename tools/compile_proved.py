#!/usr/bin/env python3
"""Compiles the proved code again, for machines without rt: c/proved, or with --check a comparison
of c/proved, byte for byte.

    python3 tools/compile_proved.py [--check] COMMAND..      (the variable RT names another rt)

COMMAND proves every crate, as `rt ci` does. rattle then compiles the crate of the library, and the
programs, over the crates that COMMAND proved. rattle proves these three once more, for each
processor, and uses nothing that an earlier run kept in crates/NAME/out. The script calls rattle as
rt does, but with a folder of links to the toolchain in which clang is this script: it keeps the
proved module, so that one proof serves all objects (tools/proved_module.py changes and cuts it).

If a proof fails, or with --check a file of c/proved differs, the status is 1, and the last lines
give the reason.
"""

from __future__ import annotations

import concurrent.futures
import functools
import hashlib
import importlib.util
import json
import os
import pathlib
import re
import shutil
import subprocess
import sys
import tempfile
from collections.abc import Iterator

import proved_module
from proved_module import PLAIN, Module
from tree import CRATES, TOP, all_below, kit, listed, need_rt, source, told_by_rt

sys.path.insert(0, str(TOP / "packaging"))
import components  # noqa: E402

PROVED = TOP / "c/proved"
LIBRARY, PROGRAMS = "cred_c", ("credbook", "credkeep")
# For each folder of c/proved the option for rattle, and the target of the proof.
TARGETS = {
    "x86_64": (f"--cpu={PLAIN}", "x86_64-unknown-linux-gnu"),
    "arm64": ("--target=aarch64-unknown-linux-gnu", "aarch64-unknown-linux-gnu"),
}
# The levels of x86-64, and those of them for which the lanes of programs are compiled: the lanes
# are no faster at v2 than at v1.
LEVELS = {"v1": PLAIN, "v2": "x86-64-v2", "v3": "x86-64-v3", "v4": "x86-64-v4"}
LEVELS_OF_LANES = ("v1", "v3", "v4")
# The most memory that a proof needs, in bytes: that of credkeep.
MEMORY = 5 << 30


@functools.cache
def verdict() -> re.Pattern[str]:
    """Returns the form of the last line of a proof that the toolchain's own gate accepts."""
    spec = importlib.util.spec_from_file_location("rtlib", kit() / "bin/rtlib.py")
    assert spec is not None and spec.loader is not None
    rtlib = importlib.util.module_from_spec(spec)
    sys.modules["rtlib"] = rtlib
    spec.loader.exec_module(rtlib)
    form: re.Pattern[str] = rtlib.VERDICT
    return form


def be_clang(processor: str, room: pathlib.Path, clang: str, words: list[str]) -> None:
    """Runs clang on the changed module instead of the proved one. For x86-64 the script instead
    keeps the module's text and clang's arguments, and compiles nothing of the module yet."""
    if "module.bc" in words:
        target = [it for it in words if it.startswith("--target=")]
        as_text = ["-S", "-emit-llvm", "-Xclang", "-disable-llvm-passes", "-O3"]
        command = ["clang", *target, "-x", "ir", "module.bc", *as_text, "-o", room / "module.ll"]
        subprocess.run(command, executable=clang, check=True)
        text = proved_module.prepared((room / "module.ll").read_text())
        (room / "module.ll").write_text(text)
        if processor == "x86_64":
            (room / "words.json").write_text(json.dumps(words))
            text = proved_module.head_of(text)
        pathlib.Path("changed.ll").write_text(text)
        words = ["changed.ll" if it == "module.bc" else it for it in words]
    os.execv(clang, ["clang", *words])


def make_toolchain(processor: str, room: pathlib.Path) -> pathlib.Path:
    """Creates a folder of links to the toolchain, except for its clang."""
    folder = room / "toolchain"
    subprocess.run(["cp", "-rs", kit() / "toolchain", folder], check=True)
    clang = folder / "bin/clang"
    clang.unlink()
    command = f'"{sys.executable}" "{__file__}" --clang {processor} "{room}" "{kit()}"'
    clang.write_text(f'#!/bin/sh\nexec {command} "$@"\n')
    clang.chmod(0o755)
    return folder


def words_of(crate: str) -> list[str | pathlib.Path]:
    """Returns the arguments of rt for rattle, without those for a processor."""
    is_library = crate == LIBRARY
    words = ["--crate-name", crate, "src/lib.rt" if is_library else "src/main.rt"]
    words += ["--crate-type", "staticlib"] if is_library else ["--links", f"{crate}="]
    words += ["--extern", f"std={kit()}/rlibs/std.rlib", "-L", f"dependency={kit()}/rlibs"]
    for name in listed()[crate][1]:
        folder = CRATES / name / "out/rlib" if name in listed() else kit() / "rlibs"
        words += ["--extern", f"{name}={folder}/{name}.rlib"]
    for name in all_below(crate):
        words += ["-L", f"dependency={CRATES}/{name}/out/rlib"]
    words += ["--antt-project", f"{kit()}/rattle/logic/antt-project.json"]
    return [*words, "--logic-built", f"{kit()}/logic_built", "--jobs", "1", "--backend", "llvm"]


class Proof:
    """A proof of a crate by rattle for a processor, with the module that rattle compiled."""

    def __init__(self, crate: str, processor: str, room: pathlib.Path) -> None:
        self.crate, self.processor, self.room = crate, processor, room / f"{processor}-{crate}"
        self.room.mkdir()
        flag, target = TARGETS[processor]
        words = [*words_of(crate), flag, "--toolchain", make_toolchain(processor, self.room)]
        words += ["-o", self.room / "made"]
        both = {"stdout": subprocess.PIPE, "stderr": subprocess.STDOUT, "text": True}
        done = subprocess.run([kit() / "bin/rattle", "build", *words], cwd=CRATES / crate, **both)
        last = f"{done.stdout.rstrip().rpartition(chr(10))[2]}\n"
        is_proved = verdict().search(last) and not re.search(" (bugs|hides)=", last)
        if done.returncode or not is_proved or f"target={target}" not in last:
            raise SystemExit(f"{done.stdout[-4000:]}\n{crate} isn't proved for {processor}")
        self.text = (self.room / "module.ll").read_text()

    def write_objects(self, folder: pathlib.Path) -> None:
        """Writes each object of the crate into the processor's folder."""
        if self.processor == "arm64":
            self.take_object(folder)
            return
        for name, level, text in self.modules():
            self.compile(level, text, folder / self.processor / f"{name}.o")

    def take_object(self, folder: pathlib.Path) -> None:
        """Takes rattle's object. In a static library it's the only one."""
        name, made = self.crate, (self.room / "made").read_bytes()
        if self.crate == LIBRARY:
            name = "generic"
            made = subprocess.run(
                ["ar", "p", self.room / "made"], stdout=subprocess.PIPE, check=True
            ).stdout
        (folder / self.processor / f"{name}.o").write_bytes(made)

    def modules(self) -> Iterator[tuple[str, str, str]]:
        """Yields the module of each object, with the object's name and level."""
        if self.crate == LIBRARY:
            for name, level in LEVELS.items():
                yield name, level, proved_module.at_level(self.text, level)
            return
        module = Module(self.text)
        yield self.crate, PLAIN, proved_module.without_lanes(module)
        if self.crate == PROGRAMS[-1]:
            lanes = proved_module.lanes(module)
            for name in LEVELS_OF_LANES:
                text = proved_module.at_level(lanes, LEVELS[name])
                yield f"lanes_{name}", LEVELS[name], proved_module.at_names(text, f"_{name}")

    def compile(self, level: str, text: str, made: pathlib.Path) -> None:
        """Compiles a module for a level into an object, as rattle has clang compile it."""
        at = self.room / f"{made.stem}.ll"
        at.write_text(text)
        instead = {"module.bc": at, "module.o": made, f"-march={PLAIN}": f"-march={level}"}
        words = json.loads((self.room / "words.json").read_text())
        command = ["clang", *(instead.get(it, it) for it in words)]
        subprocess.run(command, executable=kit() / "toolchain/bin/clang", check=True, cwd=self.room)


def proofs_at_once() -> int:
    """Returns the number of proofs for which the machine has processors and memory."""
    memory = os.sysconf("SC_PAGE_SIZE") * os.sysconf("SC_PHYS_PAGES")
    return max(1, min(len(os.sched_getaffinity(0)), memory // MEMORY))


def compile_all(folder: pathlib.Path, room: pathlib.Path) -> None:
    """Compiles every object, for every processor."""

    def compiled(crate: str, processor: str) -> Proof:
        proof = Proof(crate, processor, room)
        proof.write_objects(folder)
        return proof

    for processor in TARGETS:
        (folder / processor).mkdir()
    chosen = [(crate, it) for crate in (*reversed(PROGRAMS), LIBRARY) for it in TARGETS]
    with concurrent.futures.ThreadPoolExecutor(proofs_at_once()) as pool:
        proofs = list(pool.map(lambda it: compiled(*it), chosen))
    refuse_other_lanes([it for it in proofs if it.processor == "x86_64"])


def refuse_other_lanes(proofs: list[Proof]) -> None:
    """Ends the script unless the lanes of the last program have the functions of the others: one
    set of objects serves them all."""
    found = {
        it.crate: proved_module.lanes_of(Module(it.text)) for it in proofs if it.crate in PROGRAMS
    }
    last = found[PROGRAMS[-1]]
    for crate, lanes in found.items():
        for name, text in lanes.items():
            if last.get(name) != text:
                raise SystemExit(f"{crate} and {PROGRAMS[-1]} have different lanes: {name}")


def sums(files: list[str], top: pathlib.Path) -> str:
    """Returns the checksums of files below a folder, as sha256sum prints them."""
    return "".join(
        f"{hashlib.sha256((top / name).read_bytes()).hexdigest()}  {name}\n" for name in files
    )


def sources(*tops: str) -> str:
    """Returns the lines of crates.txt for these crates and those below, as comments, and the
    checksum of each of their sources, as tools/check_proved computes them."""
    crates = sorted({name for top in tops for name in (top, *all_below(top))})
    lines = re.findall(rf"^(?:{'|'.join(crates)})[ :].*\n", source(TOP / "crates.txt"), re.M)
    files = [
        str(path.relative_to(TOP))
        for name in crates
        for part in ("src", "specs", "proofs")
        for path in (CRATES / name / part).rglob("*")
        if path.is_file()
    ]
    return "".join(f"# {line}" for line in lines) + sums(sorted(files), TOP)


def write(folder: pathlib.Path) -> None:
    """Writes what c/proved has to have into a folder."""
    (folder / "library.sum").write_text(sources(LIBRARY))
    (folder / "programs.sum").write_text(sources(*PROGRAMS))
    (folder / "toolchain").write_text(told_by_rt("version"))
    (folder / "NOTICES").write_text(components.notices("rigzumal"))
    with tempfile.TemporaryDirectory(prefix="compile-proved-") as room:
        compile_all(folder, pathlib.Path(room))
    objects = sorted(str(it.relative_to(folder)) for it in folder.glob("*/*.o"))
    (folder / "objects.sum").write_text(sums(objects, folder))


def differing(one: pathlib.Path, other: pathlib.Path) -> list[str]:
    """Returns the names of the files that two folders don't share, byte for byte."""
    found = [
        {str(it.relative_to(top)): it.read_bytes() for it in top.rglob("*") if it.is_file()}
        for top in (one, other)
    ]
    return sorted(it for it in {**found[0], **found[1]} if found[0].get(it) != found[1].get(it))


def refuse_other_toolchain() -> None:
    """Ends the script, before proofs that take an hour, unless rt is of c/proved's toolchain."""
    noted = PROVED / "toolchain"
    if noted.is_file() and noted.read_text() != told_by_rt("version"):
        sys.exit("this rt isn't of the toolchain that c/proved/toolchain names")


def main() -> None:
    if sys.argv[1:2] == ["--clang"]:
        processor, room, of_kit, *words = sys.argv[2:]
        be_clang(processor, pathlib.Path(room), f"{of_kit}/toolchain/bin/clang", words)
    need_rt("compile the proved code")
    is_check = sys.argv[1:2] == ["--check"]
    if is_check:
        refuse_other_toolchain()
    for built in CRATES.glob("*/out/rlib"):
        shutil.rmtree(built)
    if status := subprocess.run(sys.argv[2 if is_check else 1 :], cwd=TOP).returncode:
        sys.exit(status)
    with tempfile.TemporaryDirectory(prefix="proved-") as made:
        folder = pathlib.Path(made)
        write(folder)
        if not is_check:
            shutil.rmtree(PROVED, ignore_errors=True)
            shutil.copytree(folder, PROVED)
        elif others := differing(PROVED, folder):
            names = ", ".join(others)
            sys.exit(
                f"c/proved isn't what rt compiles from these sources ({names}): run make proved"
            )
        count = len(list(folder.glob("*/*.o")))
    print(f"c/proved: {count} objects are those that rt compiles from the proved sources")


if __name__ == "__main__":
    main()
