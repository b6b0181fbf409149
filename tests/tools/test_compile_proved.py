"""tools/compile_proved.py over a toolchain of stand-ins: its changes of proved modules, its
objects, and its refusals."""

from __future__ import annotations

import pathlib
import re
import shutil
import sys
from collections.abc import Mapping, Sequence

from tests.helpers import TOP, Case, Ended, each, ended, write_files

sys.path.insert(0, str(TOP / "tools"))
import proved_module  # noqa: E402

# It has clang compile a module, and says what was proved.
RATTLE = r"""#!/bin/sh
target=x86_64
for it; do
    case $it in --target=aarch64*) target=aarch64 ;; esac
    case $last in
    --crate-name) crate=$it ;;
    --toolchain) toolchain=$it ;;
    -o) object=$it ;;
    esac
    last=$it
done
cd "$(mktemp -d -p "$ROOM")" && touch module.bc
CRATE=$crate "$toolchain/bin/clang" --target=$target -march=x86-64 module.bc -o module.o || exit 1
case " $* " in
*" staticlib "*) ar qc "$object" module.o ;;
*) cp module.o "$object" ;;
esac
echo "$SAID target=$target-unknown-linux-gnu native=nat"
exit "$STATUS"
"""
# It gives the text of a module, and compiles a text by a copy of it.
CLANG = r"""#!/bin/sh
for it; do
    case $it in -march=*) level=${it#-march=} ;; *.ll) text=$it ;; esac
    [ "$last" != -o ] || made=$it
    last=$it
done
case " $* " in
*" module.bc "*) cp "$ROOM/modules/$CRATE" "$made" ;;
*) { echo "for $level"; cat "$text"; } > "$made" ;;
esac
"""
RTLIB = (
    "import re\n"
    'VERDICT = re.compile(r"^logic=proved functions=9( bugs=1)? target=\\S+ native=nat\\n\\Z")\n'
)
RT = """#!/bin/sh
case $1 in doc) echo "$ROOM/kit/START-HERE.md" ;; version) echo "an rt of another day" ;; esac
"""
CRATES = {"cred_c staticlib": "cred_low", "credbook": "cred_low", "credkeep": "cred_low"}
PROVED = "logic=proved functions=9"
PREFETCH = 'define internal void @"cred_argon::block::prefetch_block"(ptr noundef %a0) #0 {\n'
EMPTY = f"{PREFETCH}  ret void\n}}\n"
LOWEST = "cred_argon::block::add_half"


def function(name: str, count: int = 1, body: str = "", group: str = "#0") -> str:
    arguments = ", ".join(f"ptr noundef %a{at}" for at in range(count))
    return f'define internal void @"{name}"({arguments}) {group} {{\n{body}  ret void\n}}\n'


def module(*, prefetch: str = EMPTY, lanes: bool = True, numbers: tuple[int, int] = (0, 1)) -> str:
    """Returns a proved module, whose constants and groups of attributes have these numbers."""
    constant, group = f"@constant{numbers[0]}", f"#{numbers[1]}"
    parts = [f"{constant} = internal constant i64 7\n", prefetch]
    parts += [function(it) for it in proved_module.INLINED]
    if lanes:
        call = f'  call void @"{LOWEST}"(ptr {constant})\n'
        parts += [
            function(name, count, call, group) for name, (_, count) in proved_module.LANES.items()
        ]
        calls = [f'  call void @"{name}"()\n' for name in proved_module.LANES]
        parts.append(function("main", 0, "".join(calls)))
    attributes = {"#0": "", group: " nounwind"}
    parts += [
        f'attributes {name} = {{{more} "target-cpu"="x86-64" }}\n'
        for name, more in attributes.items()
    ]
    return "".join(parts)


MODULES = {
    "cred_c": module(lanes=False),
    "credbook": module(),
    "credkeep": module(numbers=(5, 3)),
}


class CompileProved(Case):
    def setUp(self) -> None:
        super().setUp()
        self.top = self.room()
        files = {"compile_proved.py", "proved_module.py", "tree.py"}
        for path in (*(TOP / "tools" / it for it in files), *(TOP / "packaging").glob("comp*")):
            (self.top / path.parent.name).mkdir(exist_ok=True)
            shutil.copy(path, self.top / path.parent.name)
        shutil.copy(TOP / "VERSION", self.top)
        lines = [f"{name}: {below}\n" for name, below in CRATES.items()]
        write_files(self.top, {"crates.txt": "".join(["cred_low:\n", *lines])})
        names = ["cred_low", *(it.split()[0] for it in CRATES)]
        write_files(self.top, {f"crates/{it}/src/lib.rt": it for it in names})
        programs = {"bin/rattle": RATTLE, "toolchain/bin/clang": CLANG}
        write_files(self.top / "kit", {"bin/rtlib.py": RTLIB, **programs}, 0o755)
        write_files(self.top, {"rt": RT}, 0o755)

    def compiled(
        self, modules: Mapping[str, str] = MODULES, words: Sequence[str] = (), **env: str
    ) -> Ended:
        """Runs the script over these modules, with `true` as the command that proves."""
        texts = {**MODULES, **modules}
        write_files(self.top, {f"modules/{name}": text for name, text in texts.items()})
        given = {"RT": f"{self.top}/rt", "ROOM": str(self.top), "SAID": PROVED, "STATUS": "0"}
        command = [sys.executable, f"{self.top}/tools/compile_proved.py", *words, "true"]
        return ended(command, env={"PATH": "/usr/bin:/bin", **given, **env})

    def object(self, name: str) -> str:
        return (self.top / "c/proved" / name).read_text()

    def test_objects(self) -> None:
        """Each object of the library and of the programs, at its levels, for each processor."""
        self.assertEqual(self.compiled().status, 0)
        levels = {name: self.object(f"x86_64/{name}.o") for name in ("v1", "v2", "v3", "v4")}
        for name, text in levels.items():
            level = f"x86-64-{name}" if name != "v1" else "x86-64"
            self.assertTrue(text.startswith(f"for {level}\n"))
            self.assertEqual(text.count(f'"target-cpu"="{level}"'), text.count('"target-cpu"'))
        found = {
            str(it.relative_to(self.top / "c/proved"))
            for it in (self.top / "c/proved").rglob("*.o")
        }
        arm64 = {f"arm64/{it}.o" for it in ("generic", "credbook", "credkeep")}
        x86_64 = {"credbook", "credkeep", "lanes_v1", "lanes_v3", "lanes_v4", *levels}
        self.assertEqual(found, {*arm64, *(f"x86_64/{it}.o" for it in x86_64)})
        self.assertEqual(self.object("toolchain"), "an rt of another day\n")

    def test_changes(self) -> None:
        """The empty function is one that prefetches, and the functions are inlined: nothing else is
        changed."""
        self.assertEqual(self.compiled().status, 0)
        text = self.object("arm64/generic.o").partition("\n")[2]
        body = re.search(r"(?sm)^define internal void .*?prefetch_block.*?^}\n", text)
        assert body is not None
        self.assertEqual(body[0].count("call void @llvm.prefetch.p0(ptr"), 8)
        declared = "declare void @llvm.prefetch.p0(ptr, i32, i32, i32)\n"
        wanted = MODULES["cred_c"].replace("%a0) #0 {", "%a0) alwaysinline #0 {")
        wanted = wanted.replace(EMPTY.replace("%a0) #0", "%a0) alwaysinline #0"), body[0])
        self.assertEqual(text, wanted.replace(EMPTY, body[0]) + declared)

    def test_cut(self) -> None:
        """A program calls its lanes by the names of lanes.c, and each set of lanes defines them,
        with the functions and constants below."""
        self.assertEqual(self.compiled().status, 0)
        program, lanes = self.object("x86_64/credkeep.o"), self.object("x86_64/lanes_v3.o")
        for name, (of_object, count) in proved_module.LANES.items():
            self.assertIn(f"call void @{of_object}()", program)
            self.assertIn(
                f"declare hidden void @{of_object}({', '.join(['ptr'] * count)})", program
            )
            self.assertNotIn(name, program)
            self.assertIn(f"define hidden void @{of_object}_v3(", lanes)
            self.assertIn(
                f"void {of_object}(",
                (TOP / "c/programs/lanes.c")
                .read_text()
                .replace(f"LANES({of_object}, (", f"void {of_object}("),
            )
        self.assertEqual(lanes.count(" = internal constant i64 7\n"), 1)
        self.assertIn(
            f'@"{LOWEST}"(ptr noundef %a0) alwaysinline "target-cpu"="x86-64-v3" {{', lanes
        )
        self.assertNotIn('@"main"', lanes)
        self.assertIn('@"main"', program)

    def test_check(self) -> None:
        """A changed byte, a missing file and one too many are named; nothing is written."""
        self.assertEqual(self.compiled().status, 0)
        self.assertEqual(self.compiled(words=["--check"]).status, 0)
        proved = self.top / "c/proved"
        whole = (proved / "x86_64/v1.o").read_bytes()
        for text in (whole + b"x", whole[:-1]):
            (proved / "x86_64/v1.o").write_bytes(text)
            done = self.compiled(words=["--check"])
            self.assertEqual((done.status, "(x86_64/v1.o)" in done.faults), (1, True), done.faults)
            self.assertEqual((proved / "x86_64/v1.o").read_bytes(), text)
        (proved / "x86_64/v1.o").write_bytes(whole)
        (proved / "toolchain").unlink()
        (proved / "x86_64/more.o").touch()
        self.assertIn("(toolchain, x86_64/more.o)", self.compiled(words=["--check"]).faults)

    def test_check_by_another_rt(self) -> None:
        """Before an hour of proofs, an rt of another toolchain is told."""
        self.assertEqual(self.compiled().status, 0)
        (self.top / "c/proved/toolchain").write_text("an rt of yesterday\n")
        done = self.compiled(words=["--check"], SAID="asked")
        self.assertEqual(
            done.faults, "this rt isn't of the toolchain that c/proved/toolchain names\n"
        )
        self.assertEqual(self.compiled().status, 0)

    def test_sources(self) -> None:
        """The committed sums are those of the present sources, for sha256sum too."""
        self.assertEqual(self.compiled().status, 0)
        for name in ("library", "programs"):
            text = (self.top / f"c/proved/{name}.sum").read_text()
            self.assertIn("# cred_low:\n", text)
            done = ended(["sha256sum", "--quiet", "-c", f"c/proved/{name}.sum"], cwd=self.top)
            self.assertEqual(done.status, 0, done.faults)

    @each(
        ("no prefetch", {"credkeep": module(prefetch="")}, {}, "the module has 0 empty"),
        ("two", {"cred_c": module(prefetch=EMPTY * 2)}, {}, "the module has 2 empty"),
        ("one that calls", {"cred_c": EMPTY.replace("  ret", "  call\n  ret")}, {}, "has 0 empty"),
        ("a function fewer", {"cred_c": EMPTY}, {}, "the module has no function cred_argon::block"),
        ("no lanes", {"credkeep": module(lanes=False)}, {}, "the module has no function"),
        (
            "other lanes",
            {"credbook": module().replace("constant i64 7", "constant i64 8")},
            {},
            "have different lanes",
        ),
        (
            "a variable",
            {"credkeep": module().replace("constant i64", "global i64")},
            {},
            "no plain",
        ),
        ("a rattle that fails", {}, {"STATUS": "1"}, "isn't proved for"),
        ("nothing proved", {}, {"SAID": "logic=assumed functions=9"}, "isn't proved for"),
        ("bugs", {}, {"SAID": f"{PROVED} bugs=1"}, "isn't proved for"),
        (
            "kept proofs",
            {},
            {"SAID": "logic=proved incremental=trusted functions=9"},
            "isn't proved for",
        ),
    )
    def test_refusals(
        self, name: str, modules: dict[str, str], env: dict[str, str], reason: str
    ) -> None:
        """Code that isn't proved, or not as the changes need it, is no object."""
        done = self.compiled(modules, **env)
        self.assertEqual((done.status != 0, reason in done.faults), (True, True), done.faults)
        self.assertFalse((self.top / "c/proved").exists())

    def test_proofs_that_fail(self) -> None:
        """Nothing is compiled after a command that fails, and what lay in out/ is gone before."""
        old = self.top / "crates/cred_low/out/rlib/old"
        write_files(self.top, {str(old.relative_to(self.top)): ""})
        command = [sys.executable, f"{self.top}/tools/compile_proved.py", "false"]
        done = ended(command, env={"PATH": "/usr/bin:/bin", "RT": f"{self.top}/rt"})
        self.assertEqual((done.status, old.exists()), (1, False))
        self.assertFalse(pathlib.Path(self.top / "c/proved").exists())
