"""Tests of each call, of the choice of a build, and of the exported symbols."""

import re
import unittest

from harness import ALL_WARNINGS, BUILDS, JOBS, LIBARGON2, ORIGINAL, OUT, ROOM, SANITIZED, SOURCES
from harness import TOP, WITHOUT_BUILDS, built, need, need_host, run, sources_for


# The build that each processor must run, by qemu's names.
PROCESSORS = {
    "qemu64": "v1",
    "core2duo": "v1",
    "Penryn": "v1",
    "Nehalem": "v2",
    "Westmere": "v2",
    "SandyBridge": "v2",
    "IvyBridge": "v2",
    "Haswell": "v3",
    "Skylake-Client": "v3",
    "EPYC": "v3",
}
LEVEL_2 = ["sse3", "ssse3", "sse4.1", "sse4.2", "cx16", "popcnt", "lahf-lm"]
LEVEL_3 = ["avx", "avx2", "bmi1", "bmi2", "f16c", "fma", "abm", "movbe", "xsave"]
# Instructions that the code of a level has, and that of no older level.
INSTRUCTIONS = {"v1": "%xmm", "v2": "pshufb", "v3": "%ymm", "v4": r"mm(1[6-9]|2\d|3[01])\b"}
# Bits of leaf 7 and of XCR0: qemu has no such processor.
LEVEL_4 = {"avx512f": 16, "avx512dq": 17, "avx512cd": 28, "avx512bw": 30, "avx512vl": 31}
STATES = {"sse": 1, "avx": 2, "k0 to k7": 5, "zmm0 to zmm15": 6, "zmm16 to zmm31": 7}


# The functions in which a hash spends its time.
HASHES = {
    "cred_argon::block::compress",
    "cred_argon::segment::work_block",
    "cred_scrypt::romix::advance",
}


def functions(path):
    """The code of each function of an object, which has a section of its own."""
    sections = re.findall(
        r"\.text\.(?:unlikely\.)?(\S+) +PROGBITS +[0-9a-f]+ ([0-9a-f]+) ([0-9a-f]+)",
        run("readelf", "-SW", path),
    )
    data = path.read_bytes()
    return {name: data[int(at, 16) :][: int(size, 16)] for name, at, size in sections}


def processor(*flags, kept=None):
    """The test of the chosen build, on a system that saves these registers, by XCR0."""
    system = [] if kept is None else [f'-DREAD_KEPT_REGISTERS="mov ${kept}, %0; mov $0, %1"']
    return built("processor", ["-O2", "-static", *flags, *system], WITHOUT_BUILDS)


class Calls(unittest.TestCase):
    def test_layout(self):
        """clang-format changes no source, of the PAM module either."""
        need("clang-format")
        folders = ("include", "programs", "src", "tests", "pam/tests")
        sources = [it for folder in folders for it in (TOP / folder).rglob("*.[ch]")]
        run("clang-format", "--dry-run", "-Werror", *sources, *TOP.glob("pam/*.c"))

    def test_calls_of_each_build(self):
        """Each call as on processors of each level, under the sanitizers."""
        for build in BUILDS:
            with self.subTest(build):
                run(built("calls", [*SANITIZED, *JOBS], LIBARGON2 + sources_for(build)))

    def test_processors(self):
        """The library chooses each build if the processor has every feature of its level."""
        need_host()
        need("qemu-x86_64")
        program = processor()
        wanted = dict(PROCESSORS)
        wanted.update({f"Haswell,-{feature}": "v1" for feature in LEVEL_2})
        wanted.update({f"Haswell,-{feature}": "v2" for feature in LEVEL_3})
        for name, build in wanted.items():
            chosen = run("qemu-x86_64", "-cpu", name, program).split()[-1]
            self.assertEqual(chosen, build, name)
        for kept in (1, 3, 5):  # the bits of x87, SSE and AVX: not both of the last two
            chosen = run("qemu-x86_64", "-cpu", "Haswell", processor(kept=kept)).split()[-1]
            self.assertEqual(chosen, "v2", f"a system that keeps the registers {kept}")

    def test_processors_with_avx512(self):
        """The library chooses the newest build if the processor has every feature of its level and
        the system saves its registers."""
        need_host()
        every, lacking = 0xE7, "-Itests/x86_64/lacking"
        program = processor(lacking, kept=every)
        self.assertEqual(run(program), "v4\n")
        for name, bit in LEVEL_4.items():
            self.assertEqual(run(program, "7", bit), "v3\n", name)
        for name, bit in STATES.items():
            said = run(processor(lacking, kept=every & ~(1 << bit)))
            self.assertEqual(said, "v2\n" if bit < 5 else "v3\n", name)

    def test_instructions_of_builds(self):
        """Each build has instructions of its level, where no older one has any."""
        need_host()
        code = {build: run("objdump", "-d", OUT / f"{build}.o") for build in BUILDS}
        for at, build in enumerate(code):
            with self.subTest(build):
                has = [re.search(INSTRUCTIONS[build], code[it]) is not None for it in code]
                self.assertEqual(has, [it >= at for it in range(len(code))])

    def test_lanes_of_programs(self):
        """The programs hash by the library's code: the functions in which a hash spends its time
        have the bytes of the library's build for the same level, and so has each other function
        that both have."""
        need_host()
        for level in ("v1", "v3", "v4"):
            with self.subTest(level):
                lanes = functions(TOP / f"proved/x86_64/lanes_{level}.o")
                library = functions(TOP / f"proved/x86_64/{level}.o")
                shared = lanes.keys() & library.keys()
                self.assertEqual(HASHES - {name.partition("::<")[0] for name in shared}, set())
                self.assertEqual([name for name in shared if lanes[name] != library[name]], [])

    def test_programs_on_processors(self):
        """A program runs no lanes of a level that the processor lacks."""
        need_host()
        need("qemu-x86_64")
        program, folder = TOP.parent / "out/credbook", TOP.parent / "crates/credbook"
        given, wanted = ((folder / it).read_text() for it in ("stdin", "stdout"))
        for processor in ("qemu64", "Nehalem", "Haswell"):
            said = run("qemu-x86_64", "-cpu", processor, program, "run", given=given)
            self.assertTrue(said.endswith(wanted), said)  # qemu's own warnings come first

    def test_calls_on_processors(self):
        """Each call on a processor of each level, which knows no instructions of the next one."""
        need_host()
        need("qemu-x86_64")
        program = built("calls", ["-O2", "-static", *JOBS], LIBARGON2 + SOURCES)
        for processor in ("qemu64", "Nehalem", "Haswell"):
            run("qemu-x86_64", "-cpu", processor, program)

    def test_older_compilers(self):
        """The oldest compilers that Debian has, under all warnings."""
        need_host()
        need("gcc-11", "clang-13")
        for compiler in ("gcc-11", "clang-13"):
            run(built("calls", ["-O2", *JOBS], LIBARGON2 + SOURCES, compiler))

    def test_header_in_cpp(self):
        """The header compiles as C++ too."""
        need_host()
        need("c++")
        source, program = ROOM / "header.cc", ROOM / "header"
        source.write_text('#include "rigzumal.h"\nint main() { return !rigzumal_strerror(0); }\n')
        run("c++", *ALL_WARNINGS.split(), "-Iinclude", source, "out/librigzumal.a", "-o", program)
        run(program)

    def test_ignored_answers(self):
        """Compilers warn if a program ignores the fault of a call, and of no other use."""
        header = (TOP / "include/rigzumal.h").read_text()
        calls = re.findall(r"^int (rigzumal_\w+)\(([^;]*)\)", header, re.MULTILINE)
        lines = []
        for name, given in calls:
            zeros = ", ".join("0" for _ in given.split(","))
            lines.append(f"{name}({zeros})")
        source = ROOM / "uses.c"
        for use, wanted in (
            ("{};", [it for it in lines if "explain" not in it]),
            ("if ({} == RIGZUMAL_OK) return;", []),
        ):
            body = "".join(f"    {use.format(it)}\n" for it in lines)
            source.write_text(
                f'#include "rigzumal.h"\nvoid use(void);\nvoid use(void) {{\n{body}}}\n'
            )
            for cc in ("gcc", "clang", "g++"):
                with self.subTest(use, cc=cc):
                    need(cc)
                    options = ("-Wall", "-Iinclude", "-c", "-o", "/dev/null")
                    said = run(cc, *options, source)
                    warned = re.findall(r"uses.c:(\d+):.*ignoring return value", said)
                    self.assertEqual([lines[int(it) - 4] for it in warned], wanted)

    def test_manual(self):
        """rigzumal(3) has each call of the header, word for word, and no other."""

        def declared(text):
            form = r"^(?:int|size_t|const char \*)\s*rigzumal_\w+\([^;]*\)(?=;)"
            found = re.findall(form, text.replace(" RIGZUMAL_CHECK_ANSWER", ""), re.MULTILINE)
            return {" ".join(it.split()) for it in found}

        header = declared((TOP / "include/rigzumal.h").read_text())
        rows = re.findall(r"^\.BI (.*)", (TOP.parent / "man/rigzumal.3").read_text(), re.MULTILINE)
        lines = []
        for row in rows:
            words = re.findall(r'"([^"]*)"|(\S+)', row)
            lines.append("".join(quoted + word for quoted, word in words))
        manual = declared("\n".join(lines))
        self.assertLess(25, len(header))
        self.assertEqual(manual, header)

    def test_symbols(self):
        """The libraries export the calls of their headers, and no other symbols."""

        def shown(library):
            words = ("nm", "-D", "--defined-only", "--without-symbol-versions", library)
            return set(run(*words).split()[2::3])

        header = (TOP / "include/rigzumal.h").read_text()
        form = r"^(?:int|size_t|const char \*)\s*(rigzumal_\w+)\("
        declared = set(re.findall(form, header, re.MULTILINE))
        added = {it for it in declared if it.startswith("rigzumal_libargon2_")}
        self.assertEqual(shown(OUT / "librigzumal.so.1") - {"RIGZUMAL_1"}, declared - added)
        said = run("nm", "-g", "--defined-only", OUT / "librigzumal.a")
        self.assertEqual({*re.findall(r" [A-Z] (\w+)$", said, re.M)}, declared - added)
        for name in ("librigzumal.so.1", "libargon2.so.1"):
            self.assertIn(f"[{name}]", run("readelf", "-d", OUT / name))
        ours = shown(OUT / "libargon2.so.1")
        self.assertEqual((len(added), len(ours - added), added - ours), (2, 22, set()))
        if ORIGINAL.exists():
            self.assertEqual(ours - added, shown(ORIGINAL))
