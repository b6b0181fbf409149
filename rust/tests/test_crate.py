"""Tests of the crate for Rust, after `make -C c`: what cargo, clippy and rustfmt say. They need
those of Rust 1.70 or later, as Debian 13 has them; Debian 12's own are older."""

import pathlib
import re
import shutil
import sys
import unittest

CRATE = pathlib.Path(__file__).resolve().parent.parent
sys.path.insert(0, str(CRATE.parent))

from tests.helpers import LIBRARIES, common_folder, need, run
from tests.needs import lacking

ROOM = common_folder()
ROOM_OF_CARGO = {"CARGO_TARGET_DIR": str(ROOM / "cargo"), "RIGZUMAL_LIB_DIR": str(LIBRARIES)}
STRICT = {"RUSTDOCFLAGS": "-D warnings", **ROOM_OF_CARGO}


def need_cargo():
    """Skips a test whose cargo is older than the crate's `rust-version`."""
    need("cargo")
    wanted = re.search(r'^rust-version = "1\.(\d+)"', (CRATE / "Cargo.toml").read_text(), re.M)
    found = re.match(r"cargo 1\.(\d+)\.", run("cargo", "--version"))
    if int(found[1]) < int(wanted[1]):
        raise lacking("a newer cargo")


def cargo(*words, env=None, at=CRATE):
    return run("cargo", "--offline", *words, env=env or ROOM_OF_CARGO, at=at)


def program_of(test, *flags, env=ROOM_OF_CARGO, at=CRATE):
    """The program of one file of tests."""
    cargo("test", "--locked", "--no-run", "--test", test, *flags, env=env, at=at)
    folder = "release" if "--release" in flags else "debug"
    found = pathlib.Path(env["CARGO_TARGET_DIR"], folder, "deps").glob(f"{test}-*")
    (program,) = [it for it in found if not it.suffix]
    return program


# A program with no library of the system's, which one of the crate's would contradict.
NO_STD = """#![no_std]
use core::alloc::{GlobalAlloc, Layout};
struct None;
unsafe impl GlobalAlloc for None {
    unsafe fn alloc(&self, _: Layout) -> *mut u8 { core::ptr::null_mut() }
    unsafe fn dealloc(&self, _: *mut u8, _: Layout) {}
}
#[global_allocator]
static NONE: None = None;
#[panic_handler]
fn panic(_: &core::panic::PanicInfo<'_>) -> ! { loop {} }
#[no_mangle]
pub extern "C" fn is_record() -> bool { rigzumal::Record::try_from("$").is_ok() }
"""
NO_STD_PACKAGE = f"""[package]
name = "no-std"
version = "0.0.0"
edition = "2021"
[lib]
path = "lib.rs"
crate-type = ["staticlib"]
[profile.dev]
panic = "abort"
[dependencies]
rigzumal = {{ path = "{CRATE}", default-features = false }}
"""


class Crate(unittest.TestCase):
    """The crate, over the built library."""

    def setUp(self):
        need_cargo()

    def test_rust(self):
        """The crate's own tests and the examples of its pages."""
        said = cargo("test", "--locked")
        counts = [int(it) for it in re.findall(r"test result: ok. (\d+) passed; 0 failed", said)]
        if sum(counts) < 20 or "0 ignored" not in said:
            self.fail(said)

    def test_the_library_that_is_named_is_linked(self):
        """The folder that RIGZUMAL_LIB_DIR names comes first; it has the shared library alone
        here."""
        need("ldd")
        folder, target = ROOM / "named", ROOM / "cargo-of-named"
        self.copy_shared_library(folder)
        env = {"RIGZUMAL_LIB_DIR": str(folder), "CARGO_TARGET_DIR": str(target)}
        self.check_linked(program_of("vectors", env=env), folder)

    def copy_shared_library(self, folder):
        folder.mkdir(parents=True)
        for name in ("librigzumal.so", "librigzumal.so.1"):
            shutil.copy(LIBRARIES / name, folder)

    def check_linked(self, program, folder):
        found = run("ldd", program, env={"LD_LIBRARY_PATH": str(folder)})
        self.assertIn(f"librigzumal.so.1 => {folder}", found)

    def test_the_library_that_pkg_config_finds_is_linked(self):
        """In its libdir, and not in its prefix; the crate stands by itself here."""
        need("ldd", "pkg-config")
        folder, crate, target = ROOM / "found/lib", ROOM / "moved", ROOM / "cargo-of-moved"
        self.copy_shared_library(folder)
        shutil.copytree(CRATE, crate, ignore=shutil.ignore_patterns("target"))
        said = f"prefix={ROOM}/found\nlibdir={folder}\nName: x\nDescription: x\nVersion: 0\n"
        (ROOM / "rigzumal.pc").write_text(said)
        env = {"PKG_CONFIG_PATH": str(ROOM), "CARGO_TARGET_DIR": str(target)}
        self.check_linked(program_of("vectors", env=env, at=crate), folder)

    def test_a_missing_library(self):
        """Without a library the build says how to build one, and links it once it is built."""
        crate, built = ROOM / "alone/rust", ROOM / "alone/c/out"
        shutil.copytree(CRATE, crate, ignore=shutil.ignore_patterns("target"))
        env = {"CARGO_TARGET_DIR": str(ROOM / "cargo-alone"), "PKG_CONFIG_LIBDIR": str(ROOM)}
        self.assertIn("`make -C c` in the repository builds it", cargo("build", env=env, at=crate))
        built.mkdir(parents=True)
        shutil.copy(LIBRARIES / "librigzumal.a", built)
        run(program_of("vectors", env=env, at=crate))

    def test_secrets_are_cleared_when_optimised(self):
        """In what cargo builds for a release, where the compiler drops writes that nobody reads."""
        self.assertIn("1 passed", cargo("test", "--locked", "--release", "--test", "cleared"))

    def test_comparison(self):
        """No jump depends on where two records differ, in what cargo builds for a release."""
        need("valgrind")
        run("valgrind", "-q", program_of("compared", "--release"))

    def test_without_std(self):
        """Without its features the crate is one for programs without std."""
        room = ROOM / "no-std"
        room.mkdir()
        (room / "lib.rs").write_text(NO_STD)
        (room / "Cargo.toml").write_text(NO_STD_PACKAGE)
        cargo("build", at=room)

    def test_rust_layout(self):
        """rustfmt leaves the crate as it is, clippy and rustdoc say nothing, and no line is
        long."""
        need("cargo-clippy", "cargo-fmt")
        cargo("fmt", "--check")
        for targets in (["--all-targets"], ["--no-default-features"]):
            cargo("clippy", "--locked", *targets, "--", "-D", "warnings")
        cargo("doc", "--locked", env=STRICT)
        for path in [*CRATE.glob("src/*.rs"), *CRATE.glob("tests/*.rs"), CRATE / "build.rs"]:
            long = [it for it in path.read_text().splitlines() if len(it) > 100]
            if long:
                self.fail(f"{path}: {long}")
