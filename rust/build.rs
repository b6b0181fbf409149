//! Tells the linker where librigzumal is: in the folder that `RIGZUMAL_LIB_DIR` names, in the
//! output of `make -C c` beside this crate, in pkg-config's folder, or in the linker's own folders.

use std::env;
use std::path::{Path, PathBuf};
use std::process::Command;

/// The linker may know folders that this program doesn't, so this is only a warning.
const MISSING: &str = "no librigzumal was found: `make -C c` in the repository builds it";

/// The folder in which `make -C c` builds the library, relative to this crate.
const BESIDE: &str = "../c/out";

fn main() {
    println!("cargo:rerun-if-env-changed=RIGZUMAL_LIB_DIR");
    println!("cargo:rerun-if-changed=build.rs");
    let Some(folder) = named().or_else(built_beside).or_else(by_pkg_config) else {
        println!("cargo:warning={MISSING}");
        // cargo runs this again at the next build, since such a file is missing
        println!("cargo:rerun-if-changed={BESIDE}/librigzumal.a");
        println!("cargo:rustc-link-lib=dylib=rigzumal");
        return;
    };
    println!("cargo:rustc-link-search=native={}", folder.display());
    let archive = folder.join("librigzumal.a");
    if archive.exists() {
        println!("cargo:rerun-if-changed={}", archive.display());
        println!("cargo:rustc-link-lib=static=rigzumal");
    } else {
        println!("cargo:rustc-link-lib=dylib=rigzumal");
    }
}

fn named() -> Option<PathBuf> {
    env::var_os("RIGZUMAL_LIB_DIR").map(PathBuf::from)
}

fn built_beside() -> Option<PathBuf> {
    let folder = Path::new(&env::var_os("CARGO_MANIFEST_DIR")?).join(BESIDE);
    folder.join("librigzumal.a").exists().then_some(folder)
}

fn by_pkg_config() -> Option<PathBuf> {
    let said = Command::new("pkg-config").args(["--variable=libdir", "rigzumal"]).output().ok()?;
    let folder = PathBuf::from(String::from_utf8(said.stdout).ok()?.trim());
    (said.status.success() && folder.is_dir()).then_some(folder)
}
