//! Links the library's C archive where it is there, as tools/beside does, and builds and links the floor.

use std::env;
use std::path::{Path, PathBuf};
use std::process::Command;

const ARCHIVE: &str = "LAYOUT_ARCHIVE";
const DEFAULT_ARCHIVE: &str = "../../crates/layout_c/out/liblayout_c.a";

fn main() {
    let here = PathBuf::from(env::var_os("CARGO_MANIFEST_DIR").unwrap());
    link_library(&here);
    build_floor(&here.join("floor"));
}

fn link_library(here: &Path) {
    println!("cargo:rerun-if-env-changed={ARCHIVE}");
    println!("cargo:rustc-check-cfg=cfg(library)");
    let archive = match env::var_os(ARCHIVE) {
        Some(path) => PathBuf::from(path),
        None => here.join(DEFAULT_ARCHIVE),
    };
    println!("cargo:rerun-if-changed={}", archive.display());
    if let Ok(archive) = archive.canonicalize() {
        println!("cargo:rustc-cfg=library");
        link(&archive);
    }
}

/// By floor/build, which has the compiler's options.
fn build_floor(floor: &Path) {
    println!("cargo:rerun-if-env-changed=CC");
    println!("cargo:rerun-if-changed={}", floor.display());
    let archive = PathBuf::from(env::var_os("OUT_DIR").unwrap()).join("libfloor.a");
    let done = Command::new(floor.join("build")).arg(&archive).status();
    assert!(done.unwrap().success(), "the floor is not built");
    link(&archive);
}

fn link(archive: &Path) {
    let folder = archive.parent().unwrap().display();
    let name = archive.file_name().unwrap().to_str().unwrap();
    println!("cargo:rustc-link-search=native={folder}");
    println!("cargo:rustc-link-lib=static:+verbatim={name}");
}
