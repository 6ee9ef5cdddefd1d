//! Links the library's C archive where it is there. Without it, the commands that call the library say so.

use std::env;
use std::path::{Path, PathBuf};

const ARCHIVE: &str = "LAYOUT_ARCHIVE";
const DEFAULT_ARCHIVE: &str = "../../crates/layout_c/out/liblayout_c.a";

fn main() {
    println!("cargo:rerun-if-env-changed={ARCHIVE}");
    println!("cargo:rustc-check-cfg=cfg(library)");
    let archive = match env::var_os(ARCHIVE) {
        Some(path) => PathBuf::from(path),
        None => Path::new(&env::var_os("CARGO_MANIFEST_DIR").unwrap()).join(DEFAULT_ARCHIVE),
    };
    println!("cargo:rerun-if-changed={}", archive.display());
    if let Ok(archive) = archive.canonicalize() {
        let folder = archive.parent().unwrap().display();
        let name = archive.file_name().unwrap().to_str().unwrap();
        println!("cargo:rustc-cfg=library");
        println!("cargo:rustc-link-search=native={folder}");
        println!("cargo:rustc-link-lib=static:+verbatim={name}");
    }
}
