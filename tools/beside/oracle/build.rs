//! Writes the Rust's own items, unchanged, into OUT_DIR.

mod cut;

use std::fs;

fn main() {
    println!("cargo:rerun-if-changed=cut.rs");
    println!("cargo:rerun-if-changed=build.rs");
    for cut in cut::cuts() {
        fs::write(cut::out_dir().join(cut.name), cut.text).unwrap();
    }
}
