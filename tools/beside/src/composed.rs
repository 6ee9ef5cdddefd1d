//! Commands that composed/ carries out: a program of its own, since it is built against crates of Debian's packages.

use std::path::Path;
use std::process::{exit, Command};
use std::{fs, io};

/// Where these packages put a crate's source.
const REGISTRY: &str = "/usr/share/cargo/registry";
/// Each crate, and the package that has it.
const CRATES: &[(&str, &str)] = &[
    ("tiny-skia-path", "librust-tiny-skia-path-dev"),
    ("strict-num", "librust-strict-num-dev"),
    ("float-cmp", "librust-float-cmp-dev"),
    ("unicode-script", "librust-unicode-script-dev"),
    ("unicode-vo", "librust-unicode-vo-dev"),
];

/// Builds the program, where it has to be, and hands the words on. Ends with its exit status.
pub fn run(words: &[&str]) -> io::Result<()> {
    println!("beside {}", releases().join(", "));
    let folder = Path::new(env!("CARGO_MANIFEST_DIR")).join("composed");
    let mut build = Command::new("cargo");
    build.args(["build", "--release", "--offline", "--quiet"]);
    if !build.current_dir(&folder).status()?.success() {
        exit(2);
    }
    let mut program = Command::new(folder.join("target/release/composed"));
    let status = program.args(words).status()?;
    exit(status.code().unwrap_or(2));
}

/// The releases of all crates; where one is missing, names its package and ends.
fn releases() -> Vec<String> {
    let found = CRATES
        .iter()
        .map(|&(name, package)| release(name).ok_or(package));
    let (found, missing): (Vec<_>, Vec<_>) = found.partition(Result::is_ok);
    let missing: Vec<&str> = missing.into_iter().filter_map(Result::err).collect();
    if !missing.is_empty() {
        eprintln!("this needs Debian's packages: {}", missing.join(" "));
        exit(2);
    }
    found.into_iter().flatten().collect()
}

/// The crate's folder: its name, a hyphen, its version.
fn release(name: &str) -> Option<String> {
    let entries = fs::read_dir(REGISTRY).ok()?;
    let mut folders = entries.filter_map(|entry| entry.ok()?.file_name().into_string().ok());
    folders.find(|folder| {
        let version = folder
            .strip_prefix(name)
            .and_then(|rest| rest.strip_prefix('-'));
        version.is_some_and(|version| version.starts_with(|c: char| c.is_ascii_digit()))
    })
}
