//! A copy of the oracle's sources in OUT_DIR, with some of the text changed. Read by the build.rs of its variants.

use std::path::{Path, PathBuf};
use std::{env, fs};

use crate::cut;

/// A source file of the copy: its path within the oracle's src, or the name of a cut file.
pub struct Source {
    pub name: String,
    pub text: String,
}

/// The cut text and the shims around it.
pub fn sources() -> Vec<Source> {
    let package = PathBuf::from(env::var_os("CARGO_MANIFEST_DIR").unwrap());
    let folder = package.join("../oracle/src");
    let cuts = cut::cuts().into_iter().map(|cut| Source {
        name: cut.name.to_string(),
        text: cut.text,
    });
    let mut all: Vec<Source> = cuts.collect();
    for sub in ["", "rust/"] {
        all.extend(files(&folder, sub));
    }
    all
}

fn files(folder: &Path, sub: &str) -> Vec<Source> {
    let mut found = vec![];
    for entry in fs::read_dir(folder.join(sub)).unwrap() {
        let path = entry.unwrap().path();
        println!("cargo:rerun-if-changed={}", path.display());
        if path.extension().is_some_and(|e| e == "rs") {
            let file = path.file_name().unwrap().to_str().unwrap();
            found.push(Source {
                name: format!("src/{sub}{file}"),
                text: fs::read_to_string(&path).unwrap(),
            });
        }
    }
    found
}

/// OUT_DIR/src/lib.rs is then what the variant's lib.rs includes; an included file has no comment of its own.
pub fn write(sources: &[Source]) {
    fs::create_dir_all(cut::out_dir().join("src/rust")).unwrap();
    for source in sources {
        let text = match source.name.as_str() {
            "src/lib.rs" => without_comment(&source.text),
            _ => source.text.clone(),
        };
        fs::write(cut::out_dir().join(&source.name), text).unwrap();
    }
}

fn without_comment(text: &str) -> String {
    let lines = text.lines().filter(|line| !line.starts_with("//!"));
    lines.map(|line| format!("{line}\n")).collect()
}
