//! The oracle with a counter at each branch of the Rust's text.

mod branches;
#[path = "../oracle/copy.rs"]
mod copy;
#[path = "../oracle/cut.rs"]
mod cut;

use std::fs;

fn main() {
    for file in [
        "build.rs",
        "branches.rs",
        "../oracle/cut.rs",
        "../oracle/copy.rs",
    ] {
        println!("cargo:rerun-if-changed={file}");
    }
    let mut sources = copy::sources();
    let mut points = branches::Points::default();
    for source in &mut sources {
        if ["layout.rs", "merge.rs", "geom.rs"].contains(&source.name.as_str()) {
            source.text = points.counted(&source.text);
        }
        if source.name == "layout.rs" {
            source.text.insert_str(0, "use crate::count::Counted;\n");
        }
    }
    copy::write(&sources);
    fs::write(cut::out_dir().join("branches.rs"), points.table()).unwrap();
}
