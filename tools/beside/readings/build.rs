//! The oracle as document 02 changes it, with every wrong reading of list.txt in its text, each behind a switch.

#[path = "../oracle/amend.rs"]
mod amend;
#[path = "../oracle/change.rs"]
mod change;
#[path = "../oracle/copy.rs"]
mod copy;
#[path = "../oracle/cut.rs"]
mod cut;
mod edits;

use std::fs;

fn main() {
    for file in [
        "build.rs",
        "edits.rs",
        "list.txt",
        "../oracle/amend.rs",
        "../oracle/change.rs",
        "../oracle/natural.rs",
        "../oracle/cut.rs",
        "../oracle/copy.rs",
    ] {
        println!("cargo:rerun-if-changed={file}");
    }
    let readings = edits::parse(&fs::read_to_string("list.txt").unwrap());
    let mut sources = copy::sources();
    amend::amend(&mut sources);
    for source in &mut sources {
        source.text = edits::applied(&source.text, &source.name, &readings);
    }
    edits::all_applied(&readings, &sources);
    copy::write(&sources);
    fs::write(cut::out_dir().join("names.rs"), edits::names(&readings)).unwrap();
}
