//! The call and the Rust's text, with what document 02 changes in it.

#[path = "../oracle/amend.rs"]
mod amend;
#[path = "../oracle/change.rs"]
mod change;
#[path = "../oracle/copy.rs"]
mod copy;
#[path = "../oracle/cut.rs"]
mod cut;

fn main() {
    for file in [
        "build.rs",
        "../oracle/amend.rs",
        "../oracle/change.rs",
        "../oracle/natural.rs",
        "../oracle/cut.rs",
        "../oracle/copy.rs",
    ] {
        println!("cargo:rerun-if-changed={file}");
    }
    let mut sources = copy::sources();
    amend::amend(&mut sources);
    let library = sources.iter_mut().find(|s| s.name == "src/lib.rs");
    library.unwrap().text = "pub mod call;\npub mod rust;\n".to_string();
    copy::write(&sources);
}
