//! The call and the Rust's text as document 02 changes it, with a loop over a span's bytes that ends early and counts them.

#[path = "../oracle/amend.rs"]
mod amend;
#[path = "../oracle/change.rs"]
mod change;
#[path = "../oracle/copy.rs"]
mod copy;
#[path = "../oracle/cut.rs"]
mod cut;

use change::{change, Change};

const CHANGES: &[Change] = &[
    // Request 6: the loop ends where no byte index is left to find; else it looks at one byte more.
    Change {
        file: "layout.rs",
        old: "for i in span.start..span.end {",
        new: "let indexes = clusters.iter().map(|c| c.byte_idx.value()); \
              let mut left = crate::search::of_span(span.start..span.end, indexes); \
              for i in span.start..span.end { \
              if left.is_empty() { break; } \
              crate::search::look();",
    },
    Change {
        file: "layout.rs",
        old: "cluster_indexes.push(index);",
        new: "cluster_indexes.push(index); left.remove(&i);",
    },
    // A span by adjust 2 comes to the loop too, by a length that is no number, and goes on to `natural_length` as it was.
    Change {
        file: "src/rust/convert.rs",
        old: "return (None, LengthAdjust::Spacing);",
        new: "return (span.has_natural_length().then_some(f32::NAN), LengthAdjust::Spacing);",
    },
    Change {
        file: "layout.rs",
        old: "if cluster_indexes.is_empty() {",
        new: "if cluster_indexes.is_empty() || target_width.is_nan() {",
    },
];

fn main() {
    for file in [
        "build.rs",
        "../oracle/amend.rs",
        "../oracle/change.rs",
        "../oracle/natural.rs",
        "../oracle/cut.rs",
        "../oracle/copy.rs",
    ] {
        println!("cargo:rerun-if-changed={file}");
    }
    let mut sources = copy::sources();
    amend::amend(&mut sources);
    change(&mut sources, CHANGES);
    let library = sources.iter_mut().find(|s| s.name == "src/lib.rs");
    library.unwrap().text = "pub mod call;\npub mod rust;\n".to_string();
    copy::write(&sources);
}
