//! What document 02 changes in the Rust's text. Read by the build.rs of the variants that go by it.

use crate::change::{change, Change};
use crate::copy::Source;

const AMENDMENTS: &[Change] = &[
    // Request 3: the scripts without letter spacing are one more.
    Change {
        file: "layout.rs",
        old: "| Script::Ogham",
        new: "| Script::Ogham | Script::Hanifi_Rohingya",
    },
    // Request 5: a third value of adjust, behind the Rust's own two.
    Change {
        file: "src/rust/run.rs",
        old: "adjust(text.writing_mode, chunk, &mut clusters)?;",
        new: "adjust(text.writing_mode, chunk, &mut clusters)?; natural::natural_length(source, &mut clusters);",
    },
    Change {
        file: "src/rust/mod.rs",
        old: "mod merge;",
        new: "mod merge; mod natural;",
    },
];

/// A file of the copy that the oracle does not have.
const NATURAL: (&str, &str) = ("src/rust/natural.rs", include_str!("natural.rs"));

pub fn amend(sources: &mut Vec<Source>) {
    change(sources, AMENDMENTS);
    let (name, text) = NATURAL;
    sources.push(Source {
        name: name.to_string(),
        text: text.to_string(),
    });
}
