//! A job answered by the Rust's layout as document 02 changes it, with a shorter loop over a span's bytes; build.rs writes the text. All around it is the oracle's.

pub use oracle::{answer, check, decode, form, job, refusal, steps};

include!(concat!(env!("OUT_DIR"), "/src/lib.rs"));

pub mod search;
