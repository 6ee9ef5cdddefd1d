//! A job answered by the Rust's layout as document 02 changes it; build.rs writes the text. All around it is the oracle's.

pub use oracle::{answer, check, decode, form, job, refusal, steps};

include!(concat!(env!("OUT_DIR"), "/src/lib.rs"));

#[cfg(test)]
mod tests;
