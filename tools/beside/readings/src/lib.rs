//! The oracle as document 02 changes it, with wrong readings in its text, each behind a switch; build.rs writes it.

// What the switches leave beside the text that they stand in.
#![allow(unused_parens, unused_unsafe, clippy::all)]

include!(concat!(env!("OUT_DIR"), "/src/lib.rs"));

pub mod reading;
