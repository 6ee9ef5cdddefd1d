//! The Rust's own text, with the oracle's shims where they cost nothing.

// The cut text and the shims have fields and cases that nothing here reads.
#![allow(dead_code)]

#[path = "../../../../beside/oracle/src/rust/bounded.rs"]
mod bounded;
#[path = "../../../../beside/oracle/src/rust/convert.rs"]
mod convert;
#[path = "../../../../beside/oracle/src/rust/lookup.rs"]
mod lookup;
#[path = "../../../../beside/oracle/src/rust/merge.rs"]
mod merge;
#[path = "../../../../beside/oracle/src/rust/numbers.rs"]
mod numbers;
mod run;
#[path = "../../../../beside/oracle/src/rust/shape.rs"]
mod shape;
#[path = "../../../../beside/oracle/src/rust/shims.rs"]
mod shims;
mod transform;

use std::collections::HashMap;
use std::num::NonZeroU16;
use std::sync::Arc;

use lookup::{unicode_script, unicode_vo};
use numbers::{ApproxZeroUlps, NonZeroPositiveF32};
use shape::FontResolver;
use shims::{Fill, Font, GlyphId, PaintOrder, Stroke, Text, TextPath, ID};
use transform::Transform;
use unicode_script::UnicodeScript;

pub use run::answer;

include!(concat!(env!("OUT_DIR"), "/layout.rs"));
include!(concat!(env!("OUT_DIR"), "/tree.rs"));
include!(concat!(env!("OUT_DIR"), "/geom.rs"));
