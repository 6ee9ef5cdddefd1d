//! The Rust's own text, cut by build.rs, with the names that it leans on.

// The cut text has fields and cases that nothing here reads.
#![allow(dead_code)]

mod bounded;
mod convert;
mod lookup;
mod merge;
mod numbers;
mod run;
mod shape;
mod shims;
mod transform;

use std::collections::HashMap;
use std::num::NonZeroU16;
use std::sync::Arc;

use lookup::{unicode_script, unicode_vo};
use numbers::{ApproxZeroUlps, NonZeroPositiveF32};
use shape::FontResolver;
use shims::{Fill, Font, GlyphId, PaintOrder, Stroke, Text, TextPath, ID};
use transform::Transform;
use unicode_script::UnicodeScript;

pub use run::rows;

include!(concat!(env!("OUT_DIR"), "/layout.rs"));
include!(concat!(env!("OUT_DIR"), "/tree.rs"));
include!(concat!(env!("OUT_DIR"), "/geom.rs"));
