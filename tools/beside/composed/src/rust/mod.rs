//! The Rust's own text, `layout_text` with it, over the crates that it names.

// The cut text has fields, cases and methods that nothing here reads, and fits the stand-ins loosely.
#![allow(dead_code, clippy::all)]

mod boxes;
#[path = "../../../oracle/src/rust/convert.rs"]
mod convert;
mod lookup;
mod merge;
mod notes;
mod rotations;
mod shape;
#[path = "../../../oracle/src/rust/shims.rs"]
mod shims;

use std::collections::HashMap;
use std::num::NonZeroU16;
use std::sync::Arc;

use strict_num::{ApproxEqUlps, NonZeroPositiveF32};
use tiny_skia_path::Transform;

use boxes::{convert_decoration, convert_span, BBox, NonZeroRect, Span};
use lookup::script::UnicodeScript;
use lookup::{script as unicode_script, vo as unicode_vo};
use merge::clusters_of as process_chunk;
pub use rotations::Rotations;
use shape::{fontdb, FontResolver};
use shims::{Fill, FillRule, Font, GlyphId, PaintOrder, Stroke, Text, TextPath, ID};

use crate::job::Job;
use crate::transforms::Transforms;

pub use lookup::{fields_of, Lookups};

/// strict-num, with a name that its release 0.1.0 does not hand on.
mod strict_num {
    pub use ::float_cmp::Ulps;
    pub use ::strict_num::{ApproxEqUlps, NonZeroPositiveF32};
}

include!(concat!(env!("OUT_DIR"), "/layout.rs"));
include!(concat!(env!("OUT_DIR"), "/call.rs"));
include!(concat!(env!("OUT_DIR"), "/tree.rs"));
include!(concat!(env!("OUT_DIR"), "/geom.rs"));
include!(concat!(env!("OUT_DIR"), "/ulps.rs"));

/// Of an accepted job.
pub fn transforms(job: &Job, lookups: Lookups) -> Transforms {
    let job = &with_next_chunk(job);
    let text = convert::text(job);
    let fonts = convert::fonts(job);
    let chunks = job.chunks.iter();
    let resolver = FontResolver::new(chunks.map(|c| convert::shaped(c, &fonts)).collect());
    lookup::answer_by(lookups);
    notes::begin();
    let answer = layout_text(&text, &resolver, &mut Arc::new(fontdb::Database(fonts)));
    let mut laid = notes::end();
    let (spans, _) = answer.expect("a box is never missing");
    assert_eq!(laid.spans.len(), spans.len(), "each span is noted");
    for (noted, span) in laid.spans.iter_mut().zip(spans) {
        let glyphs = span.positioned_glyphs.iter();
        noted.glyphs = glyphs.map(PositionedGlyph::outline_transform).collect();
    }
    laid.clusters.pop();
    laid.next = laid.spans.pop().expect("the next chunk's").span_ts;
    laid
}

/// The job with one chunk more, the worked label's, that begins at the pen: `layout_text` shows the last pen nowhere else.
fn with_next_chunk(job: &Job) -> Job {
    let mut job = job.clone();
    let next = oracle::label::label();
    let font = job.fonts.len() as u8;
    job.fonts.extend(next.fonts);
    for mut chunk in next.chunks {
        (chunk.flags, chunk.x, chunk.y) = (0, 0, 0);
        for span in &mut chunk.spans {
            span.font = font;
            span.glyphs.iter_mut().for_each(|glyph| glyph.font = font);
        }
        job.chunks.push(chunk);
    }
    job
}

fn resolve_clusters_positions_path(
    _text: &Text,
    _chunk: &TextChunk,
    _char_offset: usize,
    _path: &TextPath,
    _writing_mode: WritingMode,
    _fonts_cache: &FontsCache,
    _clusters: &mut [GlyphCluster],
) -> (f32, f32) {
    unreachable!("no job has text on a path")
}
