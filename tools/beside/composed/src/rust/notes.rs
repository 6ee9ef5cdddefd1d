//! What the Rust has of a job, noted where `layout_text` hands it on.

use std::cell::RefCell;

use super::{DecorationSpan, GlyphCluster, PositionedGlyph, Transform};
use crate::transforms::{ClusterTransforms, Glyph, Line, Numbers, Run, SpanTransforms, Transforms};

#[derive(Default)]
struct Notes {
    laid: Transforms,
    /// The turn of the chunk's text, which `layout_text` keeps to itself.
    turn: Transform,
    /// The lines of the span that is being laid out.
    lines: Vec<Line>,
}

thread_local! {
    static NOTES: RefCell<Notes> = RefCell::new(Notes::default());
}

/// Forgets what was noted.
pub fn begin() {
    NOTES.take();
}

/// All that was noted since.
pub fn end() -> Transforms {
    NOTES.take().laid
}

/// The next chunk, of which nothing is noted yet.
pub fn chunk() {
    NOTES.with_borrow_mut(|notes| notes.laid.clusters.push(vec![]));
}

/// Only a text is turned by 90: an upright cluster by −90.
pub fn turned(angle: f32, turned: Transform) {
    if angle == 90.0 {
        NOTES.with_borrow_mut(|notes| notes.turn = turned);
    }
}

pub fn line(offset: f32, thickness: f32) {
    NOTES.with_borrow_mut(|notes| notes.lines.push(Line { offset, thickness }));
}

/// The chunk's clusters. Each of its spans tells of them; once is enough.
pub fn clusters(clusters: &[GlyphCluster]) {
    NOTES.with_borrow_mut(|notes| {
        let noted = notes.laid.clusters.last_mut().expect("a chunk has begun");
        if noted.is_empty() {
            *noted = clusters.iter().map(cluster).collect();
        }
    });
}

fn cluster(cluster: &GlyphCluster) -> ClusterTransforms {
    ClusterTransforms {
        numbers: numbers(cluster),
        transform: cluster.transform,
        path_transform: cluster.path_transform,
        whole: cluster.transform(),
    }
}

fn numbers(cluster: &GlyphCluster) -> Numbers {
    Numbers {
        byte_index: cluster.byte_idx.value(),
        relative_shift: cluster.has_relative_shift,
        // A cluster is formed of one glyph or more: only step 4 takes them all.
        collapsed: cluster.glyphs.is_empty(),
        floats: [
            cluster.width,
            cluster.advance,
            cluster.text_length_spacing,
            cluster.ascent,
            cluster.descent,
        ],
        glyphs: cluster.glyphs.iter().map(glyph).collect(),
    }
}

/// A glyph is placed by one translation.
fn glyph(glyph: &PositionedGlyph) -> Glyph {
    Glyph {
        id: glyph.id.number,
        font: glyph.font.0,
        x: glyph.glyph_ts.tx,
        y: glyph.glyph_ts.ty,
    }
}

pub fn span(span_ts: Transform, runs: &[DecorationSpan]) {
    NOTES.with_borrow_mut(|notes| {
        let span = SpanTransforms {
            text_ts: notes.turn,
            span_ts,
            runs: runs.iter().map(run).collect(),
            lines: std::mem::take(&mut notes.lines),
            // Known when `layout_text` answers.
            glyphs: vec![],
        };
        notes.laid.spans.push(span);
    });
}

fn run(run: &DecorationSpan) -> Run {
    Run {
        transform: run.transform,
        width: run.width,
    }
}
