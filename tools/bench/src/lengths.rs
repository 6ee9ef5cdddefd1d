//! Jobs whose text is cut into many spans, each with a text length, and orders of their clusters.

use oracle::job::{Glyph, Job, Span};
use oracle::label::label;

use crate::jobs::one_span;

const MOST_SPANS: usize = 32;

/// 4,096 bytes in 32 spans, and clusters only at the first 8 bytes.
pub fn long_text() -> Job {
    in_spans(&"plot 17 ".repeat(512), 8, MOST_SPANS)
}

/// How the clusters of a chunk stand in their list.
#[derive(Clone, Copy)]
pub enum Order {
    LeftToRight,
    RightToLeft,
    Mixed,
}

impl Order {
    pub const ALL: [Order; 3] = [Order::LeftToRight, Order::RightToLeft, Order::Mixed];

    pub fn name(self) -> &'static str {
        match self {
            Order::LeftToRight => "left to right",
            Order::RightToLeft => "right to left",
            Order::Mixed => "mixed",
        }
    }
}

/// 1,024 clusters in so many spans.
pub fn of_spans(spans: usize, order: Order) -> Job {
    let mut job = in_spans(&"plot 17 ".repeat(128), 1_024, spans);
    let glyphs = &mut job.chunks[0].spans[0].glyphs;
    match order {
        Order::LeftToRight => {}
        Order::RightToLeft => glyphs.reverse(),
        Order::Mixed => mix(glyphs),
    }
    job
}

/// 1,024 clusters in mixed order, in one span.
pub fn mixed() -> Job {
    clear_lengths(of_spans(1, Order::Mixed))
}

/// Each span's clusters far from one another: place i holds that of byte 367 i modulo their number, a power of two.
fn mix(glyphs: &mut Vec<Glyph>) {
    let count = glyphs.len();
    *glyphs = (0..count)
        .map(|i| glyphs[i * 367 % count].clone())
        .collect();
}

/// The first span has all glyphs, those of the first so many bytes, as hosts send a line in one font.
fn in_spans(text: &str, clusters: usize, count: usize) -> Job {
    let mut job = label();
    let mut chunk = one_span(text, b"Latn");
    let whole = chunk.spans.remove(0);
    let size = text.len() / count;
    chunk.spans = (0..count).map(|i| part(&whole, i * size, size)).collect();
    chunk.spans[0].glyphs = whole.glyphs;
    chunk.spans[0].glyphs.truncate(clusters);
    job.chunks = vec![chunk];
    job
}

fn part(whole: &Span, start: usize, size: usize) -> Span {
    Span {
        start: start as u16,
        end: (start + size) as u16,
        length_flag: 1,
        text_length: (20.0 * size as f32).to_bits(),
        glyphs: vec![],
        ..whole.clone()
    }
}

pub fn clear_lengths(mut job: Job) -> Job {
    for span in &mut job.chunks[0].spans {
        (span.length_flag, span.text_length) = (0, 0);
    }
    job
}
