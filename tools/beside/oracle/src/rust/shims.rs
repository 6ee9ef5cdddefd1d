//! Small stand-ins for the types that the cut text names: of usvg what nothing here reads, and of other crates.

use super::{TextChunk, WritingMode};

/// A font's place among the job's font rows.
#[derive(Clone, Copy, Debug, PartialEq, Eq, Hash)]
pub struct ID(pub u8);

/// A glyph's number, with what the job says of it in place of the Unicode lookups.
#[derive(Clone, Copy, Debug)]
pub struct GlyphId {
    pub number: u32,
    pub tag: [u8; 4],
    pub upright: bool,
}

/// A span's font byte. The Rust hands `variations` to the shaper: here it says which span is shaped.
#[derive(Clone, Debug, PartialEq, Eq, Hash)]
pub struct Font {
    pub byte: u8,
    pub variations: SpanNumber,
}

/// A span's place in its chunk.
#[derive(Clone, Copy, Debug, PartialEq, Eq, Hash)]
pub struct SpanNumber(pub usize);

pub struct Text {
    pub dx: Vec<f32>,
    pub dy: Vec<f32>,
    pub rotate: Vec<f32>,
    pub writing_mode: WritingMode,
    pub chunks: Vec<TextChunk>,
}

#[derive(Clone, Debug)]
pub struct Fill {
    pub rule: FillRule,
}

#[derive(Clone, Copy, Debug)]
pub enum FillRule {
    NonZero,
}

#[derive(Clone, Debug)]
pub struct Stroke;

#[derive(Clone, Copy, Debug)]
pub struct PaintOrder;

#[derive(Debug)]
pub struct TextPath;
