//! A job's fields as its bytes have them. A `Pattern` is the bits of a float.

pub type Pattern = u32;

pub const NO_FONT: u8 = 255;

#[derive(Clone, Debug)]
pub struct Job {
    pub version: u8,
    pub mode: u8,
    pub fonts: Vec<FontRow>,
    pub dx: Vec<Pattern>,
    pub dy: Vec<Pattern>,
    pub rotate: Vec<Pattern>,
    pub chunks: Vec<Chunk>,
}

#[derive(Clone, Debug)]
pub struct FontRow {
    pub units_per_em: u16,
    pub ascent: i16,
    pub descent: i16,
    pub x_height: u16,
    pub underline_position: i16,
    pub underline_thickness: u16,
    pub line_through: i16,
    pub subscript: i16,
    pub superscript: i16,
}

#[derive(Clone, Debug)]
pub struct Chunk {
    pub flags: u8,
    pub x: Pattern,
    pub y: Pattern,
    pub anchor: u8,
    pub flow: u8,
    pub text: Vec<u8>,
    pub spans: Vec<Span>,
}

impl Chunk {
    pub fn has_x(&self) -> bool {
        self.flags & 1 != 0
    }

    pub fn has_y(&self) -> bool {
        self.flags & 2 != 0
    }
}

#[derive(Clone, Debug)]
pub struct Span {
    pub start: u16,
    pub end: u16,
    pub font: u8,
    pub size: Pattern,
    pub letter_spacing: Pattern,
    pub word_spacing: Pattern,
    pub length_flag: u8,
    pub text_length: Pattern,
    pub adjust: u8,
    pub dominant_baseline: u8,
    pub alignment_baseline: u8,
    pub decorations: u8,
    pub shifts: Vec<Shift>,
    pub glyphs: Vec<Glyph>,
}

/// The adjust value of document 02, which the Rust does not have: advances are brought to the text length, not widths.
pub const NATURAL: u8 = 2;

impl Span {
    pub fn has_natural_length(&self) -> bool {
        self.length_flag == 1 && self.adjust == NATURAL
    }
}

#[derive(Clone, Debug)]
pub struct Shift {
    pub kind: u8,
    pub number: Pattern,
}

/// The kind of shift that carries a number.
pub const NUMBER: u8 = 3;

#[derive(Clone, Debug)]
pub struct Glyph {
    pub id: u32,
    pub byte_index: u16,
    pub cluster_length: u8,
    pub dx: i32,
    pub dy: i32,
    pub width: i32,
    pub font: u8,
    pub tag: [u8; 4],
    pub orientation: u8,
}
