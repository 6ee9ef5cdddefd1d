//! The answer's rows and their bytes, by version.

use crate::bytes::{record, Reader};
use crate::form::VERSION_AT;
use crate::rows::{self, count, flags, float, number, rows, Field, Kind, Sink};

pub const RELATIVE_SHIFT: u8 = 1;
pub const UPRIGHT: u8 = 2;
pub const SIDEWAYS: u8 = 4;
pub const SCALED: u8 = 8;
pub const ROTATED: u8 = 16;
pub const COLLAPSED: u8 = 32;

#[derive(Default)]
pub struct Answer {
    pub chunks: Vec<ChunkRow>,
}

#[derive(Default)]
pub struct ChunkRow {
    pub pen: (f32, f32),
    pub clusters: Vec<ClusterRow>,
    pub spans: Vec<SpanRow>,
}

#[derive(Default)]
pub struct ClusterRow {
    pub byte_index: u16,
    pub flags: u8,
    pub width: f32,
    pub advance: f32,
    pub length_spacing: f32,
    pub ascent: f32,
    pub descent: f32,
    pub nudge: f32,
    pub scale: f32,
    pub shift: (f32, f32),
    pub angle: f32,
    pub glyphs: Vec<GlyphRow>,
}

#[derive(Default)]
pub struct GlyphRow {
    pub id: u32,
    pub font: u8,
    pub x: f32,
    pub y: f32,
}

#[derive(Default)]
pub struct SpanRow {
    pub index: u8,
    pub origin: (f32, f32),
    pub baseline_shift: f32,
    pub thickness: f32,
    pub under: f32,
    pub over: f32,
    pub through: f32,
    pub runs: Vec<Run>,
}

#[derive(Default)]
pub struct Run {
    pub first: u16,
    pub width: f32,
}

/// A version of the answer: what stands in each row, in order. A later version is an entry more.
pub struct Form {
    pub version: u8,
    /// What stands behind the version byte.
    pub answer: &'static [Field<Answer>],
    pub chunk: &'static [Field<ChunkRow>],
    pub cluster: &'static [Field<ClusterRow>],
    pub glyph: &'static [Field<GlyphRow>],
    pub span: &'static [Field<SpanRow>],
    pub run: &'static [Field<Run>],
}

const FORMS: &[Form] = &[Form {
    version: 1,
    answer: ANSWER,
    chunk: CHUNK,
    cluster: CLUSTER,
    glyph: GLYPH,
    span: SPAN,
    run: RUN,
}];

const ANSWER: &[Field<Answer>] = &[
    count!("chunk count", u8, chunks),
    rows!("chunk", chunks, chunk),
];
const CHUNK: &[Field<ChunkRow>] = &[
    count!("cluster count", u16, clusters),
    count!("span row count", u8, spans),
    float!("pen x", pen.0),
    float!("pen y", pen.1),
    rows!("cluster", clusters, cluster),
    rows!("span row", spans, span),
];
const CLUSTER: &[Field<ClusterRow>] = &[
    number!("byte index", u16, byte_index),
    flags!("flags", flags),
    float!("width", width),
    float!("advance", advance),
    float!("length spacing", length_spacing),
    float!("ascent", ascent),
    float!("descent", descent),
    float!("nudge", nudge),
    float!("scale", scale),
    float!("shift x", shift.0),
    float!("shift y", shift.1),
    float!("angle", angle),
    count!("glyph count", u16, glyphs),
    rows!("glyph", glyphs, glyph),
];
const GLYPH: &[Field<GlyphRow>] = &[
    number!("id", u32, id),
    number!("font", u8, font),
    float!("glyph x", x),
    float!("glyph y", y),
];
const SPAN: &[Field<SpanRow>] = &[
    number!("index", u8, index),
    float!("origin x", origin.0),
    float!("origin y", origin.1),
    float!("baseline shift", baseline_shift),
    float!("thickness", thickness),
    float!("under offset", under),
    float!("over offset", over),
    float!("through offset", through),
    count!("run count", u16, runs),
    rows!("run", runs, run),
];
const RUN: &[Field<Run>] = &[
    number!("first cluster", u16, first),
    float!("run width", width),
];

fn form(version: u8) -> &'static Form {
    let found = FORMS.iter().find(|form| form.version == version);
    found.expect("a version of the answer")
}

/// The answer with these chunks, in this version.
pub fn answer(version: u8, chunks: Vec<ChunkRow>) -> Vec<u8> {
    let mut bytes = vec![];
    let form = form(version);
    rows::put(&Answer { chunks }, form.answer, form, &mut bytes);
    record(version, &bytes)
}

/// The rows of an answer.
pub fn rows(answer: &[u8]) -> Vec<ChunkRow> {
    let mut from = Reader { rest: answer };
    let length = u32::from_be_bytes(from.array());
    assert_eq!(length as usize, from.rest.len(), "an answer's length");
    let [version] = from.array();
    let (mut answer, form) = (Answer::default(), form(version));
    rows::take(&mut answer, form.answer, form, &mut from);
    assert!(from.rest.is_empty(), "an answer ends with its rows");
    answer.chunks
}

/// Puts each field of an answer, as its version has them.
pub fn walk(answer: &[u8], to: &mut dyn Sink) {
    let (length, rest) = answer.split_at(VERSION_AT);
    to.field("length", Kind::Plain, length);
    to.field("version", Kind::Plain, &rest[..1]);
    let form = form(rest[0]);
    let chunks = rows(answer);
    rows::put(&Answer { chunks }, form.answer, form, to);
}
