//! The jobs of most classes; lengths.rs has those in many spans.

use oracle::job::{Chunk, Glyph, Job, Span, NATURAL};
use oracle::label::label;

use crate::encode::encode;

/// A label of so many clusters, for how time grows.
pub fn of_clusters(count: usize) -> Vec<u8> {
    let text = "plot 17 ".repeat(count.div_ceil(8));
    let mut job = label();
    job.chunks = vec![one_span(&text[..count], b"Latn")];
    encode(&job)
}

/// The worked label's chunk with another text: one glyph for each character, all in one span.
pub fn one_span(text: &str, tag: &[u8; 4]) -> Chunk {
    let mut chunk = label().chunks.remove(0);
    let span = &mut chunk.spans[0];
    span.glyphs = glyphs(text, tag);
    span.end = text.len() as u16;
    chunk.text = text.as_bytes().to_vec();
    chunk
}

fn glyphs(text: &str, tag: &[u8; 4]) -> Vec<Glyph> {
    let glyph = |(index, c): (usize, char)| Glyph {
        id: c as u32,
        byte_index: index as u16,
        cluster_length: c.len_utf8() as u8,
        dx: 0,
        dy: 0,
        width: 500 + (c as i32 * 37) % 900,
        font: 0,
        tag: *tag,
        orientation: 0,
    };
    text.char_indices().map(glyph).collect()
}

/// The worked label with a second font.
fn two_fonts() -> Job {
    let mut job = label();
    let mut bold = job.fonts[0].clone();
    bold.units_per_em = 1000;
    job.fonts.push(bold);
    job
}

/// Two chunks of 20 clusters; the first has two spans, the second of them bold and raised.
pub fn two_line() -> Job {
    let mut job = two_fonts();
    let mut first = one_span("Plot 17 entry B-204 x", b"Latn");
    first.text.truncate(20);
    let (mut plain, mut raised) = (first.spans[0].clone(), first.spans[0].clone());
    plain.glyphs.truncate(20);
    raised.glyphs.truncate(20);
    (plain.end, raised.start, raised.end) = (14, 14, 20);
    raised.font = 1;
    raised.glyphs.iter_mut().for_each(|glyph| glyph.font = 1);
    raised.alignment_baseline = 4;
    first.spans = vec![plain, raised];
    let mut second = one_span("check Alba 2-row ears", b"Latn");
    second.text.truncate(20);
    second.spans[0].end = 20;
    second.spans[0].glyphs.truncate(20);
    second.y = 70f32.to_bits();
    job.chunks = vec![first, second];
    job
}

/// One chunk of 40 clusters in three spans, the second of them bold; each span's font has shaped the whole text.
pub fn three_spans() -> Job {
    let mut job = two_fonts();
    let mut chunk = one_span("Plot 17 entry B-204 check Alba 2-row ear", b"Latn");
    let whole = chunk.spans.remove(0);
    chunk.spans = [(0, 14, 0), (14, 26, 1), (26, 40, 0)]
        .map(|(start, end, font)| {
            let mut span = whole.clone();
            (span.start, span.end, span.font) = (start, end, font);
            span.glyphs.iter_mut().for_each(|glyph| glyph.font = font);
            span
        })
        .to_vec();
    job.chunks = vec![chunk];
    job
}

pub fn right_to_left() -> Job {
    let mut job = label();
    let mut chunk = one_span(&"שעורה חיטה ".repeat(91)[..1_819], b"Hebr");
    chunk.spans[0].glyphs.reverse();
    job.chunks = vec![chunk];
    job
}

/// 1,000 clusters of four bytes each.
pub fn text_length() -> Job {
    let mut job = label();
    let mut chunk = one_span(&"𐎀𐎁𐎂𐎃".repeat(250), b"Ugar");
    let span = &mut chunk.spans[0];
    (span.length_flag, span.text_length) = (1, 9_000f32.to_bits());
    job.chunks = vec![chunk];
    job
}

/// The same by the value of adjust that counts letter spacing.
pub fn natural_length() -> Job {
    let mut job = text_length();
    job.chunks[0].spans[0].adjust = NATURAL;
    job
}

pub fn sixteen_chunks() -> Job {
    let mut job = label();
    let line = |i: usize| Chunk {
        y: (50.0 + 20.0 * i as f32).to_bits(),
        ..one_span("entry 17", b"Latn")
    };
    job.chunks = (0..16).map(line).collect();
    job.dx = (0..64).map(|i| (i as f32 / 4.0).to_bits()).collect();
    job
}

/// 16 chunks of 20 clusters: an answer of some 19 KB.
pub fn sheet() -> Job {
    let mut job = label();
    let line = |i: usize| Chunk {
        y: (50.0 + 20.0 * i as f32).to_bits(),
        ..one_span("Plot 17 entry B-204.", b"Latn")
    };
    job.chunks = (0..16).map(line).collect();
    job
}

/// 10 clusters in two spans, the second of them bold. The first span has all glyphs, each of its own span's font; the second has none.
pub fn first_span() -> Job {
    let mut job = two_fonts();
    let mut chunk = one_span("Plot B-204", b"Latn");
    let mut second = chunk.spans[0].clone();
    let first = &mut chunk.spans[0];
    (first.end, second.start) = (5, 5);
    (second.font, second.glyphs) = (1, vec![]);
    let bold = first.glyphs.iter_mut().skip(5);
    bold.for_each(|glyph| glyph.font = 1);
    chunk.spans.push(second);
    job.chunks = vec![chunk];
    job
}

/// Two fonts shape the same 1,024 characters; the second overwrites the latter half.
pub fn merge() -> Job {
    let mut job = label();
    job.fonts.push(job.fonts[0].clone());
    let mut chunk = one_span(&"plot 17 ".repeat(128), b"Latn");
    let mut first: Span = chunk.spans.remove(0);
    let mut second = first.clone();
    (first.end, second.start) = (512, 512);
    second.font = 1;
    second.glyphs.iter_mut().for_each(|glyph| glyph.font = 1);
    chunk.spans = vec![first, second];
    job.chunks = vec![chunk];
    job
}
