//! Copies of a job with one thing changed: a field to an edge or one past it, a count, or its bytes.

use oracle::form::{
    MOST_BYTES, MOST_CHUNKS, MOST_FONTS, MOST_GLYPHS, MOST_LIST, MOST_SHIFTS, MOST_SPANS,
    MOST_TEXT, VERSION_AT,
};
use oracle::job::{Chunk, Glyph, Job, Pattern, Shift, Span, NO_FONT};

use crate::encode::encode;
use crate::random::Random;

const FLOAT_EDGES: &[Pattern] = &[
    0x8000_0000,
    0x3580_0000,
    0x357f_ffff,
    0x4980_0000,
    0x4980_0001,
    0xb580_0000,
    0xb57f_ffff,
    0xc980_0000,
    0xc980_0001,
    0x0000_0001,
    0x7f80_0000,
    0xff80_0000,
    0x7fc0_0000,
];
const SIZE_EDGES: &[Pattern] = &[
    0x3d80_0000,
    0x3d7f_ffff,
    0x4580_0000,
    0x4580_0001,
    0,
    0x8000_0000,
    0xc180_0000,
];
const UNIT_EDGES: &[i32] = &[65_535, 65_536, -65_535, -65_536, i32::MIN, i32::MAX];
/// Bytes that no UTF-8 holds.
const NOT_UTF8: &[&[u8]] = &[
    b"\xff",
    b"\x80",
    b"\xc0\x80",
    b"\xc1\xbf",
    b"\xe0\x9f\xbf",
    b"\xed\xa0\x80",
    b"\xe4\xb8",
    b"\xf0\x8f\xbf\xbf",
    b"\xf4\x90\x80\x80",
    b"\xf5\x80\x80\x80",
    b"\xf0\x9f\x98",
];

pub fn damaged(mut job: Job, random: &mut Random) -> Vec<u8> {
    match random.below(16) {
        0..=7 => change_field(&mut job, random),
        8..=9 => break_text(&mut job, random),
        10..=11 => disorder(&mut job, random),
        12 => change_count(&mut job, random),
        _ => return change_bytes(encode(&job), random),
    }
    encode(&job)
}

/// Check 4.
fn change_field(job: &mut Job, random: &mut Random) {
    match random.below(16) {
        0 => job.mode = 2,
        1 => change_font(job, random),
        2 => {
            let list = random.pick(&[0, 1, 2]);
            [&mut job.dx, &mut job.dy, &mut job.rotate][list].push(random.pick(FLOAT_EDGES));
        }
        3..=5 => {
            if let Some(chunk) = random.any_of(&mut job.chunks) {
                change_chunk(chunk, random);
            }
        }
        6..=11 => {
            let fonts = job.fonts.len();
            if let Some(span) = any_span(job, random) {
                change_span(span, fonts, random);
            }
        }
        _ => {
            let fonts = job.fonts.len();
            if let Some(glyph) = any_glyph(job, random) {
                change_glyph(glyph, fonts, random);
            }
        }
    }
}

fn any_span<'a>(job: &'a mut Job, random: &mut Random) -> Option<&'a mut Span> {
    let mut spans: Vec<_> = job.chunks.iter_mut().flat_map(|c| &mut c.spans).collect();
    let i = random.below(spans.len().max(1));
    (i < spans.len()).then(|| spans.swap_remove(i))
}

fn any_glyph<'a>(job: &'a mut Job, random: &mut Random) -> Option<&'a mut Glyph> {
    let spans = job.chunks.iter_mut().flat_map(|c| &mut c.spans);
    let mut glyphs: Vec<_> = spans.flat_map(|s| &mut s.glyphs).collect();
    let i = random.below(glyphs.len().max(1));
    (i < glyphs.len()).then(|| glyphs.swap_remove(i))
}

fn change_font(job: &mut Job, random: &mut Random) {
    let Some(font) = random.any_of(&mut job.fonts) else {
        return;
    };
    match random.below(3) {
        0 => font.units_per_em = 0,
        1 => font.x_height = 0,
        _ => font.underline_thickness = 0,
    }
}

fn change_chunk(chunk: &mut Chunk, random: &mut Random) {
    match random.below(6) {
        0 => chunk.flags = random.pick(&[0, 3, 4, 7, 255]),
        1 => chunk.x = random.pick(FLOAT_EDGES),
        2 => chunk.y = random.pick(FLOAT_EDGES),
        3 => chunk.anchor = random.pick(&[2, 3]),
        4 => chunk.flow = 1,
        _ => chunk.flags ^= random.pick(&[1, 2]),
    }
}

fn change_span(span: &mut Span, fonts: usize, random: &mut Random) {
    let edges: &[Pattern] = FLOAT_EDGES;
    match random.below(13) {
        0 => span.font = random.pick(&[fonts as u8, (fonts as u8).wrapping_sub(1), 254]),
        1 => span.font = NO_FONT,
        2 => span.size = random.pick(SIZE_EDGES),
        3 => span.letter_spacing = random.pick(edges),
        4 => span.word_spacing = random.pick(edges),
        5 => span.length_flag = random.pick(&[0, 1, 2]),
        6 => span.text_length = random.pick(edges),
        7 => span.adjust = random.pick(&[2, 3]),
        8 => span.dominant_baseline = random.pick(&[11, 12]),
        9 => span.alignment_baseline = random.pick(&[11, 12]),
        10 => span.decorations = random.pick(&[7, 8]),
        11 => span.shifts.push(Shift {
            kind: random.pick(&[3, 4]),
            number: 0,
        }),
        _ => {
            let kind = random.below(4) as u8;
            span.shifts.push(Shift {
                kind,
                number: random.pick(edges),
            });
        }
    }
}

fn change_glyph(glyph: &mut Glyph, fonts: usize, random: &mut Random) {
    match random.below(6) {
        0 => glyph.cluster_length = random.pick(&[0, 1, 64, 65, 255]),
        1 => glyph.dx = random.pick(UNIT_EDGES),
        2 => glyph.dy = random.pick(UNIT_EDGES),
        3 => glyph.width = random.pick(UNIT_EDGES),
        4 => glyph.font = random.pick(&[fonts as u8 - 1, fonts as u8, NO_FONT]),
        _ => glyph.orientation = 2,
    }
}

/// Check 5.
fn break_text(job: &mut Job, random: &mut Random) {
    let Some(chunk) = random.any_of(&mut job.chunks) else {
        return;
    };
    let length = chunk.text.len();
    let glyphs = chunk.spans.iter_mut().flat_map(|s| &mut s.glyphs);
    match glyphs.last() {
        Some(glyph) if random.one_in(2) => {
            let inside = random.below(length + 1);
            glyph.byte_index = random.pick(&[length, length + 1, inside, 65_535]) as u16;
        }
        _ => {
            let at = random.below(length + 1);
            chunk
                .text
                .splice(at..at, random.pick(NOT_UTF8).iter().copied());
        }
    }
}

/// Check 6.
fn disorder(job: &mut Job, random: &mut Random) {
    let Some(chunk) = random.any_of(&mut job.chunks) else {
        return;
    };
    let length = chunk.text.len() as u16;
    let i = random.below(chunk.spans.len().max(1));
    let previous = if i > 0 { chunk.spans[i - 1].end } else { 0 };
    let Some(span) = chunk.spans.get_mut(i) else {
        return;
    };
    match random.below(4) {
        0 => span.start = span.end + 1,
        1 => span.end = random.pick(&[length, length + 1, 65_535]),
        2 => span.start = previous.saturating_sub(1),
        _ => span.end = span.start.saturating_sub(1),
    }
}

/// Check 3: a list at its limit or one past it. The long ones are rare, since they are slow to evaluate.
fn change_count(job: &mut Job, random: &mut Random) {
    let past = random.below(2);
    if random.one_in(8) {
        return change_long_count(job, past, random);
    }
    match random.below(4) {
        0 => fill(&mut job.fonts, MOST_FONTS + past),
        1 => fill(&mut job.chunks, MOST_CHUNKS + past),
        2 => {
            if let Some(chunk) = random.any_of(&mut job.chunks) {
                fill(&mut chunk.spans, MOST_SPANS + past);
            }
        }
        _ => {
            if let Some(span) = any_span(job, random) {
                fill(&mut span.shifts, MOST_SHIFTS + past);
            }
        }
    }
}

fn change_long_count(job: &mut Job, past: usize, random: &mut Random) {
    match random.below(3) {
        0 => job.dx.resize(MOST_LIST + past, 0),
        1 => {
            if let Some(chunk) = random.any_of(&mut job.chunks) {
                chunk.text.resize(MOST_TEXT + past, b'x');
            }
        }
        _ => {
            if let Some(span) = any_span(job, random) {
                fill(&mut span.glyphs, MOST_GLYPHS + past);
            }
        }
    }
}

/// Copies of the last row up to a count; an empty list stays empty.
pub fn fill<T: Clone>(rows: &mut Vec<T>, count: usize) {
    if let Some(last) = rows.last().cloned() {
        rows.resize(count, last);
    }
}

fn change_bytes(mut bytes: Vec<u8>, random: &mut Random) -> Vec<u8> {
    match random.below(10) {
        0..=2 => bytes[VERSION_AT] = random.pick(&[0, 2, 255]),
        3 => {
            let length = (bytes.len() - VERSION_AT) as u32;
            let wrong = random.pick(&[length - 1, length + 1, length + 4, 0, u32::MAX]);
            put_length(&mut bytes, wrong);
        }
        4 => bytes.truncate(random.below(bytes.len())),
        5 => bytes.truncate(random.below(7)),
        6 => {
            bytes.truncate(random.below(bytes.len()).max(VERSION_AT + 1));
            correct_length(&mut bytes);
        }
        7 => {
            let long = random.pick(&[MOST_BYTES, MOST_BYTES + 1]);
            let length = if random.one_in(10) {
                long
            } else {
                bytes.len() + 1
            };
            bytes.resize(length, random.word() as u8);
            correct_length(&mut bytes);
        }
        8 => {
            let i = random.below(bytes.len());
            bytes[i] ^= 1 << random.below(8);
        }
        _ => {
            let i = random.below(bytes.len());
            bytes[i] = random.word() as u8;
        }
    }
    bytes
}

fn correct_length(bytes: &mut [u8]) {
    let length = bytes.len() - VERSION_AT;
    put_length(bytes, length as u32);
}

fn put_length(bytes: &mut [u8], length: u32) {
    bytes[..VERSION_AT].copy_from_slice(&length.to_be_bytes());
}
