//! Checks 4 to 6 of a decoded job, each over the whole job before the next.

use crate::job::{Chunk, FontRow, Glyph, Job, Pattern, Shift, Span, NATURAL, NO_FONT, NUMBER};
use crate::refusal::{unless, Refusal};

pub fn check(job: &Job) -> Result<(), Refusal> {
    unless(values_hold(job), 4)?;
    unless(job.chunks.iter().all(text_holds), 5)?;
    unless(job.chunks.iter().all(spans_hold), 6)
}

const LEAST_SIZE: Pattern = 0x3580_0000;
const MOST_SIZE: Pattern = 0x4980_0000;
const LEAST_FONT_SIZE: Pattern = 0x3d80_0000;
const MOST_FONT_SIZE: Pattern = 0x4580_0000;
const MOST_UNITS: u32 = 65_535;

/// Zero of either sign, or a size within 2^-20 to 2^20.
fn float(x: Pattern) -> bool {
    let size = x & 0x7fff_ffff;
    size == 0 || (LEAST_SIZE..=MOST_SIZE).contains(&size)
}

/// Four zero bytes where there is no value.
fn float_if(present: bool, x: Pattern) -> bool {
    if present {
        float(x)
    } else {
        x == 0
    }
}

fn values_hold(job: &Job) -> bool {
    let mut lists = job.dx.iter().chain(&job.dy).chain(&job.rotate);
    job.mode <= 1
        && job.fonts.iter().all(font)
        && lists.all(|&x| float(x))
        && job.chunks.iter().all(|c| chunk(c, job.fonts.len()))
}

fn font(font: &FontRow) -> bool {
    font.units_per_em != 0 && font.x_height != 0 && font.underline_thickness != 0
}

fn chunk(chunk: &Chunk, fonts: usize) -> bool {
    chunk.flags <= 3
        && float_if(chunk.has_x(), chunk.x)
        && float_if(chunk.has_y(), chunk.y)
        && chunk.anchor <= 2
        && chunk.flow == 0
        && chunk.spans.iter().all(|s| span(s, fonts))
}

fn span(span: &Span, fonts: usize) -> bool {
    ((span.font as usize) < fonts || span.font == NO_FONT && span.glyphs.is_empty())
        && (LEAST_FONT_SIZE..=MOST_FONT_SIZE).contains(&span.size)
        && float(span.letter_spacing)
        && float(span.word_spacing)
        && span.length_flag <= 1
        && float_if(span.length_flag == 1, span.text_length)
        && span.adjust <= NATURAL
        && span.dominant_baseline <= 11
        && span.alignment_baseline <= 11
        && span.decorations <= 7
        && span.shifts.iter().all(shift)
        && span.glyphs.iter().all(|g| glyph(g, fonts))
}

fn shift(shift: &Shift) -> bool {
    shift.kind <= NUMBER && float_if(shift.kind == NUMBER, shift.number)
}

fn glyph(glyph: &Glyph, fonts: usize) -> bool {
    let units = [glyph.dx, glyph.dy, glyph.width];
    (1..=64).contains(&glyph.cluster_length)
        && units.iter().all(|n| n.unsigned_abs() <= MOST_UNITS)
        && (glyph.font as usize) < fonts
        && glyph.orientation <= 1
}

fn text_holds(chunk: &Chunk) -> bool {
    let Ok(text) = std::str::from_utf8(&chunk.text) else {
        return false;
    };
    let starts = |i: usize| i < text.len() && text.is_char_boundary(i);
    let mut glyphs = chunk.spans.iter().flat_map(|s| &s.glyphs);
    glyphs.all(|g| starts(g.byte_index as usize))
}

fn spans_hold(chunk: &Chunk) -> bool {
    let mut from = 0;
    chunk.spans.iter().all(|span| {
        let held =
            from <= span.start && span.start <= span.end && span.end as usize <= chunk.text.len();
        from = span.end;
        held
    })
}
