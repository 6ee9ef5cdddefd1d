//! From a job's fields to its bytes. Fields are written as they are, legal or not.

use oracle::bytes::Writer;
use oracle::job::{Chunk, FontRow, Glyph, Job, Pattern, Span};

pub fn encode(job: &Job) -> Vec<u8> {
    let mut to = Writer::default();
    to.u8(job.mode);
    to.u8(job.fonts.len() as u8);
    job.fonts.iter().for_each(|row| font(&mut to, row));
    for floats in [&job.dx, &job.dy, &job.rotate] {
        list(&mut to, floats);
    }
    to.u8(job.chunks.len() as u8);
    job.chunks.iter().for_each(|row| chunk(&mut to, row));
    to.record(job.version)
}

fn font(to: &mut Writer, row: &FontRow) {
    to.u16(row.units_per_em);
    to.i16(row.ascent);
    to.i16(row.descent);
    to.u16(row.x_height);
    to.i16(row.underline_position);
    to.u16(row.underline_thickness);
    to.i16(row.line_through);
    to.i16(row.subscript);
    to.i16(row.superscript);
}

fn list(to: &mut Writer, floats: &[Pattern]) {
    to.u16(floats.len() as u16);
    floats.iter().for_each(|&x| to.u32(x));
}

fn chunk(to: &mut Writer, row: &Chunk) {
    to.u8(row.flags);
    to.u32(row.x);
    to.u32(row.y);
    to.u8(row.anchor);
    to.u8(row.flow);
    to.u16(row.text.len() as u16);
    to.bytes(&row.text);
    to.u8(row.spans.len() as u8);
    row.spans.iter().for_each(|row| span(to, row));
}

fn span(to: &mut Writer, row: &Span) {
    to.u16(row.start);
    to.u16(row.end);
    to.u8(row.font);
    to.u32(row.size);
    to.u32(row.letter_spacing);
    to.u32(row.word_spacing);
    to.u8(row.length_flag);
    to.u32(row.text_length);
    to.u8(row.adjust);
    to.u8(row.dominant_baseline);
    to.u8(row.alignment_baseline);
    to.u8(row.decorations);
    to.u8(row.shifts.len() as u8);
    for shift in &row.shifts {
        to.u8(shift.kind);
        to.u32(shift.number);
    }
    to.u16(row.glyphs.len() as u16);
    row.glyphs.iter().for_each(|row| glyph(to, row));
}

fn glyph(to: &mut Writer, row: &Glyph) {
    to.u32(row.id);
    to.u16(row.byte_index);
    to.u8(row.cluster_length);
    to.i32(row.dx);
    to.i32(row.dy);
    to.i32(row.width);
    to.u8(row.font);
    to.bytes(&row.tag);
    to.u8(row.orientation);
}
