//! From a job's bytes to its fields: checks 1 to 3.

use crate::form::{
    job_form, JobForm, MOST_BYTES, MOST_FONTS, MOST_GLYPHS, MOST_LIST, MOST_SHIFTS, MOST_SPANS,
    MOST_TEXT, VERSION_AT,
};
use crate::job::{Chunk, FontRow, Glyph, Job, Pattern, Shift, Span};
use crate::refusal::{unless, Refusal};

/// The fewest bytes: a length and a version.
const LEAST_BYTES: usize = VERSION_AT + 1;

pub fn decode(bytes: &[u8]) -> Result<Job, Refusal> {
    let form = bytes.get(VERSION_AT).and_then(|&v| job_form(v));
    let most = form.map_or(MOST_BYTES, |form| form.bytes);
    unless((LEAST_BYTES..=most).contains(&bytes.len()), 1)?;
    let (length, rest) = bytes.split_at(VERSION_AT);
    unless(
        u32::from_be_bytes(length.try_into().unwrap()) as usize == rest.len(),
        1,
    )?;
    let form = form.ok_or(Refusal(2))?;
    let mut reader = Reader { rest: &rest[1..] };
    let job = reader.job(form)?;
    unless(reader.rest.is_empty(), 3)?;
    Ok(job)
}

struct Reader<'a> {
    rest: &'a [u8],
}

impl Reader<'_> {
    fn bytes(&mut self, count: usize) -> Result<&[u8], Refusal> {
        unless(count <= self.rest.len(), 3)?;
        let (taken, rest) = self.rest.split_at(count);
        self.rest = rest;
        Ok(taken)
    }

    fn array<const N: usize>(&mut self) -> Result<[u8; N], Refusal> {
        Ok(self.bytes(N)?.try_into().unwrap())
    }

    fn u8(&mut self) -> Result<u8, Refusal> {
        Ok(self.array::<1>()?[0])
    }

    fn u16(&mut self) -> Result<u16, Refusal> {
        Ok(u16::from_be_bytes(self.array()?))
    }

    fn i16(&mut self) -> Result<i16, Refusal> {
        Ok(i16::from_be_bytes(self.array()?))
    }

    fn u32(&mut self) -> Result<u32, Refusal> {
        Ok(u32::from_be_bytes(self.array()?))
    }

    fn i32(&mut self) -> Result<i32, Refusal> {
        Ok(i32::from_be_bytes(self.array()?))
    }

    fn short_count(&mut self, most: usize) -> Result<usize, Refusal> {
        let count = self.u8()? as usize;
        unless(count <= most, 3)?;
        Ok(count)
    }

    fn long_count(&mut self, most: usize) -> Result<usize, Refusal> {
        let count = self.u16()? as usize;
        unless(count <= most, 3)?;
        Ok(count)
    }

    fn rows<T>(
        &mut self,
        count: usize,
        row: fn(&mut Self) -> Result<T, Refusal>,
    ) -> Result<Vec<T>, Refusal> {
        (0..count).map(|_| row(self)).collect()
    }

    fn list(&mut self) -> Result<Vec<Pattern>, Refusal> {
        let count = self.long_count(MOST_LIST)?;
        self.rows(count, Self::u32)
    }

    fn job(&mut self, form: &JobForm) -> Result<Job, Refusal> {
        let mode = self.u8()?;
        let fonts = self.short_count(MOST_FONTS)?;
        let fonts = self.rows(fonts, Self::font)?;
        let dx = self.list()?;
        let dy = self.list()?;
        let rotate = self.list()?;
        let chunks = self.short_count(form.chunks)?;
        let chunks = self.rows(chunks, Self::chunk)?;
        Ok(Job {
            version: form.version,
            mode,
            fonts,
            dx,
            dy,
            rotate,
            chunks,
        })
    }

    fn font(&mut self) -> Result<FontRow, Refusal> {
        Ok(FontRow {
            units_per_em: self.u16()?,
            ascent: self.i16()?,
            descent: self.i16()?,
            x_height: self.u16()?,
            underline_position: self.i16()?,
            underline_thickness: self.u16()?,
            line_through: self.i16()?,
            subscript: self.i16()?,
            superscript: self.i16()?,
        })
    }

    fn chunk(&mut self) -> Result<Chunk, Refusal> {
        let flags = self.u8()?;
        let x = self.u32()?;
        let y = self.u32()?;
        let anchor = self.u8()?;
        let flow = self.u8()?;
        let length = self.long_count(MOST_TEXT)?;
        let text = self.bytes(length)?.to_vec();
        let spans = self.short_count(MOST_SPANS)?;
        let spans = self.rows(spans, Self::span)?;
        Ok(Chunk {
            flags,
            x,
            y,
            anchor,
            flow,
            text,
            spans,
        })
    }

    fn span(&mut self) -> Result<Span, Refusal> {
        let mut span = Span {
            start: self.u16()?,
            end: self.u16()?,
            font: self.u8()?,
            size: self.u32()?,
            letter_spacing: self.u32()?,
            word_spacing: self.u32()?,
            length_flag: self.u8()?,
            text_length: self.u32()?,
            adjust: self.u8()?,
            dominant_baseline: self.u8()?,
            alignment_baseline: self.u8()?,
            decorations: self.u8()?,
            shifts: vec![],
            glyphs: vec![],
        };
        let shifts = self.short_count(MOST_SHIFTS)?;
        span.shifts = self.rows(shifts, Self::shift)?;
        let glyphs = self.long_count(MOST_GLYPHS)?;
        span.glyphs = self.rows(glyphs, Self::glyph)?;
        Ok(span)
    }

    fn shift(&mut self) -> Result<Shift, Refusal> {
        Ok(Shift {
            kind: self.u8()?,
            number: self.u32()?,
        })
    }

    fn glyph(&mut self) -> Result<Glyph, Refusal> {
        Ok(Glyph {
            id: self.u32()?,
            byte_index: self.u16()?,
            cluster_length: self.u8()?,
            dx: self.i32()?,
            dy: self.i32()?,
            width: self.i32()?,
            font: self.u8()?,
            tag: self.array()?,
            orientation: self.u8()?,
        })
    }
}
