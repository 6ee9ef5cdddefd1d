//! A checked job as the Rust's own types.

use super::*;
use crate::job::{self, Job, NATURAL, NO_FONT};
use shims::SpanNumber;

pub fn text(job: &Job) -> Text {
    let floats = |list: &[job::Pattern]| list.iter().map(|&x| f32::from_bits(x)).collect();
    Text {
        dx: floats(&job.dx),
        dy: floats(&job.dy),
        rotate: floats(&job.rotate),
        writing_mode: numbered(
            [WritingMode::LeftToRight, WritingMode::TopToBottom],
            job.mode,
            |m| m as u8,
        ),
        chunks: job.chunks.iter().map(chunk).collect(),
    }
}

pub fn fonts(job: &Job) -> Vec<Arc<ResolvedFont>> {
    job.fonts
        .iter()
        .enumerate()
        .map(|(i, row)| Arc::new(font(i as u8, row)))
        .collect()
}

/// The fonts of the spans that have one, as `layout_text` gathers them.
pub fn cache(text: &Text, fonts: &[Arc<ResolvedFont>]) -> FontsCache {
    let spans = text.chunks.iter().flat_map(|c| &c.spans);
    let named = spans.filter(|s| s.font.byte != NO_FONT);
    named
        .map(|s| (s.font.clone(), fonts[s.font.byte as usize].clone()))
        .collect()
}

/// The glyphs of each span of the chunk.
pub fn shaped(chunk: &job::Chunk, fonts: &[Arc<ResolvedFont>]) -> Vec<Vec<Glyph>> {
    let shaped = |span: &job::Span| span.glyphs.iter().map(|g| glyph(g, fonts)).collect();
    chunk.spans.iter().map(shaped).collect()
}

fn font(byte: u8, row: &job::FontRow) -> ResolvedFont {
    let not_zero = |n: u16| NonZeroU16::new(n).expect("check 4 held");
    ResolvedFont {
        id: ID(byte),
        units_per_em: not_zero(row.units_per_em),
        ascent: row.ascent,
        descent: row.descent,
        x_height: not_zero(row.x_height),
        underline_position: row.underline_position,
        underline_thickness: not_zero(row.underline_thickness),
        line_through_position: row.line_through,
        subscript_offset: row.subscript,
        superscript_offset: row.superscript,
    }
}

fn glyph(glyph: &job::Glyph, fonts: &[Arc<ResolvedFont>]) -> Glyph {
    Glyph {
        id: GlyphId {
            number: glyph.id,
            tag: glyph.tag,
            upright: glyph.orientation == 1,
        },
        byte_idx: ByteIndex::new(glyph.byte_index as usize),
        cluster_len: glyph.cluster_length as usize,
        text: String::new(),
        dx: glyph.dx,
        dy: glyph.dy,
        width: glyph.width,
        font: fonts[glyph.font as usize].clone(),
    }
}

fn chunk(chunk: &job::Chunk) -> TextChunk {
    let anchors = [TextAnchor::Start, TextAnchor::Middle, TextAnchor::End];
    TextChunk {
        x: chunk.has_x().then(|| f32::from_bits(chunk.x)),
        y: chunk.has_y().then(|| f32::from_bits(chunk.y)),
        anchor: numbered(anchors, chunk.anchor, |a| a as u8),
        spans: chunk
            .spans
            .iter()
            .enumerate()
            .map(|(i, s)| span(i, s))
            .collect(),
        text_flow: TextFlow::Linear,
        text: String::from_utf8(chunk.text.clone()).expect("check 5 held"),
    }
}

fn span(number: usize, span: &job::Span) -> TextSpan {
    let (text_length, length_adjust) = length(span);
    TextSpan {
        start: span.start as usize,
        end: span.end as usize,
        fill: None,
        stroke: None,
        paint_order: PaintOrder,
        font: Font {
            byte: span.font,
            variations: SpanNumber(number),
        },
        font_size: NonZeroPositiveF32::new(f32::from_bits(span.size)).expect("check 4 held"),
        small_caps: false,
        apply_kerning: true,
        font_optical_sizing: FontOpticalSizing::Auto,
        decoration: decoration(span.decorations),
        dominant_baseline: dominant_baseline(span.dominant_baseline),
        alignment_baseline: alignment_baseline(span.alignment_baseline),
        baseline_shift: span.shifts.iter().map(baseline_shift).collect(),
        visible: true,
        letter_spacing: f32::from_bits(span.letter_spacing),
        word_spacing: f32::from_bits(span.word_spacing),
        text_length,
        length_adjust,
    }
}

/// The Rust has no natural length: such a span has no text length, and nothing asks how it is adjusted.
fn length(span: &job::Span) -> (Option<f32>, LengthAdjust) {
    if span.adjust == NATURAL {
        return (None, LengthAdjust::Spacing);
    }
    let length = (span.length_flag == 1).then(|| f32::from_bits(span.text_length));
    let adjusts = [LengthAdjust::Spacing, LengthAdjust::SpacingAndGlyphs];
    (length, numbered(adjusts, span.adjust, |a| a as u8))
}

fn decoration(bits: u8) -> TextDecoration {
    let style = |bit| {
        (bits & bit != 0).then_some(TextDecorationStyle {
            fill: None,
            stroke: None,
        })
    };
    TextDecoration {
        underline: style(1),
        overline: style(2),
        line_through: style(4),
    }
}

/// The case whose place in the Rust's own declaration is `number`.
fn numbered<T: Copy, const N: usize>(cases: [T; N], number: u8, place: fn(T) -> u8) -> T {
    let found = cases.into_iter().find(|&case| place(case) == number);
    found.expect("check 4 held")
}

fn dominant_baseline(number: u8) -> DominantBaseline {
    use DominantBaseline::*;
    let cases = [
        Auto,
        UseScript,
        NoChange,
        ResetSize,
        Ideographic,
        Alphabetic,
        Hanging,
        Mathematical,
        Central,
        Middle,
        TextAfterEdge,
        TextBeforeEdge,
    ];
    numbered(cases, number, |b| b as u8)
}

fn alignment_baseline(number: u8) -> AlignmentBaseline {
    use AlignmentBaseline::*;
    let cases = [
        Auto,
        Baseline,
        BeforeEdge,
        TextBeforeEdge,
        Middle,
        Central,
        AfterEdge,
        TextAfterEdge,
        Ideographic,
        Alphabetic,
        Hanging,
        Mathematical,
    ];
    numbered(cases, number, |b| b as u8)
}

fn baseline_shift(shift: &job::Shift) -> BaselineShift {
    match shift.kind {
        0 => BaselineShift::Baseline,
        1 => BaselineShift::Subscript,
        2 => BaselineShift::Superscript,
        _ => BaselineShift::Number(f32::from_bits(shift.number)),
    }
}
