//! The chunk loop of `layout_text`, check 9, and the answer's bytes.

use super::transform::UPRIGHT;
use super::*;
use crate::bytes::Writer;
use crate::job::Job;
use crate::refusal::{unless, Refusal};

const RELATIVE_SHIFT: u8 = 1;
const COLLAPSED: u8 = 32;
/// Of the answer.
const VERSION: u8 = 1;

pub fn answer(job: &Job) -> Result<Vec<u8>, Refusal> {
    let text = convert::text(job);
    let fonts = convert::fonts(job);
    let cache = convert::cache(&text, &fonts);
    let mut to = Writer::default();
    let mut pen = (0.0, 0.0);
    let mut char_offset = 0;
    to.u8(text.chunks.len() as u8);
    for (chunk, source) in text.chunks.iter().zip(&job.chunks) {
        let resolver = FontResolver::new(convert::shaped(source, &fonts));
        let mut clusters = merge::clusters_of(chunk, &cache, &resolver)?;
        let origin = (chunk.x.unwrap_or(pen.0), chunk.y.unwrap_or(pen.1));
        if !clusters.is_empty() {
            let end = placed(&text, chunk, char_offset, &mut clusters)?;
            pen = (origin.0 + end.0, origin.1 + end.1);
        }
        write_chunk(
            &mut to,
            chunk,
            &clusters,
            &cache,
            text.writing_mode,
            origin,
            pen,
        );
        char_offset += chunk.text.chars().count();
    }
    Ok(to.record(VERSION))
}

/// Steps 3 to 7, and the pair for the pen.
fn placed(
    text: &Text,
    chunk: &TextChunk,
    char_offset: usize,
    clusters: &mut [GlyphCluster],
) -> Result<(f32, f32), Refusal> {
    let mode = text.writing_mode;
    lookup::by_first_glyph(clusters, |clusters| {
        apply_writing_mode(mode, clusters);
        apply_letter_spacing(chunk, clusters);
    });
    apply_word_spacing(chunk, clusters);
    let empty = chunk
        .spans
        .iter()
        .any(|s| has_nothing_to_stretch(s, clusters));
    unless(!empty, 9)?;
    apply_length_adjust(chunk, clusters);
    let end = resolve_clusters_positions_horizontal(text, chunk, char_offset, mode, clusters);
    for (i, cluster) in clusters.iter_mut().enumerate() {
        cluster.transform.cluster = i as u16;
    }
    Ok(match mode {
        WritingMode::LeftToRight => end,
        WritingMode::TopToBottom => (end.1, end.0),
    })
}

/// Check 9. Of clusters with one byte index only the first takes part.
fn has_nothing_to_stretch(span: &TextSpan, clusters: &[GlyphCluster]) -> bool {
    if span.text_length.is_none() || span.length_adjust != LengthAdjust::SpacingAndGlyphs {
        return false;
    }
    let first = |i: usize| {
        clusters[..i]
            .iter()
            .all(|c| c.byte_idx != clusters[i].byte_idx)
    };
    let of_span = |&i: &usize| span_contains(span, clusters[i].byte_idx);
    let mut places = (0..clusters.len()).filter(of_span).peekable();
    places.peek().is_some() && !places.any(|i| clusters[i].width != 0.0 && first(i))
}

fn write_chunk(
    to: &mut Writer,
    chunk: &TextChunk,
    clusters: &[GlyphCluster],
    cache: &FontsCache,
    mode: WritingMode,
    origin: (f32, f32),
    pen: (f32, f32),
) {
    let spans = chunk.spans.iter().enumerate();
    let mut rows: Vec<(usize, &TextSpan, &ResolvedFont)> = vec![];
    if !clusters.is_empty() {
        rows.extend(spans.filter_map(|(i, span)| Some((i, span, &**cache.get(&span.font)?))));
    }
    to.u16(clusters.len() as u16);
    to.u8(rows.len() as u8);
    to.floats(&[pen.0, pen.1]);
    clusters
        .iter()
        .for_each(|cluster| write_cluster(to, cluster));
    for (index, span, font) in rows {
        to.u8(index as u8);
        to.floats(&[origin.0, origin.1]);
        write_span(to, span, font, mode, clusters);
    }
}

fn write_cluster(to: &mut Writer, cluster: &GlyphCluster) {
    let steps = cluster.transform;
    let turned = cluster.path_transform;
    let mut flags = steps.flags() | turned.flags();
    if cluster.has_relative_shift {
        flags |= RELATIVE_SHIFT;
    }
    if cluster.glyphs.is_empty() {
        flags |= COLLAPSED;
    }
    let nudge = if turned.flags() & UPRIGHT != 0 {
        turned.nudge
    } else {
        steps.nudge
    };
    to.u16(cluster.byte_idx.value() as u16);
    to.u8(flags);
    to.floats(&[cluster.width, cluster.advance, cluster.text_length_spacing]);
    to.floats(&[cluster.ascent, cluster.descent, nudge]);
    to.floats(&[steps.scale, steps.x, steps.y, steps.angle]);
    to.u16(cluster.glyphs.len() as u16);
    for glyph in &cluster.glyphs {
        to.u32(glyph.id.number);
        to.u8(glyph.font.0);
        to.floats(&[glyph.glyph_ts.x, glyph.glyph_ts.y]);
    }
}

fn write_span(
    to: &mut Writer,
    span: &TextSpan,
    font: &ResolvedFont,
    mode: WritingMode,
    clusters: &[GlyphCluster],
) {
    let size = span.font_size.get();
    let (under, over, through) = match mode {
        WritingMode::LeftToRight => (
            -font.underline_position(size),
            -font.ascent(size),
            -font.line_through_position(size),
        ),
        WritingMode::TopToBottom => (font.height(size) / 2.0, -font.height(size) / 2.0, 0.0),
    };
    let wanted = |style: &Option<TextDecorationStyle>, offset: f32| {
        if style.is_some() {
            offset
        } else {
            0.0
        }
    };
    let lines = &span.decoration;
    to.floats(&[
        resolve_baseline(span, font, mode),
        font.underline_thickness(size),
    ]);
    to.floats(&[
        wanted(&lines.underline, under),
        wanted(&lines.overline, over),
        wanted(&lines.line_through, through),
    ]);
    let runs = collect_decoration_spans(span, clusters);
    to.u16(runs.len() as u16);
    for run in runs {
        to.u16(run.transform.cluster);
        to.floats(&[run.width]);
    }
}
