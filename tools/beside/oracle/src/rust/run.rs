//! The chunk loop of `layout_text`, without its font lookup and bounding boxes, and check 9.

use super::*;
use crate::answer::{self, ChunkRow, ClusterRow, GlyphRow, Run, SpanRow};
use crate::job::Job;
use crate::refusal::{unless, Refusal};
use crate::steps::{self, Step};

pub fn rows(job: &Job) -> Result<Vec<ChunkRow>, Refusal> {
    let text = convert::text(job);
    let fonts = convert::fonts(job);
    let cache = convert::cache(&text, &fonts);
    let mut pen = (0.0, 0.0);
    let mut char_offset = 0;
    let mut rows = vec![];
    for (chunk, source) in text.chunks.iter().zip(&job.chunks) {
        let resolver = FontResolver::new(convert::shaped(source, &fonts));
        let mut clusters = merge::clusters_of(chunk, &cache, &resolver)?;
        let row = if clusters.is_empty() {
            ChunkRow {
                pen,
                clusters: vec![],
                spans: vec![],
            }
        } else {
            adjust(text.writing_mode, chunk, &mut clusters)?;
            chunk_row(&text, chunk, char_offset, pen, &cache, clusters)
        };
        pen = row.pen;
        char_offset += chunk.text.chars().count();
        rows.push(row);
    }
    Ok(rows)
}

/// Steps 3 to 6.
fn adjust(
    mode: WritingMode,
    chunk: &TextChunk,
    clusters: &mut [GlyphCluster],
) -> Result<(), Refusal> {
    lookup::by_first_glyph(clusters, |clusters| {
        apply_writing_mode(mode, clusters);
        apply_letter_spacing(chunk, clusters);
    });
    apply_word_spacing(chunk, clusters);
    let mut spans = chunk.spans.iter();
    unless(!spans.any(|s| has_nothing_to_stretch(s, clusters)), 9)?;
    apply_length_adjust(chunk, clusters);
    Ok(())
}

fn chunk_row(
    text: &Text,
    chunk: &TextChunk,
    char_offset: usize,
    pen: (f32, f32),
    cache: &FontsCache,
    mut clusters: Vec<GlyphCluster>,
) -> ChunkRow {
    let mode = text.writing_mode;
    let (x, y) = (chunk.x.unwrap_or(pen.0), chunk.y.unwrap_or(pen.1));
    let mut end =
        resolve_clusters_positions_horizontal(text, chunk, char_offset, mode, &mut clusters);
    if mode == WritingMode::TopToBottom {
        std::mem::swap(&mut end.0, &mut end.1);
    }
    for (i, cluster) in clusters.iter_mut().enumerate() {
        cluster.transform.cluster = i;
    }

    let spans = chunk.spans.iter().enumerate().filter_map(|(index, span)| {
        let font = cache.get(&span.font)?;
        Some(span_row(index, span, font, mode, (x, y), &clusters))
    });
    ChunkRow {
        pen: (x + end.0, y + end.1),
        spans: spans.collect(),
        clusters: clusters.iter().map(cluster_row).collect(),
    }
}

/// Check 9: SpacingAndGlyphs with a text length, and clusters that take part, all of width zero.
fn has_nothing_to_stretch(span: &TextSpan, clusters: &[GlyphCluster]) -> bool {
    let first_at = |i: usize| clusters.iter().find(|c| c.byte_idx.value() == i);
    let mut widths = (span.start..span.end)
        .filter_map(first_at)
        .map(|c| c.width)
        .peekable();
    span.text_length.is_some()
        && span.length_adjust == LengthAdjust::SpacingAndGlyphs
        && widths.peek().is_some()
        && widths.all(|width| width == 0.0)
}

fn span_row(
    index: usize,
    span: &TextSpan,
    font: &ResolvedFont,
    mode: WritingMode,
    origin: (f32, f32),
    clusters: &[GlyphCluster],
) -> SpanRow {
    let size = span.font_size.get();
    let (under, over, through) = match mode {
        WritingMode::LeftToRight => (
            -font.underline_position(size),
            -font.ascent(size),
            -font.line_through_position(size),
        ),
        WritingMode::TopToBottom => (font.height(size) / 2.0, -font.height(size) / 2.0, 0.0),
    };
    let wanted =
        |style: &Option<TextDecorationStyle>, offset| style.as_ref().map_or(0.0, |_| offset);
    let runs = collect_decoration_spans(span, clusters);
    SpanRow {
        index: index as u8,
        origin,
        baseline_shift: resolve_baseline(span, font, mode),
        thickness: font.underline_thickness(size),
        under: wanted(&span.decoration.underline, under),
        over: wanted(&span.decoration.overline, over),
        through: wanted(&span.decoration.line_through, through),
        runs: runs.iter().map(run).collect(),
    }
}

fn run(run: &DecorationSpan) -> Run {
    Run {
        first: run.transform.cluster as u16,
        width: run.width,
    }
}

fn cluster_row(cluster: &GlyphCluster) -> ClusterRow {
    let mut row = ClusterRow {
        byte_index: cluster.byte_idx.value() as u16,
        flags: 0,
        width: cluster.width,
        advance: cluster.advance,
        length_spacing: cluster.text_length_spacing,
        ascent: cluster.ascent,
        descent: cluster.descent,
        nudge: 0.0,
        scale: 0.0,
        shift: (0.0, 0.0),
        angle: 0.0,
        glyphs: cluster.glyphs.iter().map(glyph_row).collect(),
    };
    if cluster.has_relative_shift {
        row.flags |= answer::RELATIVE_SHIFT;
    }
    // A cluster is formed of one glyph or more: only step 4 takes them all.
    if cluster.glyphs.is_empty() {
        row.flags |= answer::COLLAPSED;
    }
    read_transform(&mut row, &cluster.transform.steps());
    read_path_transform(&mut row, &cluster.path_transform.steps());
    row
}

fn read_transform(row: &mut ClusterRow, steps: &[Step]) {
    let shift = steps.iter().rposition(|s| matches!(s, Step::Translate(..)));
    for (i, &step) in steps.iter().enumerate() {
        match step {
            Step::Translate(x, y) if Some(i) == shift => row.shift = (x, y),
            Step::Translate(_, nudge) => {
                row.nudge = nudge;
                row.flags |= answer::SIDEWAYS;
            }
            Step::Scale(scale, _) => {
                row.scale = scale;
                row.flags |= answer::SCALED;
            }
            Step::Rotate(angle) => {
                row.angle = angle;
                row.flags |= answer::ROTATED;
            }
            Step::RotateAt(..) => {}
        }
    }
    assert_eq!(
        steps,
        steps::transform(row),
        "document 01's steps are not the Rust's"
    );
}

fn read_path_transform(row: &mut ClusterRow, steps: &[Step]) {
    if let Some(&Step::Translate(_, nudge)) = steps.first() {
        row.nudge = nudge;
        row.flags |= answer::UPRIGHT;
    }
    assert_eq!(
        steps,
        steps::path_transform(row),
        "document 01's steps are not the Rust's"
    );
}

fn glyph_row(glyph: &PositionedGlyph) -> GlyphRow {
    let [Step::Translate(x, y)] = glyph.glyph_ts.steps()[..] else {
        panic!("a glyph is not placed by one translation");
    };
    GlyphRow {
        id: glyph.id.number,
        font: glyph.font.0,
        x,
        y,
    }
}
