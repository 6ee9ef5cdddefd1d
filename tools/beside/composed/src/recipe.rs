//! An answer's rows composed to transforms: document 01's steps, in the groups of layout.h, by tiny-skia-path's operations.

use oracle::answer::{ChunkRow, ClusterRow, GlyphRow, SpanRow, COLLAPSED, RELATIVE_SHIFT};
use oracle::steps::{self, Step};
use tiny_skia_path::Transform;

use crate::job::{Chunk, Job, Span};
use crate::rust::Rotations;
use crate::transforms::{ClusterTransforms, Glyph, Line, Numbers, Run, SpanTransforms, Transforms};

/// How the parts are made. Another reading has another function in one place.
pub struct Recipe {
    pub name: &'static str,
    pub transform: fn(&ClusterRow) -> Vec<Step>,
    pub path_transform: fn(&ClusterRow) -> Vec<Step>,
    /// The cluster's two transforms as one.
    pub whole: fn(Transform, Transform) -> Transform,
    /// Of the run's first cluster.
    pub run: fn(&Recipe, &ClusterRow) -> Transform,
    pub text: fn(u8, &SpanRow) -> Vec<Step>,
    pub span: fn(u8, &SpanRow) -> Vec<Step>,
    /// The font size over units per em.
    pub size: fn(&Drawn) -> f32,
    pub outline: fn(&Recipe, &Drawn) -> Transform,
}

/// A glyph with all that its place hangs on.
pub struct Drawn<'a> {
    pub job: &'a Job,
    pub chunk: &'a Chunk,
    pub span: &'a Span,
    pub span_row: &'a SpanRow,
    pub cluster: &'a ClusterRow,
    pub glyph: &'a GlyphRow,
}

pub const RIGHT: Recipe = Recipe {
    name: "document 01's",
    transform: steps::transform,
    path_transform: steps::path_transform,
    whole: |transform, path_transform| transform.pre_concat(path_transform),
    run: |recipe, first| composed(&(recipe.transform)(first)),
    text: steps::text,
    span: steps::span,
    size: |drawn| f32::from_bits(drawn.span.size) / drawn.units(drawn.glyph.font),
    outline: |recipe, drawn| {
        let size = (recipe.size)(drawn);
        composed(&(recipe.span)(drawn.job.mode, drawn.span_row))
            .pre_concat(recipe.cluster(drawn.cluster).whole)
            .pre_concat(Transform::from_scale(size, size))
            .pre_concat(Transform::from_translate(drawn.glyph.x, drawn.glyph.y))
            .pre_concat(MIRROR)
    },
};

/// A font's outlines go up, an answer's y down.
pub const MIRROR: Transform = Transform {
    sx: 1.0,
    ky: 0.0,
    kx: 0.0,
    sy: -1.0,
    tx: 0.0,
    ty: 0.0,
};

/// From the identity, each step applied before those already there.
pub fn composed(steps: &[Step]) -> Transform {
    steps.iter().fold(Transform::default(), appended)
}

pub fn appended(ts: Transform, step: &Step) -> Transform {
    match *step {
        Step::Translate(x, y) => ts.pre_translate(x, y),
        Step::Scale(x, y) => ts.pre_scale(x, y),
        Step::Rotate(angle) => ts.pre_rotate(angle),
        Step::RotateAt(angle, x, y) => ts.pre_rotate_at(angle, x, y),
    }
}

impl Drawn<'_> {
    pub fn units(&self, font: u8) -> f32 {
        self.job.fonts[font as usize].units_per_em as f32
    }
}

impl Recipe {
    pub fn transforms(&self, job: &Job, rows: &[ChunkRow]) -> Transforms {
        let of_clusters = |row: &ChunkRow| row.clusters.iter().map(|c| self.cluster(c)).collect();
        let chunks = job.chunks.iter().zip(rows);
        Transforms {
            clusters: rows.iter().map(of_clusters).collect(),
            spans: chunks
                .flat_map(|(chunk, row)| self.spans(job, chunk, row))
                .collect(),
            next: self.next(job, rows),
        }
    }

    /// A span at the pen, with no baseline shift.
    fn next(&self, job: &Job, rows: &[ChunkRow]) -> Transform {
        let span_row = SpanRow {
            origin: rows.last().map_or((0.0, 0.0), |row| row.pen),
            ..SpanRow::default()
        };
        composed(&(self.span)(job.mode, &span_row))
    }

    pub fn cluster(&self, row: &ClusterRow) -> ClusterTransforms {
        let transform = composed(&(self.transform)(row));
        let path_transform = composed(&(self.path_transform)(row));
        ClusterTransforms {
            numbers: numbers(row),
            transform,
            path_transform,
            whole: (self.whole)(transform, path_transform),
        }
    }

    fn spans(&self, job: &Job, chunk: &Chunk, row: &ChunkRow) -> Vec<SpanTransforms> {
        let of_span = |span_row| self.span(job, chunk, row, span_row);
        row.spans.iter().map(of_span).collect()
    }

    fn span(&self, job: &Job, chunk: &Chunk, row: &ChunkRow, of: &SpanRow) -> SpanTransforms {
        let span = &chunk.spans[of.index as usize];
        let run = |run: &oracle::answer::Run| Run {
            transform: (self.run)(self, &row.clusters[run.first as usize]),
            width: run.width,
        };
        SpanTransforms {
            text_ts: composed(&(self.text)(job.mode, of)),
            span_ts: composed(&(self.span)(job.mode, of)),
            runs: of.runs.iter().map(run).collect(),
            lines: lines(span, of),
            glyphs: drawn(job, chunk, row, of)
                .map(|drawn| (self.outline)(self, &drawn))
                .collect(),
        }
    }
}

fn numbers(row: &ClusterRow) -> Numbers {
    let glyph = |glyph: &GlyphRow| Glyph {
        id: glyph.id,
        font: glyph.font,
        x: glyph.x,
        y: glyph.y,
    };
    Numbers {
        byte_index: row.byte_index as usize,
        relative_shift: row.flags & RELATIVE_SHIFT != 0,
        collapsed: row.flags & COLLAPSED != 0,
        floats: [
            row.width,
            row.advance,
            row.length_spacing,
            row.ascent,
            row.descent,
        ],
        glyphs: row.glyphs.iter().map(glyph).collect(),
    }
}

/// The decoration lines that are wanted.
pub fn lines(span: &Span, row: &SpanRow) -> Vec<Line> {
    let offsets = [(1, row.under), (2, row.over), (4, row.through)];
    let wanted = offsets
        .into_iter()
        .filter(|(bit, _)| span.decorations & bit != 0);
    let line = |(_, offset)| Line {
        offset,
        thickness: row.thickness,
    };
    wanted.map(line).collect()
}

/// The glyphs of the clusters that the span covers, in the answer's order.
pub fn drawn<'a>(
    job: &'a Job,
    chunk: &'a Chunk,
    row: &'a ChunkRow,
    span_row: &'a SpanRow,
) -> impl Iterator<Item = Drawn<'a>> {
    let span = &chunk.spans[span_row.index as usize];
    let covered = |c: &&ClusterRow| (span.start..span.end).contains(&c.byte_index);
    let of_cluster = move |cluster: &'a ClusterRow| {
        cluster.glyphs.iter().map(move |glyph| Drawn {
            job,
            chunk,
            span,
            span_row,
            cluster,
            glyph,
        })
    };
    row.clusters.iter().filter(covered).flat_map(of_cluster)
}
