//! The transforms of a job and the numbers beside them, whoever made them, and the first in which two sides part.

use std::fmt::Debug;

use tiny_skia_path::Transform;

#[derive(Default)]
pub struct Transforms {
    /// Of each chunk.
    pub clusters: Vec<Vec<ClusterTransforms>>,
    /// Of the spans with a font, in the job's order.
    pub spans: Vec<SpanTransforms>,
    /// `span_ts` of a chunk that would follow and begin at the pen.
    pub next: Transform,
}

pub struct ClusterTransforms {
    pub numbers: Numbers,
    pub transform: Transform,
    pub path_transform: Transform,
    /// Both: `GlyphCluster::transform`.
    pub whole: Transform,
}

/// What a cluster row has beside the steps.
pub struct Numbers {
    pub byte_index: usize,
    pub relative_shift: bool,
    pub collapsed: bool,
    /// Width, advance, length spacing, ascent, descent.
    pub floats: [f32; 5],
    pub glyphs: Vec<Glyph>,
}

pub struct Glyph {
    pub id: u32,
    pub font: u8,
    pub x: f32,
    pub y: f32,
}

pub struct SpanTransforms {
    pub text_ts: Transform,
    pub span_ts: Transform,
    pub runs: Vec<Run>,
    /// Those that are wanted: under, over, through.
    pub lines: Vec<Line>,
    /// `outline_transform` of each glyph.
    pub glyphs: Vec<Transform>,
}

pub struct Run {
    pub transform: Transform,
    pub width: f32,
}

/// A decoration line.
pub struct Line {
    pub offset: f32,
    pub thickness: f32,
}

const MATRIX: [&str; 6] = ["sx", "ky", "kx", "sy", "tx", "ty"];
const FLOATS: [&str; 5] = ["width", "advance", "length spacing", "ascent", "descent"];

pub fn floats(ts: &Transform) -> [f32; 6] {
    [ts.sx, ts.ky, ts.kx, ts.sy, ts.tx, ts.ty]
}

/// As patterns.
pub fn same(one: &Transform, other: &Transform) -> bool {
    floats(one).map(f32::to_bits) == floats(other).map(f32::to_bits)
}

impl Transforms {
    /// The first place where `self`, the library's, is not the Rust's.
    pub fn difference(&self, rust: &Transforms) -> Option<String> {
        let clusters = rows("chunk", &self.clusters, &rust.clusters, |ours, theirs| {
            rows("cluster", ours, theirs, ClusterTransforms::difference)
        });
        let spans = || {
            let difference = SpanTransforms::difference;
            rows("span row", &self.spans, &rust.spans, difference)
        };
        clusters
            .or_else(spans)
            .or_else(|| matrix("a next chunk's span_ts", &self.next, &rust.next))
    }
}

impl ClusterTransforms {
    fn difference(&self, rust: &Self) -> Option<String> {
        self.numbers
            .difference(&rust.numbers)
            .or_else(|| matrix("transform", &self.transform, &rust.transform))
            .or_else(|| matrix("path_transform", &self.path_transform, &rust.path_transform))
            .or_else(|| matrix("transform()", &self.whole, &rust.whole))
    }
}

impl Numbers {
    fn difference(&self, rust: &Self) -> Option<String> {
        plain("byte index", self.byte_index, rust.byte_index)
            .or_else(|| plain("relative shift", self.relative_shift, rust.relative_shift))
            .or_else(|| plain("collapsed", self.collapsed, rust.collapsed))
            .or_else(|| named_floats(&FLOATS, self.floats, rust.floats))
            .or_else(|| rows("glyph", &self.glyphs, &rust.glyphs, Glyph::difference))
    }
}

impl Glyph {
    fn difference(&self, rust: &Self) -> Option<String> {
        plain("id", self.id, rust.id)
            .or_else(|| plain("font", self.font, rust.font))
            .or_else(|| named_floats(&["x", "y"], [self.x, self.y], [rust.x, rust.y]))
    }
}

impl SpanTransforms {
    fn difference(&self, rust: &Self) -> Option<String> {
        matrix("text_ts", &self.text_ts, &rust.text_ts)
            .or_else(|| matrix("span_ts", &self.span_ts, &rust.span_ts))
            .or_else(|| rows("run", &self.runs, &rust.runs, Run::difference))
            .or_else(|| rows("line", &self.lines, &rust.lines, Line::difference))
            .or_else(|| {
                rows("glyph", &self.glyphs, &rust.glyphs, |a, b| {
                    matrix("outline_transform", a, b)
                })
            })
    }
}

impl Run {
    fn difference(&self, rust: &Self) -> Option<String> {
        matrix("transform", &self.transform, &rust.transform)
            .or_else(|| float("width", self.width, rust.width))
    }
}

impl Line {
    fn difference(&self, rust: &Self) -> Option<String> {
        float("offset", self.offset, rust.offset)
            .or_else(|| float("thickness", self.thickness, rust.thickness))
    }
}

fn rows<T>(
    name: &str,
    ours: &[T],
    theirs: &[T],
    difference: impl Fn(&T, &T) -> Option<String>,
) -> Option<String> {
    if ours.len() != theirs.len() {
        return Some(format!(
            "{} of {name}, the Rust {}",
            ours.len(),
            theirs.len()
        ));
    }
    let mut pairs = ours.iter().zip(theirs).enumerate();
    pairs.find_map(|(i, (a, b))| Some(format!("{name} {i} {}", difference(a, b)?)))
}

fn matrix(name: &str, ours: &Transform, theirs: &Transform) -> Option<String> {
    let found = named_floats(&MATRIX, floats(ours), floats(theirs));
    found.map(|found| format!("{name} {found}"))
}

fn named_floats<const N: usize>(
    names: &[&str; N],
    ours: [f32; N],
    theirs: [f32; N],
) -> Option<String> {
    let mut pairs = names.iter().zip(ours.into_iter().zip(theirs));
    pairs.find_map(|(name, (a, b))| float(name, a, b))
}

fn float(name: &str, ours: f32, theirs: f32) -> Option<String> {
    let (a, b) = (ours.to_bits(), theirs.to_bits());
    (a != b).then(|| format!("{name}: {a:08x} ({ours}), the Rust {b:08x} ({theirs})"))
}

fn plain<T: PartialEq + Debug>(name: &str, ours: T, theirs: T) -> Option<String> {
    (ours != theirs).then(|| format!("{name}: {ours:?}, the Rust {theirs:?}"))
}
