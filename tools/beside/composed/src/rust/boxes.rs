//! Bounding boxes and drawing, which stay with the host. What `layout_text` hands over to be drawn is noted.

use super::shims::{Fill, PaintOrder, SpanNumber, Stroke};
use super::{
    collect_decoration_spans, notes, span_contains, DecorationSpan, FontOpticalSizing,
    GlyphCluster, NonZeroPositiveF32, PositionedGlyph, ResolvedFont, TextDecorationStyle, TextSpan,
    Transform,
};

/// A box that is never missing, so that no span is dropped for it.
#[derive(Clone, Copy, Default)]
pub struct BBox;

pub struct NonZeroRect;

impl From<NonZeroRect> for BBox {
    fn from(_: NonZeroRect) -> Self {
        BBox
    }
}

impl BBox {
    pub fn expand(&self, _: impl Into<BBox>) -> Self {
        BBox
    }

    pub fn to_non_zero_rect(self) -> Option<NonZeroRect> {
        Some(NonZeroRect)
    }
}

/// A decoration's outline. None is made.
pub struct Path {
    pub data: Outline,
}

pub struct Outline;

impl Outline {
    pub fn bounds(&self) -> BBox {
        BBox
    }
}

/// What `layout_text` answers for a span.
pub struct Span {
    pub fill: Option<Fill>,
    pub stroke: Option<Stroke>,
    pub paint_order: PaintOrder,
    pub font_size: NonZeroPositiveF32,
    pub variations: SpanNumber,
    pub font_optical_sizing: FontOpticalSizing,
    pub visible: bool,
    pub positioned_glyphs: Vec<PositionedGlyph>,
    pub underline: Option<Path>,
    pub overline: Option<Path>,
    pub line_through: Option<Path>,
}

/// Notes the line's offset, and the thickness that the Rust draws it with.
pub fn convert_decoration(
    dy: f32,
    span: &TextSpan,
    font: &ResolvedFont,
    _decoration: TextDecorationStyle,
    _decoration_spans: &[DecorationSpan],
    _transform: Transform,
) -> Option<Path> {
    notes::line(dy, font.underline_thickness(span.font_size.get()));
    None
}

/// The clusters within the span, whatever their box. Notes them and the span.
pub fn convert_span(
    span: &TextSpan,
    clusters: &[GlyphCluster],
    span_ts: Transform,
) -> Option<(Vec<GlyphCluster>, NonZeroRect)> {
    notes::clusters(clusters);
    notes::span(span_ts, &collect_decoration_spans(span, clusters));
    let within = clusters
        .iter()
        .filter(|cluster| span_contains(span, cluster.byte_idx));
    Some((within.cloned().collect(), NonZeroRect))
}
