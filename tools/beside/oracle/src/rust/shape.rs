//! The shaper: it gives the job's glyphs of the span.

use std::cell::RefCell;
use std::sync::Arc;

use super::bounded;
use super::shims::SpanNumber;
use super::{FontOpticalSizing, Glyph, ResolvedFont};

/// What shaping gives: the job's glyphs of each span of the chunk, which is shaped once.
pub struct FontResolver {
    shaped: RefCell<Vec<Vec<Glyph>>>,
}

impl FontResolver {
    pub fn new(shaped: Vec<Vec<Glyph>>) -> Self {
        FontResolver {
            shaped: RefCell::new(shaped),
        }
    }
}

pub mod fontdb {
    pub struct Database;
}

#[allow(clippy::too_many_arguments)]
pub fn shape_text(
    _text: &str,
    _font: Arc<ResolvedFont>,
    _small_caps: bool,
    _apply_kerning: bool,
    variations: &SpanNumber,
    _font_size: f32,
    _font_optical_sizing: FontOpticalSizing,
    resolver: &FontResolver,
    _fontdb: &mut Arc<fontdb::Database>,
) -> bounded::Vec<Glyph> {
    let glyphs = std::mem::take(&mut resolver.shaped.borrow_mut()[variations.0]);
    bounded::Vec::from(glyphs)
}
