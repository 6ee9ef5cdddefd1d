//! Fonts and the shaper: font bytes are looked up among the job's fonts, and shaping gives the job's glyphs of the span.

use std::cell::RefCell;
use std::sync::Arc;
use std::vec::IntoIter;

use super::shims::SpanNumber;
use super::{Font, FontOpticalSizing, Glyph, ResolvedFont, ID};
use crate::job::NO_FONT;

pub struct FontResolver {
    pub select_font: fn(&Font, &mut Arc<fontdb::Database>) -> Option<ID>,
    /// The glyphs of each span of the chunk, which is shaped once.
    shaped: RefCell<Vec<Vec<Glyph>>>,
    /// Those of the chunks that follow.
    later: RefCell<IntoIter<Vec<Vec<Glyph>>>>,
}

impl FontResolver {
    /// From the glyphs of each span of each chunk.
    pub fn new(chunks: Vec<Vec<Vec<Glyph>>>) -> Self {
        FontResolver {
            select_font: |font, _| (font.byte != NO_FONT).then_some(ID(font.byte)),
            shaped: RefCell::default(),
            later: RefCell::new(chunks.into_iter()),
        }
    }

    pub fn begin_chunk(&self) {
        let next = self.later.borrow_mut().next();
        self.shaped.replace(next.expect("a chunk of the job"));
    }
}

pub mod fontdb {
    use std::sync::Arc;

    use super::{ResolvedFont, SpanNumber, ID};

    pub struct Database(pub Vec<Arc<ResolvedFont>>);

    impl Database {
        pub fn load_font(&self, id: ID, _variations: &SpanNumber) -> Option<ResolvedFont> {
            Some(*self.0[id.0 as usize])
        }
    }
}

#[allow(clippy::too_many_arguments)]
pub fn shape_text(
    _text: &str,
    _font: Arc<ResolvedFont>,
    _small_caps: bool,
    _apply_kerning: bool,
    variations: &SpanNumber,
    _font_size: f32,
    _font_optical_sizing: FontOpticalSizing,
    resolver: &FontResolver,
    _fontdb: &mut Arc<fontdb::Database>,
) -> Vec<Glyph> {
    std::mem::take(&mut resolver.shaped.borrow_mut()[variations.0])
}
