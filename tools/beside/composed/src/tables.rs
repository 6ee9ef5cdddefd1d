//! Jobs as a host fills them that has the Unicode tables.

use std::collections::BTreeMap;

use crate::job::{Glyph, Job};
use crate::rust::fields_of;

/// Gives each glyph the tag and the orientation that the tables have of its character.
pub fn fill(job: &mut Job) {
    for chunk in &mut job.chunks {
        let text = std::str::from_utf8(&chunk.text).expect("check 5 held");
        for glyph in chunk.spans.iter_mut().flat_map(|span| &mut span.glyphs) {
            let rest = &text[glyph.byte_index as usize..];
            let character = rest.chars().next().expect("check 5 held");
            (glyph.tag, glyph.orientation) = fields_of(character);
        }
    }
}

/// How many glyphs each script has, and how many of them stand upright.
#[derive(Default)]
pub struct Scripts {
    met: BTreeMap<[u8; 4], (usize, usize)>,
}

impl Scripts {
    pub fn add(&mut self, job: &Job) {
        let spans = job.chunks.iter().flat_map(|chunk| &chunk.spans);
        spans
            .flat_map(|span| &span.glyphs)
            .for_each(|glyph| self.glyph(glyph));
    }

    fn glyph(&mut self, glyph: &Glyph) {
        let (glyphs, upright) = self.met.entry(glyph.tag).or_default();
        *glyphs += 1;
        *upright += usize::from(glyph.orientation == 1);
    }

    pub fn print(&self) {
        println!("{:<28}{:>16}{:>16}", "glyphs of a script", "all", "upright");
        for (tag, (glyphs, upright)) in &self.met {
            let name = String::from_utf8_lossy(tag);
            println!("{name:<28}{glyphs:>16}{upright:>16}");
        }
    }
}
