//! The Unicode lookups. The Rust asks by code point; document 01 answers from the cluster's first glyph.
//! Each step asks once for each cluster, in their order, so that the cluster is known by the count.

use std::cell::RefCell;
use std::collections::HashMap;
use std::sync::OnceLock;

use ::unicode_script::{Script, UnicodeScript};
use ::unicode_vo::Orientation;

use super::GlyphCluster;

/// The names that the cut text calls.
pub mod script {
    pub use ::unicode_script::Script;

    pub trait UnicodeScript {
        fn script(&self) -> Script;
    }

    impl UnicodeScript for char {
        fn script(&self) -> Script {
            super::script_of(*self)
        }
    }
}

pub mod vo {
    pub use ::unicode_vo::Orientation;

    pub fn char_orientation(c: char) -> Orientation {
        super::orientation_of(c)
    }
}

/// Who answers a lookup.
#[derive(Clone, Copy, PartialEq, Eq)]
pub enum Lookups {
    /// The cluster's first glyph, as in document 01.
    FirstGlyph,
    /// The tables of unicode-script and unicode-vo, as in the Rust.
    Tables,
}

#[derive(Clone, Copy)]
struct First {
    character: char,
    tag: [u8; 4],
    upright: bool,
}

struct Asked {
    by: Lookups,
    clusters: Vec<First>,
    scripts: usize,
    orientations: usize,
}

thread_local! {
    static ASKED: RefCell<Asked> = const {
        RefCell::new(Asked {
            by: Lookups::FirstGlyph,
            clusters: vec![],
            scripts: 0,
            orientations: 0,
        })
    };
}

pub fn answer_by(lookups: Lookups) {
    ASKED.with_borrow_mut(|asked| asked.by = lookups);
}

/// The clusters that the next steps ask for.
pub fn expect(clusters: &[GlyphCluster]) {
    let first = |cluster: &GlyphCluster| First {
        character: cluster.codepoint,
        tag: cluster.glyphs[0].id.tag,
        upright: cluster.glyphs[0].id.upright,
    };
    ASKED.with_borrow_mut(|asked| {
        asked.clusters = clusters.iter().map(first).collect();
        (asked.scripts, asked.orientations) = (0, 0);
    });
}

fn script_of(c: char) -> Script {
    ASKED.with_borrow_mut(|asked| match asked.by {
        Lookups::Tables => c.script(),
        Lookups::FirstGlyph => {
            let first = asked.clusters[asked.scripts];
            assert_eq!(first.character, c, "a script is asked for out of order");
            asked.scripts += 1;
            of_tag(&first.tag)
        }
    })
}

fn orientation_of(c: char) -> Orientation {
    ASKED.with_borrow_mut(|asked| match asked.by {
        Lookups::Tables => ::unicode_vo::char_orientation(c),
        Lookups::FirstGlyph => {
            let first = asked.clusters[asked.orientations];
            assert_eq!(
                first.character, c,
                "an orientation is asked for out of order"
            );
            asked.orientations += 1;
            match first.upright {
                true => Orientation::Upright,
                false => Orientation::Rotated,
            }
        }
    })
}

/// The script whose short name in unicode-script, an ISO 15924 code, is the tag.
fn of_tag(tag: &[u8; 4]) -> Script {
    static SCRIPTS: OnceLock<HashMap<&[u8], Script>> = OnceLock::new();
    let scripts = SCRIPTS.get_or_init(|| {
        let named = |c: char| (c.script().short_name().as_bytes(), c.script());
        ('\0'..=char::MAX).map(named).collect()
    });
    scripts.get(&tag[..]).copied().unwrap_or(Script::Unknown)
}

/// What the tables say of a character, in a glyph's fields. A code point of no script has no short name: ISO 15924's is Zzzz.
pub fn fields_of(c: char) -> ([u8; 4], u8) {
    let tag = match c.script() {
        Script::Unknown => b"Zzzz",
        script => script.short_name().as_bytes(),
    };
    let upright = ::unicode_vo::char_orientation(c) == Orientation::Upright;
    (tag.try_into().expect("four letters"), u8::from(upright))
}
