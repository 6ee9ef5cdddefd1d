//! The Unicode lookups. The Rust asks by code point; document 01 answers from the cluster's first glyph.
//! So while the Rust asks, a cluster's code point is a private one that numbers the cluster.

use std::cell::RefCell;

use super::GlyphCluster;

pub mod unicode_script {
    #[allow(non_camel_case_types)]
    #[derive(Clone, Copy)]
    pub enum Script {
        Arabic,
        Syriac,
        Nko,
        Manichaean,
        Psalter_Pahlavi,
        Mandaic,
        Mongolian,
        Phags_Pa,
        Devanagari,
        Bengali,
        Gurmukhi,
        Modi,
        Sharada,
        Syloti_Nagri,
        Tirhuta,
        Ogham,
        /// Document 02 names it, the Rust does not.
        Hanifi_Rohingya,
        /// Any script that neither names.
        Other,
    }

    pub trait UnicodeScript {
        fn script(&self) -> Script;
    }

    impl UnicodeScript for char {
        fn script(&self) -> Script {
            of_tag(&super::first_glyph(*self).tag)
        }
    }

    /// ISO 15924.
    fn of_tag(tag: &[u8; 4]) -> Script {
        match tag {
            b"Arab" => Script::Arabic,
            b"Syrc" => Script::Syriac,
            b"Nkoo" => Script::Nko,
            b"Mani" => Script::Manichaean,
            b"Phlp" => Script::Psalter_Pahlavi,
            b"Mand" => Script::Mandaic,
            b"Mong" => Script::Mongolian,
            b"Phag" => Script::Phags_Pa,
            b"Deva" => Script::Devanagari,
            b"Beng" => Script::Bengali,
            b"Guru" => Script::Gurmukhi,
            b"Modi" => Script::Modi,
            b"Shrd" => Script::Sharada,
            b"Sylo" => Script::Syloti_Nagri,
            b"Tirh" => Script::Tirhuta,
            b"Ogam" => Script::Ogham,
            b"Rohg" => Script::Hanifi_Rohingya,
            _ => Script::Other,
        }
    }
}

pub mod unicode_vo {
    #[derive(PartialEq)]
    pub enum Orientation {
        Upright,
        Rotated,
    }

    pub fn char_orientation(c: char) -> Orientation {
        if super::first_glyph(c).upright {
            Orientation::Upright
        } else {
            Orientation::Rotated
        }
    }
}

#[derive(Clone, Copy)]
struct FirstGlyph {
    tag: [u8; 4],
    upright: bool,
}

thread_local! {
    static FIRST_GLYPHS: RefCell<Vec<FirstGlyph>> = const { RefCell::new(Vec::new()) };
}

/// Where the private code points begin.
const PLANE_15: u32 = 0xF0000;

fn private(cluster: usize) -> char {
    char::from_u32(PLANE_15 + cluster as u32).expect("a chunk has at most 1,024 clusters")
}

fn first_glyph(c: char) -> FirstGlyph {
    FIRST_GLYPHS.with_borrow(|all| all[(c as u32 - PLANE_15) as usize])
}

/// Runs steps that look up a script or an orientation.
pub fn by_first_glyph(clusters: &mut [GlyphCluster], steps: impl FnOnce(&mut [GlyphCluster])) {
    let first = |cluster: &GlyphCluster| {
        let id = cluster.glyphs[0].id;
        FirstGlyph {
            tag: id.tag,
            upright: id.upright,
        }
    };
    FIRST_GLYPHS.set(clusters.iter().map(first).collect());
    let characters: Vec<char> = clusters.iter().map(|c| c.codepoint).collect();
    for (i, cluster) in clusters.iter_mut().enumerate() {
        cluster.codepoint = private(i);
    }
    steps(clusters);
    for (cluster, character) in clusters.iter_mut().zip(characters) {
        cluster.codepoint = character;
    }
}
