//! Labels as a station writes them: words in many scripts, shaped by several fonts, in spans and chunks.

use oracle::job::{Chunk, Glyph, Job, Span, NO_FONT};

use crate::generate::{boundary, Maker};
use crate::random::Random;

struct Script {
    tag: &'static [u8; 4],
    letters: &'static str,
    /// Marks that stand on the letter before them.
    marks: &'static str,
    /// What a font may join into one glyph.
    joined: &'static [&'static str],
    space: char,
    right_to_left: bool,
    upright: bool,
}

const LATIN: Script = Script {
    tag: b"Latn",
    letters: "ABEGPRfiltånz0123456789-",
    marks: "\u{301}\u{308}\u{327}",
    joined: &["ffi", "fi", "fl", "tt"],
    space: ' ',
    right_to_left: false,
    upright: false,
};

const SCRIPTS: &[Script] = &[
    LATIN,
    Script {
        tag: b"Grek",
        letters: "αβγδΩ",
        marks: "\u{301}",
        space: '\u{a0}',
        ..LATIN
    },
    Script {
        tag: b"Cyrl",
        letters: "ячмень",
        marks: "\u{306}",
        ..LATIN
    },
    Script {
        tag: b"Arab",
        letters: "شعيرقمحلا",
        marks: "\u{64e}\u{651}",
        joined: &["لا", "شع", "محل"],
        right_to_left: true,
        ..LATIN
    },
    Script {
        tag: b"Hebr",
        letters: "שעורהם",
        marks: "\u{5b8}\u{5bc}",
        joined: &[],
        right_to_left: true,
        ..LATIN
    },
    Script {
        tag: b"Syrc",
        letters: "ܣܥܪܐ",
        marks: "\u{730}",
        joined: &["ܣܥ"],
        right_to_left: true,
        ..LATIN
    },
    Script {
        tag: b"Nkoo",
        letters: "ߞߊߓߊ",
        marks: "\u{7eb}",
        joined: &[],
        right_to_left: true,
        ..LATIN
    },
    Script {
        tag: b"Rohg",
        letters: "𐴀𐴁𐴃𐴇𐴊𐴌",
        marks: "\u{10d24}\u{10d25}",
        joined: &["𐴀𐴁"],
        right_to_left: true,
        ..LATIN
    },
    Script {
        tag: b"Deva",
        letters: "जौगेहूँक्ष",
        marks: "\u{902}\u{93f}",
        joined: &["क्ष", "गे"],
        ..LATIN
    },
    Script {
        tag: b"Beng",
        letters: "যবগম",
        marks: "\u{9be}\u{9cd}",
        joined: &["যব"],
        ..LATIN
    },
    Script {
        tag: b"Thai",
        letters: "ขาวสลี",
        marks: "\u{e35}\u{e48}",
        joined: &[],
        space: '\u{2003}',
        ..LATIN
    },
    Script {
        tag: b"Ethi",
        letters: "ገብስስንዴ",
        marks: "",
        joined: &[],
        space: '\u{1361}',
        ..LATIN
    },
    Script {
        tag: b"Hani",
        letters: "大麦小麦区画",
        marks: "",
        joined: &[],
        space: '\u{3000}',
        upright: true,
        ..LATIN
    },
    Script {
        tag: b"Hira",
        letters: "おおむぎ",
        marks: "\u{3099}",
        joined: &["おお"],
        space: '\u{3000}',
        upright: true,
        ..LATIN
    },
    Script {
        tag: b"Hang",
        letters: "보리밀",
        marks: "",
        joined: &[],
        upright: true,
        ..LATIN
    },
    Script {
        tag: b"Mong",
        letters: "ᠠᠷᠪᠠᠢ",
        marks: "",
        joined: &["ᠠᠷ"],
        ..LATIN
    },
    Script {
        tag: b"Linb",
        letters: "𐀀𐀁𐀂",
        marks: "",
        joined: &["𐀀𐀁"],
        space: '\u{10100}',
        ..LATIN
    },
    Script {
        tag: b"Cprt",
        letters: "𐠀𐠁",
        marks: "",
        joined: &[],
        space: '\u{10101}',
        right_to_left: true,
        ..LATIN
    },
    Script {
        tag: b"Ugar",
        letters: "𐎀𐎁𐎂",
        marks: "",
        joined: &[],
        space: '\u{1039f}',
        ..LATIN
    },
    Script {
        tag: b"Phnx",
        letters: "𐤀𐤁𐤂",
        marks: "",
        joined: &[],
        space: '\u{1091f}',
        right_to_left: true,
        ..LATIN
    },
    Script {
        tag: b"Zyyy",
        letters: "🌾😀",
        marks: "\u{200d}\u{fe0f}",
        joined: &["🌾😀"],
        upright: true,
        ..LATIN
    },
];

/// A part of the text in one script.
struct Part {
    script: &'static Script,
    text: String,
}

/// How a font shapes. Fonts that differ here make the merge insert and remove.
#[derive(Clone, Copy)]
struct Shaper {
    font: u8,
    /// A font for glyphs that the first one lacks.
    fallback: u8,
    joins: bool,
    /// A letter and its marks are one cluster; else each character is one.
    clusters: bool,
    /// A cluster has one glyph, its marks drawn into it.
    composes: bool,
}

pub fn job(random: &mut Random) -> Job {
    let fonts = random.pick(&[1, 1, 2, 3, 4]);
    let chunks = random.pick(&[1, 1, 1, 2, 2, 3, 4]);
    let mode = random.pick(&[0, 0, 1]);
    let shapers: Vec<Shaper> = (0..fonts).map(|i| shaper(i as u8, fonts, random)).collect();
    let mut maker = Maker::of_all(random);
    Job {
        version: 1,
        mode,
        fonts: (0..fonts).map(|_| maker.font()).collect(),
        dx: maker.list(),
        dy: maker.list(),
        rotate: maker.list(),
        chunks: (0..chunks).map(|_| chunk(&shapers, &mut maker)).collect(),
    }
}

fn shaper(font: u8, fonts: usize, random: &mut Random) -> Shaper {
    Shaper {
        font,
        fallback: random.below(fonts) as u8,
        joins: random.one_in(2),
        clusters: !random.one_in(4),
        composes: random.one_in(2),
    }
}

fn chunk(shapers: &[Shaper], maker: &mut Maker) -> Chunk {
    let count = maker.random.pick(&[1, 1, 1, 2, 3]);
    let parts: Vec<Part> = (0..count).map(|_| part(maker.random)).collect();
    let text: String = parts.iter().map(|part| part.text.as_str()).collect();
    let flags = maker.random.pick(&[0, 1, 2, 3, 3]);
    let x = if flags & 1 != 0 { maker.float() } else { 0 };
    let y = if flags & 2 != 0 { maker.float() } else { 0 };
    Chunk {
        flags,
        x,
        y,
        anchor: maker.random.below(3) as u8,
        flow: 0,
        spans: spans(&parts, &text, shapers, maker),
        text: text.into_bytes(),
    }
}

fn part(random: &mut Random) -> Part {
    let script = &SCRIPTS[random.below(SCRIPTS.len())];
    let letters: Vec<char> = script.letters.chars().collect();
    let marks: Vec<char> = script.marks.chars().collect();
    let mut text = String::new();
    for _ in 0..random.between(1, 8) {
        match random.below(8) {
            0 | 1 => text.push(script.space),
            2 if !script.joined.is_empty() => text.push_str(random.pick(script.joined)),
            _ => text.push(random.pick(&letters)),
        }
        while !marks.is_empty() && random.one_in(6) {
            text.push(random.pick(&marks));
        }
    }
    Part { script, text }
}

/// The text divided among spans, now and then with a gap or an empty span; each is shaped whole, as the Rust does.
fn spans(parts: &[Part], text: &str, shapers: &[Shaper], maker: &mut Maker) -> Vec<Span> {
    let count = maker.random.pick(&[1, 1, 1, 2, 2, 3, 4]);
    let mut from = 0;
    let mut spans = vec![];
    for left in (0..count).rev() {
        let even = boundary(text, from + (text.len() - from) / (left + 1));
        let end = if maker.random.one_in(12) { from } else { even };
        let shaper = maker.random.pick(shapers);
        let font = if maker.random.one_in(15) {
            NO_FONT
        } else {
            shaper.font
        };
        let mut span = maker.span_without_glyphs(from, end, font);
        if font != NO_FONT {
            span.glyphs = shaped(parts, shaper, maker);
        }
        spans.push(span);
        from = if maker.random.one_in(12) {
            boundary(text, (end + 1).min(text.len()))
        } else {
            end
        };
    }
    spans
}

/// The parts one after the other, right-to-left ones from their end.
fn shaped(parts: &[Part], shaper: Shaper, maker: &mut Maker) -> Vec<Glyph> {
    let mut glyphs = vec![];
    let mut start = 0;
    for part in parts {
        let mut clusters = clusters(part, start, shaper, maker);
        if part.script.right_to_left {
            clusters.reverse();
        }
        glyphs.extend(clusters.into_iter().flatten());
        start += part.text.len();
    }
    glyphs
}

fn clusters(part: &Part, start: usize, shaper: Shaper, maker: &mut Maker) -> Vec<Vec<Glyph>> {
    let mut clusters = vec![];
    let mut at = 0;
    while at < part.text.len() {
        let length = cluster_length(part.script, &part.text[at..], shaper);
        let characters = part.text[at..at + length].chars().count();
        let count = if shaper.composes {
            1
        } else {
            characters.min(4)
        };
        let glyph = |i: usize| glyph(part.script, start + at, length, shaper, i > 0, maker);
        clusters.push((0..count).map(glyph).collect());
        at += length;
    }
    clusters
}

/// The bytes of the first cluster: joined letters, or a letter, with the marks that follow.
fn cluster_length(script: &Script, text: &str, shaper: Shaper) -> usize {
    let joined = script.joined.iter().find(|j| text.starts_with(**j));
    let mut length = match joined {
        Some(joined) if shaper.joins => joined.len(),
        _ => text.chars().next().map_or(0, char::len_utf8),
    };
    if shaper.clusters {
        let marks = text[length..]
            .chars()
            .take_while(|c| script.marks.contains(*c));
        length += marks.map(char::len_utf8).sum::<usize>();
    }
    length.min(64)
}

fn glyph(
    script: &Script,
    index: usize,
    length: usize,
    shaper: Shaper,
    mark: bool,
    maker: &mut Maker,
) -> Glyph {
    let random = &mut *maker.random;
    let font = if random.one_in(15) {
        shaper.fallback
    } else {
        shaper.font
    };
    let odd = random.one_in(60);
    let length = if odd {
        random.between(1, 64) as usize
    } else {
        length
    };
    let width = if mark {
        random.pick(&[0, 0, 0, -60, 120])
    } else {
        random.between(180, 1800)
    };
    Glyph {
        id: random.below(70_000) as u32,
        byte_index: index as u16,
        cluster_length: length as u8,
        dx: if mark { maker.offset() } else { 0 },
        dy: if mark { maker.offset() } else { 0 },
        width: width as i32,
        font,
        tag: *script.tag,
        orientation: script.upright as u8,
    }
}
