//! What accepted jobs show: which values their fields have, how near they come to the limits, and what stands in their answers.

use std::collections::{BTreeMap, BTreeSet};

use oracle::decode::decode;
use oracle::form::{
    MOST_BYTES, MOST_CHUNKS, MOST_FONTS, MOST_GLYPHS, MOST_LIST, MOST_SHIFTS, MOST_SPANS, MOST_TEXT,
};
use oracle::job::{Chunk, Glyph, Job, Pattern, Span, NUMBER};
use oracle::rows::Kind;

use crate::cases::Case;
use crate::fields::walk;

#[derive(Default)]
pub struct Shown {
    /// Of each field of few values, those met.
    values: BTreeMap<&'static str, BTreeSet<u32>>,
    /// Of each count, the largest.
    counts: BTreeMap<&'static str, usize>,
    /// Of each float of a job, the edges met.
    edges: BTreeMap<&'static str, BTreeSet<Pattern>>,
    /// Of each float of an answer, the signs met, and of each flag whether it was.
    signs: BTreeMap<&'static str, BTreeSet<Sign>>,
    flags: u8,
}

#[derive(Clone, Copy, Debug, PartialEq, Eq, PartialOrd, Ord)]
enum Sign {
    Negative,
    MinusZero,
    Zero,
    Positive,
}

/// How many values a field has.
const VALUES: &[(&str, usize)] = &[
    ("writing mode", 2),
    ("chunk flags", 4),
    ("anchor", 3),
    ("span font or none", 2),
    ("length flag and adjust", 6),
    ("dominant baseline", 12),
    ("alignment baseline", 12),
    ("decorations", 8),
    ("shift kind", 4),
    ("cluster length", 64),
    ("orientation", 2),
];
const LIMITS: &[(&str, usize)] = &[
    ("record bytes", MOST_BYTES),
    ("fonts", MOST_FONTS),
    ("dx", MOST_LIST),
    ("dy", MOST_LIST),
    ("rotate", MOST_LIST),
    ("chunks", MOST_CHUNKS),
    ("text bytes", MOST_TEXT),
    ("spans", MOST_SPANS),
    ("shifts", MOST_SHIFTS),
    ("glyphs of a span", MOST_GLYPHS),
];
const FLOATS: &[&str] = &[
    "dx",
    "dy",
    "rotate",
    "x",
    "y",
    "letter spacing",
    "word spacing",
    "text length",
    "shift",
];
/// Zero, the least and the largest size, of both signs.
const EDGES: &[Pattern] = &[
    0,
    0x8000_0000,
    0x3580_0000,
    0xb580_0000,
    0x4980_0000,
    0xc980_0000,
];
const ALL_FLAGS: u8 = 63;

impl Shown {
    pub fn add(&mut self, case: &Case) {
        if let Ok(answer) = &case.outcome {
            self.job(&decode(&case.job).expect("accepted"), case.job.len());
            self.answer(answer);
        }
    }

    /// Prints it all, and says how much is missing: a value, a limit, an edge or a flag that no accepted job has.
    pub fn print(&self) -> usize {
        let mut missing = 0;
        let mut row = |name: &str, met: usize, all: usize| {
            missing += usize::from(met < all);
            println!("{met:>8} of {all:<6} {name}");
        };
        println!("values of a field");
        VALUES
            .iter()
            .for_each(|(name, all)| row(name, size(&self.values, name), *all));
        println!("largest counts");
        LIMITS
            .iter()
            .for_each(|(name, all)| row(name, self.counts.get(name).copied().unwrap_or(0), *all));
        println!("edges of a float: zero, 2^-20 and 2^20 of both signs");
        FLOATS
            .iter()
            .for_each(|name| row(name, size(&self.edges, name), EDGES.len()));
        println!("flags of a cluster");
        row(
            "flags",
            self.flags.count_ones() as usize,
            ALL_FLAGS.count_ones() as usize,
        );
        println!("signs in answers");
        for (name, signs) in &self.signs {
            println!("  {name}: {signs:?}");
        }
        missing
    }

    fn value(&mut self, name: &'static str, value: u32) {
        self.values.entry(name).or_default().insert(value);
    }

    fn count(&mut self, name: &'static str, count: usize) {
        let most = self.counts.entry(name).or_default();
        *most = count.max(*most);
    }

    fn float(&mut self, name: &'static str, x: Pattern) {
        if EDGES.contains(&x) {
            self.edges.entry(name).or_default().insert(x);
        }
    }

    fn job(&mut self, job: &Job, bytes: usize) {
        self.value("writing mode", job.mode as u32);
        self.count("record bytes", bytes);
        self.count("fonts", job.fonts.len());
        self.count("chunks", job.chunks.len());
        for (name, list) in [("dx", &job.dx), ("dy", &job.dy), ("rotate", &job.rotate)] {
            self.count(name, list.len());
            list.iter().for_each(|&x| self.float(name, x));
        }
        job.chunks.iter().for_each(|chunk| self.chunk(chunk));
    }

    fn chunk(&mut self, chunk: &Chunk) {
        self.value("chunk flags", chunk.flags as u32);
        self.value("anchor", chunk.anchor as u32);
        self.count("text bytes", chunk.text.len());
        self.count("spans", chunk.spans.len());
        if chunk.has_x() {
            self.float("x", chunk.x);
        }
        if chunk.has_y() {
            self.float("y", chunk.y);
        }
        chunk.spans.iter().for_each(|span| self.span(span));
    }

    fn span(&mut self, span: &Span) {
        self.value("span font or none", u32::from(span.font == u8::MAX));
        self.value(
            "length flag and adjust",
            (span.length_flag * 3 + span.adjust) as u32,
        );
        self.value("dominant baseline", span.dominant_baseline as u32);
        self.value("alignment baseline", span.alignment_baseline as u32);
        self.value("decorations", span.decorations as u32);
        self.count("shifts", span.shifts.len());
        self.count("glyphs of a span", span.glyphs.len());
        self.float("letter spacing", span.letter_spacing);
        self.float("word spacing", span.word_spacing);
        if span.length_flag == 1 {
            self.float("text length", span.text_length);
        }
        for shift in &span.shifts {
            self.value("shift kind", shift.kind as u32);
            if shift.kind == NUMBER {
                self.float("shift", shift.number);
            }
        }
        span.glyphs.iter().for_each(|glyph| self.glyph(glyph));
    }

    fn glyph(&mut self, glyph: &Glyph) {
        self.value("cluster length", glyph.cluster_length as u32);
        self.value("orientation", glyph.orientation as u32);
    }

    fn answer(&mut self, answer: &[u8]) {
        walk(answer, &mut |field| match field.kind {
            Kind::Plain => {}
            Kind::Flags => self.flags |= answer[field.place.start],
            Kind::Float => {
                let bits = answer[field.place].try_into().unwrap();
                let sign = sign(f32::from_bits(u32::from_be_bytes(bits)));
                self.signs.entry(field.name).or_default().insert(sign);
            }
        });
    }
}

fn size<T>(met: &BTreeMap<&'static str, BTreeSet<T>>, name: &str) -> usize {
    met.get(name).map_or(0, BTreeSet::len)
}

fn sign(x: f32) -> Sign {
    match x {
        x if x > 0.0 => Sign::Positive,
        x if x < 0.0 => Sign::Negative,
        x if x.is_sign_negative() => Sign::MinusZero,
        _ => Sign::Zero,
    }
}
