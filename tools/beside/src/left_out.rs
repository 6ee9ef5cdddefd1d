//! Jobs that are left out of the comparison with the Rust, since document 02 has them laid out otherwise.

use oracle::job::{Job, Span};

use crate::tables::ROHINGYA;

#[derive(Clone, Copy)]
pub enum Reason {
    Rohingya,
    Natural,
    Both,
}

/// What a job has that is left out for each of these.
const HAVING: [&str; 3] = [
    "the tag Rohg and letter spacing",
    "a text length by adjust 2",
    "both",
];

/// None where the Rust is right.
pub fn reason(job: &Job) -> Option<Reason> {
    match (is_rohingya_spaced(job), has_natural_length(job)) {
        (false, false) => None,
        (true, false) => Some(Reason::Rohingya),
        (false, true) => Some(Reason::Natural),
        (true, true) => Some(Reason::Both),
    }
}

/// A glyph has the tag Rohg, and a span, of whatever chunk, letter spacing that is not zero.
fn is_rohingya_spaced(job: &Job) -> bool {
    let mut glyphs = spans(job).flat_map(|span| &span.glyphs);
    let spaced = || spans(job).any(|span| f32::from_bits(span.letter_spacing) != 0.0);
    glyphs.any(|glyph| glyph.tag == *ROHINGYA) && spaced()
}

fn has_natural_length(job: &Job) -> bool {
    spans(job).any(Span::has_natural_length)
}

fn spans(job: &Job) -> impl Iterator<Item = &Span> {
    job.chunks.iter().flat_map(|chunk| &chunk.spans)
}

/// How many jobs are left out, by reason.
#[derive(Default)]
pub struct ByReason([usize; HAVING.len()]);

impl ByReason {
    pub fn add(&mut self, job: &Job) {
        if let Some(reason) = reason(job) {
            self.0[reason as usize] += 1;
        }
    }

    /// What the jobs have, and how many there are.
    pub fn rows(&self) -> impl Iterator<Item = (&'static str, usize)> {
        HAVING.into_iter().zip(self.0)
    }
}
