//! Seeded runs of cases, each with its right outcome.

use oracle::bytes::hex;
use oracle::job::{Chunk, Glyph, Job, Span};
use oracle::refusal::Refusal;

use crate::damage::damaged;
use crate::encode::encode;
use crate::random::Random;
use crate::text::Text;
use crate::{generate, labels, limits};

pub struct Case {
    pub job: Vec<u8>,
    pub lent: usize,
    /// Whose outcome it is.
    pub text: Text,
    pub outcome: Result<Vec<u8>, Refusal>,
}

const LARGE: usize = 65_536;

/// Small ones, which the prover can compute.
pub fn small(seed: u64, count: usize) -> impl Iterator<Item = Case> {
    let mut random = Random::new(seed);
    (0..count).map(move |_| {
        let job = small_job(&mut random);
        case(job, &mut random)
    })
}

/// Of every kind and size.
pub fn all(seed: u64, count: usize) -> impl Iterator<Item = Case> {
    let mut random = Random::new(seed);
    (0..count).map(move |_| {
        let job = any_job(&mut random);
        case(job, &mut random)
    })
}

fn small_job(random: &mut Random) -> Vec<u8> {
    match random.below(200) {
        0..=2 => encode(&crowded(random)),
        3..=70 => damaged(generate::job(random), random),
        _ => encode(&generate::job(random)),
    }
}

fn any_job(random: &mut Random) -> Vec<u8> {
    match random.below(1_000) {
        0..=5 => encode(&limits::large(random)),
        6..=15 => encode(&limits::at_a_limit(random)),
        16..=399 => encode(&labels::job(random)),
        400..=499 => damaged(labels::job(random), random),
        _ => small_job(random),
    }
}

/// A job with a large buffer lent.
pub fn of_job(job: Vec<u8>) -> Case {
    let text = Text::of_record(&job);
    Case {
        outcome: text.call(&job, LARGE),
        lent: LARGE,
        text,
        job,
    }
}

fn case(job: Vec<u8>, random: &mut Random) -> Case {
    let text = Text::of_record(&job);
    let outcome = text.call(&job, usize::MAX);
    let whole = parts(&outcome).1.len();
    let lent = lent_length(whole, random);
    let outcome = if whole > lent {
        text.call(&job, lent)
    } else {
        outcome
    };
    Case {
        job,
        lent,
        text,
        outcome,
    }
}

fn lent_length(whole: usize, random: &mut Random) -> usize {
    match random.below(8) {
        0 => whole,
        1 => whole.saturating_sub(1),
        2 => random.pick(&[0, whole + 1]),
        _ => LARGE,
    }
}

/// A chunk whose first span all but fills the merged list, and whose second inserts into it: 8, or just not.
fn crowded(random: &mut Random) -> Job {
    loop {
        let job = generate::job(random);
        if let Some(chunk) = crowd(&job, random) {
            return Job {
                chunks: vec![chunk],
                ..job
            };
        }
    }
}

/// Made from the job's first chunk that has a glyph.
fn crowd(job: &Job, random: &mut Random) -> Option<Chunk> {
    let shaped = |span: &&Span| !span.glyphs.is_empty();
    let (chunk, model) = job
        .chunks
        .iter()
        .find_map(|c| Some((c, c.spans.iter().find(shaped)?)))?;
    let long = Glyph {
        byte_index: 0,
        cluster_length: 3,
        ..model.glyphs[0].clone()
    };
    let short = Glyph {
        cluster_length: 1,
        ..long.clone()
    };
    let span = |start, end, glyphs| Span {
        start,
        end,
        glyphs,
        ..model.clone()
    };
    let first = span(0, 0, vec![long; 1_024 - random.below(2)]);
    let second = span(0, 1, vec![short; 2 + random.below(2)]);
    Some(Chunk {
        text: b"A".to_vec(),
        spans: vec![first, second],
        ..chunk.clone()
    })
}

impl Case {
    /// Job, lent length, number and answer, as a line of cases.txt has them.
    pub fn line(&self) -> String {
        let (number, answer) = parts(&self.outcome);
        format!(
            "{} {} {} {}",
            word(&self.job),
            self.lent,
            number,
            word(answer)
        )
    }
}

pub fn parts(outcome: &Result<Vec<u8>, Refusal>) -> (u8, &[u8]) {
    match outcome {
        Ok(answer) => (0, answer),
        Err(refusal) => (refusal.0, &[]),
    }
}

/// Bytes in hex, or a dash for none, so that a line always has four words.
pub fn word(bytes: &[u8]) -> String {
    if bytes.is_empty() {
        "-".to_string()
    } else {
        hex(bytes)
    }
}
