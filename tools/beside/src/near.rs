//! Demand 3 on generated jobs: how far each cluster of the answer stands from its exact place, as a share of what is allowed.

use std::error::Error;

use oracle::answer::{ChunkRow, COLLAPSED};
use oracle::bytes::hex;
use oracle::decode::decode;
use oracle::job::{Chunk, Job, Span};

use crate::cases;
use crate::exact::{exact, Exact};
use crate::text::Text;
use crate::whole::Whole;

/// What is allowed depends on whether a span of the chunk has a text length. The two rules by which advances change are seen apart.
#[derive(Clone, Copy, PartialEq)]
pub enum Kind {
    Plain,
    Length,
    Natural,
}

impl Kind {
    pub const ALL: [Kind; 3] = [Kind::Plain, Kind::Length, Kind::Natural];

    fn of(chunk: &Chunk) -> Kind {
        let some = |has: fn(&Span) -> bool| chunk.spans.iter().any(has);
        if some(Span::has_natural_length) {
            Kind::Natural
        } else if some(|span| span.length_flag == 1) {
            Kind::Length
        } else {
            Kind::Plain
        }
    }

    /// An offset may be (g + 3) T / 2^sharpness from the exact one.
    pub fn sharpness(self) -> u32 {
        match self {
            Kind::Plain => 20,
            Kind::Length | Kind::Natural => 18,
        }
    }

    pub fn chunks(self) -> &'static str {
        match self {
            Kind::Plain => "chunks without a text length",
            Kind::Length => "chunks with a text length, none by adjust 2",
            Kind::Natural => "chunks with a text length by adjust 2",
        }
    }
}

/// A chunk, and the largest share of what is allowed in it.
pub struct Share {
    pub kind: Kind,
    pub clusters: usize,
    pub share: f64,
}

/// The chunks of an accepted job; one that breaks demand 3 is an error.
pub fn shares(job: &[u8]) -> Result<Vec<Share>, String> {
    let decoded = decode(job).expect("accepted");
    let rows = Text::of(&decoded).rows(&decoded).expect("accepted");
    let mut characters = 0;
    let mut shares = vec![];
    for (chunk, row) in decoded.chunks.iter().zip(&rows) {
        let share =
            share(&decoded, chunk, characters, row).map_err(|e| format!("{e}: {}", hex(job)))?;
        shares.push(Share {
            kind: Kind::of(chunk),
            clusters: row.clusters.len(),
            share,
        });
        characters += std::str::from_utf8(&chunk.text)
            .expect("accepted")
            .chars()
            .count();
    }
    Ok(shares)
}

/// All chunks of one kind, the largest share, and the job that has it.
struct Worst {
    kind: Kind,
    chunks: usize,
    clusters: usize,
    share: f64,
    job: String,
}

impl Worst {
    fn new(kind: Kind) -> Worst {
        Worst {
            kind,
            chunks: 0,
            clusters: 0,
            share: 0.0,
            job: String::new(),
        }
    }

    fn add(&mut self, chunk: &Share, job: &[u8]) {
        self.chunks += 1;
        self.clusters += chunk.clusters;
        if chunk.share > self.share {
            self.share = chunk.share;
            self.job = hex(job);
        }
    }

    fn print(&self) {
        println!(
            "{} {}, {} clusters: the largest distance is {:.6} of (g + 3) T / 2^{}",
            self.chunks,
            self.kind.chunks(),
            self.clusters,
            self.share,
            self.kind.sharpness()
        );
        println!("  {}", self.job);
    }
}

pub fn print(seed: u64, count: usize) -> Result<(), Box<dyn Error>> {
    let mut jobs = 0;
    let mut worst = Kind::ALL.map(Worst::new);
    for case in cases::all(seed, count).filter(|case| case.outcome.is_ok()) {
        jobs += 1;
        for chunk in shares(&case.job)? {
            worst[chunk.kind as usize].add(&chunk, &case.job);
        }
    }
    println!("accepted jobs {jobs}");
    worst.iter().for_each(Worst::print);
    Ok(())
}

fn share(job: &Job, chunk: &Chunk, characters: usize, row: &ChunkRow) -> Result<f64, String> {
    let collapsed: Vec<bool> = row
        .clusters
        .iter()
        .map(|c| c.flags & COLLAPSED != 0)
        .collect();
    let Some(exact) = exact(job, chunk, characters, &collapsed) else {
        return if row.clusters.is_empty() {
            Ok(0.0)
        } else {
            Err("clusters from nothing".into())
        };
    };
    let indexes: Vec<u16> = row.clusters.iter().map(|c| c.byte_index).collect();
    if indexes != exact.byte_indexes {
        return Err("not the exact layout's clusters".into());
    }
    let mut most = Whole::ZERO;
    for (i, cluster) in row.clusters.iter().enumerate() {
        if !cluster.shift.0.is_finite() {
            return Err(format!("shift x of cluster {i} is not finite"));
        }
        most = most.max(exact.distance(i, cluster.shift.0));
    }
    of_allowed(most, &exact, Kind::of(chunk).sharpness())
}

fn of_allowed(distance: Whole, exact: &Exact, sharpness: u32) -> Result<f64, String> {
    let distance = distance.shifted(sharpness);
    let allowed = exact.sizes.times(exact.glyphs as i64 + 3);
    if distance > allowed {
        return Err("further than demand 3 allows".into());
    }
    Ok(if distance == Whole::ZERO {
        0.0
    } else {
        distance.as_f64() / allowed.as_f64()
    })
}
