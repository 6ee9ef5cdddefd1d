//! Demand 3 tried harder: from generated jobs on, bytes are changed at random, and a change that brings an answer further from the exact
//! layout, as a share of what is allowed, is kept.

use std::error::Error;

use oracle::bytes::hex;

use crate::cases;
use crate::near::{shares, Kind};
use crate::random::Random;
use crate::text::Text;

/// How often each climb begins anew, and how many jobs its first one is the best of.
const CLIMBS: usize = 16;
const FIRST_OF: usize = 500;

pub fn print(seed: u64, count: usize) -> Result<(), Box<dyn Error>> {
    for kind in Kind::ALL {
        let (share, job) = climbed(kind, seed, count / CLIMBS)?;
        println!(
            "{}: the largest distance found is {share:.6} of (g + 3) T / 2^{}",
            kind.chunks(),
            kind.sharpness()
        );
        println!("  {}", hex(&job));
    }
    Ok(())
}

/// The best of all climbs.
fn climbed(kind: Kind, seed: u64, steps: usize) -> Result<(f64, Vec<u8>), String> {
    let mut best = (0.0, vec![]);
    for climb in 0..CLIMBS as u64 {
        let seed = seed.wrapping_mul(1_000).wrapping_add(climb);
        let reached = climb_from(first(kind, seed)?, kind, &mut Random::new(seed), steps)?;
        if reached.0 > best.0 {
            best = reached;
        }
    }
    Ok(best)
}

fn first(kind: Kind, seed: u64) -> Result<(f64, Vec<u8>), String> {
    let mut best = (0.0, vec![]);
    for case in cases::small(seed, FIRST_OF) {
        let share = largest(kind, &case.job)?.unwrap_or(0.0);
        if share > best.0 {
            best = (share, case.job);
        }
    }
    Ok(best)
}

fn climb_from(
    start: (f64, Vec<u8>),
    kind: Kind,
    random: &mut Random,
    steps: usize,
) -> Result<(f64, Vec<u8>), String> {
    let (mut best, mut job) = start;
    for _ in 0..steps {
        let next = changed(&job, random);
        if let Some(share) = largest(kind, &next)? {
            if share >= best {
                (best, job) = (share, next);
            }
        }
    }
    Ok((best, job))
}

/// The largest share of the job's chunks of that kind, if it is accepted and has one.
fn largest(kind: Kind, job: &[u8]) -> Result<Option<f64>, String> {
    if Text::of_record(job).call(job, usize::MAX).is_err() {
        return Ok(None);
    }
    let of_kind = shares(job)?.into_iter().filter(|chunk| chunk.kind == kind);
    Ok(of_kind.map(|chunk| chunk.share).reduce(f64::max))
}

/// One to three bytes behind the length field changed.
fn changed(job: &[u8], random: &mut Random) -> Vec<u8> {
    let mut job = job.to_vec();
    for _ in 0..=random.below(3) {
        let at = random.between(4, job.len() as i64 - 1) as usize;
        job[at] = match random.below(4) {
            0 => random.below(256) as u8,
            1 => job[at].wrapping_add(1),
            2 => job[at].wrapping_sub(1),
            _ => job[at] ^ 1 << random.below(8),
        };
    }
    job
}
