//! The three sides behind one call.

use std::error::Error;

use crate::classes::classes;
use crate::encode::encode;
use crate::jobs::of_clusters;
use crate::lengths::{of_spans, Order};
use crate::{floor, library};

#[derive(Clone, Copy, PartialEq)]
pub enum Side {
    Library,
    Rust,
    /// Plain C without proofs: as fast as the call can be, or nearly.
    Floor,
}

impl Side {
    const ALL: [Side; 3] = [Side::Library, Side::Rust, Side::Floor];

    pub fn name(self) -> &'static str {
        match self {
            Side::Library => "library",
            Side::Rust => "rust",
            Side::Floor => "floor",
        }
    }

    pub fn named(name: &str) -> Result<Side, Box<dyn Error>> {
        let found = Side::ALL.into_iter().find(|side| side.name() == name);
        Ok(found.ok_or("a side is library, rust or floor")?)
    }
}

/// What is lent: three times the job's bytes, as README says; nobody clears it between calls.
pub fn buffer(job: &[u8]) -> Vec<u8> {
    vec![0; 3 * job.len()]
}

/// The function whose time and instructions are taken, under a name that a profiler finds.
#[no_mangle]
#[inline(never)]
pub fn measured_call(side: Side, job: &[u8], answer: &mut [u8]) -> (u32, u32) {
    match side {
        Side::Library => {
            let returned = library::call(job, answer);
            (returned.number, returned.length)
        }
        Side::Rust => plain::layout_text(job, answer),
        Side::Floor => floor::call(job, answer),
    }
}

pub fn call(side: Side, job: &[u8], answer: &mut [u8]) -> (u32, u32) {
    std::hint::black_box(measured_call(side, std::hint::black_box(job), answer))
}

/// The library and the floor give the right answer to each job that is timed: the Rust's, or document 02's where the Rust has no such job.
pub fn agree() -> Result<(), Box<dyn Error>> {
    let classes = classes().into_iter();
    let mut jobs: Vec<(Vec<u8>, Side)> = classes.map(|c| (c.job, c.beside.side)).collect();
    jobs.extend([64, 1_024].map(|clusters| (of_clusters(clusters), Side::Rust)));
    jobs.extend(Order::ALL.map(|order| (encode(&of_spans(32, order)), Side::Rust)));
    for (job, beside) in jobs {
        let mut right = buffer(&job);
        let returned = match beside {
            Side::Rust => call(Side::Rust, &job, &mut right),
            _ => call_amended(&job, &mut right),
        };
        for side in [Side::Library, Side::Floor] {
            let mut answer = buffer(&job);
            if call(side, &job, &mut answer) != returned || returned.0 != 0 || answer != right {
                return Err("the sides differ; run tools/beside and floor/agree".into());
            }
        }
    }
    Ok(())
}

fn call_amended(job: &[u8], answer: &mut [u8]) -> (u32, u32) {
    match amended::call::call(job, answer.len()) {
        Ok(right) => {
            answer[..right.len()].copy_from_slice(&right);
            (0, right.len() as u32)
        }
        Err(refusal) => (refusal.0 as u32, 0),
    }
}
