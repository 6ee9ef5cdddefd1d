//! Transforms composed by the Rust's own operations. tools/beside/README.md says how to use it.

mod compare;
mod recipe;
mod rust;
mod tables;
mod tally;
#[cfg(test)]
mod tests;
mod transforms;
mod wrong;

use std::env;
use std::error::Error;
use std::process::exit;

use beside::cases::{self, Case};
use beside::encode::encode;
use beside::left_out::ByReason;
use beside::text::Text;
use oracle::decode::decode;
use oracle::job::{self, Job};

use compare::Found;
use rust::Lookups;
use tables::Scripts;
use wrong::WRONG;

type Done = Result<(), Box<dyn Error>>;

const USAGE: &str = "\
composed transforms SEED COUNT  the library's rows composed, beside the Rust's transforms
composed tables SEED COUNT      the same, with scripts and orientations from the Unicode tables
";

fn main() -> Done {
    let words: Vec<String> = env::args().skip(1).collect();
    let words: Vec<&str> = words.iter().map(String::as_str).collect();
    match words[..] {
        ["transforms", seed, count] => transforms(seed.parse()?, count.parse()?),
        ["tables", seed, count] => by_tables(seed.parse()?, count.parse()?),
        _ => {
            eprint!("{USAGE}");
            exit(2)
        }
    }
}

fn transforms(seed: u64, count: usize) -> Done {
    let mut found = Found::new(Lookups::FirstGlyph, WRONG);
    let mut left_out = LeftOut::default();
    for (number, case) in accepted(seed, count) {
        let job = decode(&case.job).expect("accepted");
        if case.text == Text::Amended {
            left_out.add(&job);
            continue;
        }
        found.add(number, &case.job, &job);
    }
    left_out.print();
    Ok(found.verdict()?)
}

fn by_tables(seed: u64, count: usize) -> Done {
    let mut found = Found::new(Lookups::Tables, &[]);
    let mut scripts = Scripts::default();
    let mut refused = 0;
    let mut left_out = LeftOut::default();
    for (number, case) in accepted(seed, count) {
        let mut job = decode(&case.job).expect("accepted");
        tables::fill(&mut job);
        let bytes = encode(&job);
        if Text::of(&job) == Text::Amended {
            left_out.add(&job);
            continue;
        }
        // Other tags may collapse all that was to be stretched: 9.
        if Text::Rust.call(&bytes, usize::MAX).is_err() {
            refused += 1;
            continue;
        }
        scripts.add(&job);
        found.add(number, &bytes, &job);
    }
    left_out.print();
    println!("refused with the tables' tags, and left out: {refused}");
    scripts.print();
    Ok(found.verdict()?)
}

/// The jobs of which the Rust's text is not right.
#[derive(Default)]
struct LeftOut {
    jobs: usize,
    by_reason: ByReason,
}

impl LeftOut {
    fn add(&mut self, job: &Job) {
        self.jobs += 1;
        self.by_reason.add(job);
    }

    fn print(&self) {
        println!("left out: {}", self.jobs);
        for (reason, jobs) in self.by_reason.rows() {
            println!("  with {reason}: {jobs}");
        }
    }
}

fn accepted(seed: u64, count: usize) -> impl Iterator<Item = (usize, Case)> {
    let numbered = cases::all(seed, count).enumerate();
    numbered.filter(|(_, case)| case.outcome.is_ok())
}
