//! Wrong readings: after how many jobs each is told apart from the right one.

use std::error::Error;
use std::panic::{self, catch_unwind};

use readings::reading::{choose, NAMES};

use crate::cases::{self, Case};

pub fn print(seed: u64, count: usize) -> Result<(), Box<dyn Error>> {
    quietly();
    let mut told: Vec<Option<usize>> = vec![None; NAMES.len()];
    for (job, case) in cases::all(seed, count).enumerate() {
        assert!(
            agrees(&case, None),
            "the text without a wrong reading differs"
        );
        for (number, told) in told.iter_mut().enumerate() {
            if told.is_none() && !agrees(&case, Some(number)) {
                *told = Some(job + 1);
            }
        }
        if told.iter().all(Option::is_some) {
            break;
        }
    }
    for (name, told) in NAMES.iter().zip(&told) {
        match told {
            Some(jobs) => println!("{jobs:>8}  {name}"),
            None => println!("   never  {name}"),
        }
    }
    let apart = told.iter().flatten().count();
    println!("told apart {apart} of {}", NAMES.len());
    if apart < NAMES.len() {
        return Err("a wrong reading is not told apart".into());
    }
    Ok(())
}

/// A wrong reading that panics says nothing.
pub fn quietly() {
    panic::set_hook(Box::new(|_| {}));
}

/// Whether the text with this reading gives the case's outcome. One that panics does not.
pub fn agrees(case: &Case, reading: Option<usize>) -> bool {
    choose(reading);
    let outcome = catch_unwind(|| readings::call::call(&case.job, case.lent));
    match (outcome, &case.outcome) {
        (Ok(Ok(answer)), Ok(right)) => answer == *right,
        (Ok(Err(refusal)), Err(right)) => refusal.0 == right.0,
        _ => false,
    }
}
