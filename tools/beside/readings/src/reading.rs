//! The switch: which wrong reading is on.

use std::sync::atomic::{AtomicUsize, Ordering};

include!(concat!(env!("OUT_DIR"), "/names.rs"));

const NONE: usize = usize::MAX;

static CHOSEN: AtomicUsize = AtomicUsize::new(NONE);

pub fn is(number: usize) -> bool {
    CHOSEN.load(Ordering::Relaxed) == number
}

/// The reading of this place in `NAMES`, or none.
pub fn choose(number: Option<usize>) {
    CHOSEN.store(number.unwrap_or(NONE), Ordering::Relaxed);
}
