//! What the counted text calls, and what was counted.

use std::sync::atomic::{AtomicU64, Ordering};

include!(concat!(env!("OUT_DIR"), "/branches.rs"));

/// A way that the Rust's text can take: in which function, by what text, and which counters tell.
pub struct Branch {
    pub function: &'static str,
    pub text: &'static str,
    pub way: &'static str,
    counter: usize,
    /// Where only the other way has a counter, this is that counter and the first one counts both.
    less: Option<usize>,
}

static COUNTS: [AtomicU64; COUNTERS] = [const { AtomicU64::new(0) }; COUNTERS];

pub fn hit(counter: usize) {
    COUNTS[counter].fetch_add(1, Ordering::Relaxed);
}

/// A condition with two counters, the second for false.
pub fn told(counter: usize, held: bool) -> bool {
    hit(if held { counter } else { counter + 1 });
    held
}

/// What a pattern is matched with.
pub fn seen<T>(counter: usize, value: T) -> T {
    hit(counter);
    value
}

pub trait Counted {
    fn counted(self, counter: usize) -> Self;
}

impl<T> Counted for Option<T> {
    fn counted(self, counter: usize) -> Self {
        told(counter, self.is_some());
        self
    }
}

pub fn reset() {
    COUNTS
        .iter()
        .for_each(|count| count.store(0, Ordering::Relaxed));
}

impl Branch {
    pub fn taken(&self) -> u64 {
        let count = |counter: usize| COUNTS[counter].load(Ordering::Relaxed);
        count(self.counter) - self.less.map_or(0, count)
    }
}
