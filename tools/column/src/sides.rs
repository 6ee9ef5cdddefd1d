//! What is timed side by side: a row through the library, and through windows in Rust.

use crate::deque::Deque;
use crate::library::{self, Width};
use crate::rescan::Rescan;
use crate::rules::WINDOW_WORDS;

/// A window that takes labels.
pub trait Takes {
    fn open(span: u32) -> Self;
    fn add(&mut self, extent: f32) -> Width;
}

struct Library([u32; WINDOW_WORDS]);

impl Takes for Library {
    fn open(span: u32) -> Library {
        let mut words = [0; WINDOW_WORDS];
        library::open(&mut words, span);
        Library(words)
    }

    #[inline]
    fn add(&mut self, extent: f32) -> Width {
        library::add(&mut self.0, extent)
    }
}

/// The deque behind a call, as the library is: it is not inlined, and its state stays in memory from label to label.
struct Called(Deque);

impl Takes for Called {
    fn open(span: u32) -> Called {
        Called(Deque::open(span))
    }

    #[inline(never)]
    fn add(&mut self, extent: f32) -> Width {
        self.0.add(extent)
    }
}

/// A row through a window; the sum of the widths' patterns and of the numbers.
pub type Side = fn(&[f32], u32) -> u64;

pub const SIDES: [Side; 4] = [
    sum_of::<Library>,
    sum_of::<Called>,
    sum_of::<Deque>,
    sum_of::<Rescan>,
];

fn sum_of<W: Takes>(row: &[f32], span: u32) -> u64 {
    let mut window = W::open(span);
    let mut sum = 0;
    for &extent in row {
        let answer = window.add(extent);
        sum += answer.width.to_bits() as u64 + answer.number as u64;
    }
    sum
}

/// The refusals of a label as far as a window in Rust has them, or 0.
#[inline]
pub fn refusal(extent: f32, labels: u32) -> u32 {
    if !(0.0..f32::INFINITY).contains(&extent) {
        return 4;
    }
    if labels >= 65_535 {
        return 3;
    }
    0
}

#[inline]
pub fn refused(number: u32) -> Width {
    Width { number, width: 0.0 }
}
