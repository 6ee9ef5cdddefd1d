//! A window in Rust at its best: only the labels that can still be the widest are kept, the widest first.

use crate::library::Width;
use crate::sides::{refusal, refused, Takes};

const PLACES: usize = 64;

pub struct Deque {
    span: u32,
    labels: u32,
    first: u32,
    end: u32,
    numbers: [u32; PLACES],
    extents: [f32; PLACES],
}

impl Deque {
    #[inline]
    fn before_end(&self) -> f32 {
        self.extents[self.end.wrapping_sub(1) as usize % PLACES]
    }
}

impl Takes for Deque {
    fn open(span: u32) -> Deque {
        Deque {
            span,
            labels: 0,
            first: 0,
            end: 0,
            numbers: [0; PLACES],
            extents: [0.0; PLACES],
        }
    }

    #[inline]
    fn add(&mut self, extent: f32) -> Width {
        let number = refusal(extent, self.labels);
        if number != 0 {
            return refused(number);
        }
        let first = self.first as usize % PLACES;
        if self.first != self.end && self.numbers[first] + self.span <= self.labels {
            self.first += 1;
        }
        while self.first != self.end && self.before_end() <= extent {
            self.end -= 1;
        }
        let end = self.end as usize % PLACES;
        self.numbers[end] = self.labels;
        self.extents[end] = extent + 0.0; // minus zero becomes plus zero
        self.end += 1;
        self.labels += 1;
        Width {
            number: 0,
            width: self.extents[self.first as usize % PLACES],
        }
    }
}
