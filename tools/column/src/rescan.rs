//! A window in Rust that looks at the last `span` labels again for each.

use crate::library::Width;
use crate::sides::{refusal, refused, Takes};

const PLACES: usize = 64;

pub struct Rescan {
    span: usize,
    labels: usize,
    extents: [f32; PLACES],
}

impl Takes for Rescan {
    fn open(span: u32) -> Rescan {
        Rescan {
            span: span as usize,
            labels: 0,
            extents: [0.0; PLACES],
        }
    }

    #[inline]
    fn add(&mut self, extent: f32) -> Width {
        let number = refusal(extent, self.labels as u32);
        if number != 0 {
            return refused(number);
        }
        self.extents[self.labels % PLACES] = extent;
        self.labels += 1;
        let mut width = 0.0;
        for i in self.labels.saturating_sub(self.span)..self.labels {
            let extent = self.extents[i % PLACES];
            if extent > width {
                width = extent;
            }
        }
        Width { number: 0, width }
    }
}
