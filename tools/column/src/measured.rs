//! What is measured: three rows that fill a window.

use std::hint::black_box;

use crate::extents::width;
use crate::library;
use crate::random::Random;
use crate::rules::WINDOW_WORDS;

pub const SPANS: [u32; 4] = [1, 2, 8, 64];
pub const LABELS: usize = 65_535;

#[derive(Clone, Copy)]
pub enum Shape {
    Random,
    Rising,
    Falling,
}

impl Shape {
    pub const ALL: [Shape; 3] = [Shape::Random, Shape::Rising, Shape::Falling];

    pub fn name(self) -> &'static str {
        match self {
            Shape::Random => "random",
            Shape::Rising => "rising",
            Shape::Falling => "falling",
        }
    }

    pub fn named(name: &str) -> Result<Shape, &'static str> {
        let found = Shape::ALL.into_iter().find(|shape| shape.name() == name);
        found.ok_or("a row is random, rising or falling")
    }

    pub fn row(self) -> Vec<f32> {
        let mut random = Random::new(1);
        let extent = |i: usize| match self {
            Shape::Random => width(&mut random),
            Shape::Rising => (i + 1) as f32 / 32.0,
            Shape::Falling => (LABELS - i) as f32 / 32.0,
        };
        (0..LABELS).map(extent).collect()
    }
}

/// Only calls.
pub fn labels(shape: Shape, span: u32) -> Result<(), String> {
    let mut window = [0; WINDOW_WORDS];
    if library::open(&mut window, span).number != 0 {
        return Err("a span is 1 to 64".into());
    }
    for extent in shape.row() {
        black_box(library::add(&mut window, extent));
    }
    Ok(())
}
