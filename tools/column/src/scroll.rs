//! Two windows down one row, one from the top and one from a random place: once the later has taken a whole span, the widths are the same.

use crate::extents::Extents;
use crate::library;
use crate::random::Random;
use crate::rows::good_span;
use crate::rules::{RIGHT, WINDOW_WORDS};

/// One row in so many is longer than a window takes.
const LONG: usize = 60;

struct Row {
    span: u32,
    start: usize,
    extents: Vec<f32>,
}

#[derive(Default)]
struct Tally {
    labels: usize,
    refused: usize,
    only_later: usize,
    early: usize,
    early_differ: usize,
    compared: usize,
    differences: usize,
    first: Option<String>,
}

pub fn print(seed: u64, labels: usize) -> Result<(), String> {
    let mut random = Random::new(seed);
    let mut tally = Tally::default();
    while tally.labels < labels {
        tally.scroll(&new_row(&mut random));
    }
    tally.print();
    match tally.differences {
        0 => Ok(()),
        _ => Err("a width depends on where the window begins".into()),
    }
}

fn new_row(random: &mut Random) -> Row {
    let extents = Extents::new(random);
    let length = if random.one_in(LONG) {
        RIGHT.most_labels + random.below(70_000)
    } else {
        1 + random.below(2_000)
    };
    Row {
        span: good_span(random),
        start: random.below(length),
        extents: (0..length).map(|i| extents.at(random, i)).collect(),
    }
}

impl Tally {
    fn scroll(&mut self, row: &Row) {
        let (mut top, mut later) = ([0; WINDOW_WORDS], [0; WINDOW_WORDS]);
        library::open(&mut top, row.span);
        library::open(&mut later, row.span);
        let mut taken = 0;
        for (i, &extent) in row.extents.iter().enumerate() {
            self.labels += 1;
            let from_top = library::add(&mut top, extent);
            if i < row.start {
                continue;
            }
            let from_later = library::add(&mut later, extent);
            match (from_top.number, from_later.number) {
                (0, 0) => {
                    taken += 1;
                    let same = from_top.same(from_later);
                    self.note(taken >= row.span, same, || shown(row, i));
                }
                (3, 0) => self.only_later += 1,
                (one, other) if one == other => self.refused += 1,
                _ => self.differ(|| shown(row, i)),
            }
        }
    }

    /// A label that both took; whether the later had taken a whole span with it, and whether the widths are the same.
    fn note(&mut self, filled: bool, same: bool, what: impl FnOnce() -> String) {
        if !filled {
            self.early += 1;
            self.early_differ += !same as usize;
            return;
        }
        self.compared += 1;
        if !same {
            self.differ(what);
        }
    }

    fn differ(&mut self, what: impl FnOnce() -> String) {
        self.differences += 1;
        self.first.get_or_insert_with(what);
    }

    fn print(&self) {
        println!("labels {}", self.labels);
        println!("refused by both {}", self.refused);
        println!(
            "taken by the later alone, the top's being full {}",
            self.only_later
        );
        println!(
            "before the later had a whole span {}, of these other widths {}",
            self.early, self.early_differ
        );
        println!(
            "compared {}, differences {}",
            self.compared, self.differences
        );
        if let Some(first) = &self.first {
            println!("the first: {first}");
        }
    }
}

fn shown(row: &Row, i: usize) -> String {
    format!(
        "span {}, the later from label {}, at label {}",
        row.span,
        row.start + 1,
        i + 1
    )
}
