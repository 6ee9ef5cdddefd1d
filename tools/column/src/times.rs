//! Time a label: the best of many rounds, all rows, spans and sides in turn, so that what else the machine does falls on all.

use std::hint::black_box;
use std::time::Instant;

use crate::measured::{Shape, LABELS, SPANS};
use crate::sides::{Side, SIDES};

const ROUNDS: usize = 25;
const MOST_GROWTH: f64 = 1.5;

/// A row with a span, and the best time of each side.
struct Case {
    shape: Shape,
    span: u32,
    row: Vec<f32>,
    best: [f64; SIDES.len()],
}

pub fn print() -> Result<(), String> {
    let mut cases: Vec<Case> = Shape::ALL.into_iter().flat_map(cases_of).collect();
    for _ in 0..ROUNDS {
        for case in &mut cases {
            case.round()?;
        }
    }
    println!("nanoseconds a label, the best of {ROUNDS} rounds of {LABELS} labels");
    println!("row      span  library   called  inlined   rescan  library/called  library/inlined");
    for of_shape in cases.chunks(SPANS.len()) {
        of_shape.iter().for_each(Case::print);
        print_growth(&of_shape[0], &of_shape[SPANS.len() - 1]);
    }
    Ok(())
}

fn cases_of(shape: Shape) -> [Case; SPANS.len()] {
    SPANS.map(|span| Case {
        shape,
        span,
        row: shape.row(),
        best: [f64::INFINITY; SIDES.len()],
    })
}

impl Case {
    /// All sides once; they must give the same sum.
    fn round(&mut self) -> Result<(), String> {
        let mut sums = [0; SIDES.len()];
        for (i, side) in SIDES.into_iter().enumerate() {
            let (time, sum) = time(side, &self.row, self.span);
            self.best[i] = self.best[i].min(time);
            sums[i] = sum;
        }
        match sums.iter().all(|&sum| sum == sums[0]) {
            true => Ok(()),
            false => Err(format!("span {}: the sides give other widths", self.span)),
        }
    }

    fn print(&self) {
        let [library, called, inlined, rescan] = self.best;
        println!(
            "{:<8} {:>4} {library:>8.2} {called:>8.2} {inlined:>8.2} {rescan:>8.2} {:>15.3} {:>16.3}",
            self.shape.name(),
            self.span,
            library / called,
            library / inlined
        );
    }
}

/// Nanoseconds a label, and the sum.
fn time(side: Side, row: &[f32], span: u32) -> (f64, u64) {
    let start = Instant::now();
    let sum = black_box(side(black_box(row), black_box(span)));
    (start.elapsed().as_nanos() as f64 / row.len() as f64, sum)
}

fn print_growth(first: &Case, last: &Case) {
    let growth = last.best[0] / first.best[0];
    println!(
        "{:<8} the library, span {} over span {}: {growth:.3}, at most {MOST_GROWTH}: {}",
        first.shape.name(),
        last.span,
        first.span,
        verdict(growth <= MOST_GROWTH)
    );
}

pub fn verdict(held: bool) -> &'static str {
    if held {
        "met"
    } else {
        "missed"
    }
}
