//! Comparisons of extents a label: how often callgrind saw each instruction that makes one.

use std::error::Error;

use crate::callgrind::{executed, Executed};
use crate::machine::Code;
use crate::measured::{Shape, LABELS, SPANS};
use crate::times::verdict;

const MOST: f64 = 3.0;

pub fn print() -> Result<(), Box<dyn Error>> {
    let code = Code::of_this_program()?;
    println!("comparisons of extents a label, over {LABELS} labels");
    println!("row      span  comparisons");
    let mut most = 0.0f64;
    for span in SPANS {
        let rows = rows(span)?;
        see_that_all_is_found(&code, &rows[0])?;
        see_that_rows_are_alike(&rows)?;
        for (shape, row) in Shape::ALL.into_iter().zip(&rows) {
            let mean = mean(&code, row);
            println!("{:<8} {span:>4} {mean:>12.3}", shape.name());
            most = most.max(mean);
        }
        if span == SPANS[SPANS.len() - 1] {
            print_compares(&code, &rows[0]);
        }
    }
    let verdict = verdict(most <= MOST);
    println!("the most {most:.3}, at most {MOST}: {verdict}");
    Ok(())
}

fn rows(span: u32) -> Result<Vec<Executed>, Box<dyn Error>> {
    let rows = Shape::ALL.into_iter().map(|shape| executed(shape, span));
    rows.collect()
}

fn mean(code: &Code, row: &Executed) -> f64 {
    let count = |at| code.comparisons(at) * times(code, row, at);
    code.places().map(count).sum::<u64>() as f64 / LABELS as f64
}

fn times(code: &Code, row: &Executed, at: usize) -> u64 {
    row.get(&code.address(at)).copied().unwrap_or(0)
}

/// objdump shows each instruction that callgrind saw.
fn see_that_all_is_found(code: &Code, row: &Executed) -> Result<(), &'static str> {
    let found = code.places().filter(|&at| times(code, row, at) != 0);
    match row.is_empty() || found.count() != row.len() {
        true => Err("callgrind saw other instructions than objdump shows"),
        false => Ok(()),
    }
}

/// A branch on a comparison of extents is not counted. Where there is one, some instruction is executed more often in one row than in
/// another.
fn see_that_rows_are_alike(rows: &[Executed]) -> Result<(), &'static str> {
    match rows.iter().all(|row| *row == rows[0]) {
        true => Ok(()),
        false => Err("the rows take other branches: comparisons may be missing"),
    }
}

/// Each instruction executed that compares, so that it can be seen what is counted and what is not.
fn print_compares(code: &Code, row: &Executed) {
    println!(
        "instructions that compare, random row, span 64: how often a label, and what comes of them"
    );
    let compares = code.places().filter(|&at| code.compares(at));
    for at in compares.filter(|&at| times(code, row, at) != 0) {
        println!(
            "{} {:>6.3}  {}",
            ["not counted", "counted    "][(code.comparisons(at) != 0) as usize],
            times(code, row, at) as f64 / LABELS as f64,
            code.shown(at)
        );
    }
}
