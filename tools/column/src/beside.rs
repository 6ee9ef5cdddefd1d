//! Labels through the library, each call held to the rules.

use crate::lender::{Called, Lender};
use crate::library::Width;
use crate::model::Window;
use crate::random::Random;
use crate::rows::{Label, Row};
use crate::rules::{Lent, RIGHT};
use crate::tally::Tally;

pub fn print(seed: u64, labels: u64) -> Result<(), String> {
    let mut random = Random::new(seed);
    let mut tally = Tally::default();
    for index in 0.. {
        let row = Row::new(&mut random, index);
        try_row(&row, &mut random, &mut tally);
        if tally.labels >= labels {
            break;
        }
    }
    tally.print();
    tally.verdict()
}

fn try_row(row: &Row, random: &mut Random, tally: &mut Tally) {
    let mut lender = Lender::new();
    lender.fill(random);
    match open(row, &mut lender, tally) {
        Ok(window) => try_window(row, window, &mut lender, tally),
        Err(_) => try_any_words(row, random, &mut lender, tally),
    }
}

fn open(row: &Row, lender: &mut Lender, tally: &mut Tally) -> Result<Window, u32> {
    let window = Window::open(RIGHT, row.span, row.words);
    let called = lender.open(row.words, row.span);
    let right = Width {
        number: window.as_ref().err().copied().unwrap_or(0),
        width: 0.0,
    };
    tally.opened.note(called.answer.number);
    hold(&called, right, tally, || {
        format!("opened with span {} in {} words", row.span, row.words)
    });
    window
}

fn try_window(row: &Row, mut window: Window, lender: &mut Lender, tally: &mut Tally) {
    for (i, label) in row.labels.iter().enumerate() {
        let right = window.add(label.extent, label.words);
        let called = lender.add(label.words, label.extent);
        note(&called, tally);
        hold(&called, right, tally, || shown(row, i));
    }
    tally.windows += 1;
    tally.whole_spans += (window.labels() >= row.span as usize) as u64;
    tally.full += window.is_full() as u64;
}

/// Of these only the number of a label is known, and the width of a refusal.
fn try_any_words(row: &Row, random: &mut Random, lender: &mut Lender, tally: &mut Tally) {
    for (i, label) in row.labels.iter().enumerate() {
        lender.fill(random);
        let number = number_on_any_words(label, lender);
        let called = lender.add(label.words, label.extent);
        let width = if number == 0 {
            called.answer.width
        } else {
            0.0
        };
        note(&called, tally);
        tally.on_any_words += 1;
        hold(&called, Width { number, width }, tally, || {
            format!("on words that no call left: {}", shown(row, i))
        });
    }
}

fn number_on_any_words(label: &Label, lender: &Lender) -> u32 {
    let lent = Lent::of(lender.words(label.words));
    RIGHT.refusal_of_label(label.extent, &lent)
}

fn note(called: &Called, tally: &mut Tally) {
    tally.labels += 1;
    tally.added.note(called.answer.number);
}

fn hold(called: &Called, right: Width, tally: &mut Tally, what: impl Fn() -> String) {
    let answer = called.answer;
    if !answer.same(right) {
        tally.differ(|| {
            let (is, should) = (answer.shown(), right.shown());
            format!("{}: the library {is}, the rules {should}", what())
        });
    }
    if let Some(at) = called.moved {
        tally.differ(|| format!("{}: word {at} moved", what()));
    }
}

fn shown(row: &Row, i: usize) -> String {
    let label = &row.labels[i];
    format!(
        "span {}, label {} with extent {:?} in {} words",
        row.span,
        i + 1,
        label.extent,
        label.words
    )
}
