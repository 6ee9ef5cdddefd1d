//! Rows of labels for windows of every span, and what is lent with each.

use crate::extents::{odd, Extents};
use crate::lender::MOST_WORDS;
use crate::random::Random;
use crate::rules::{extent_ok, RIGHT, WINDOW_WORDS};

/// One row in so many fills its window.
const LONG: usize = 100;
const FIRST_LONG: usize = 10;
const LABELS_PAST_FULL: usize = 60;

pub struct Row {
    pub span: u32,
    /// How many words are lent to open the window.
    pub words: usize,
    pub labels: Vec<Label>,
}

pub struct Label {
    pub extent: f32,
    pub words: usize,
}

impl Row {
    pub fn new(random: &mut Random, index: usize) -> Row {
        if index % LONG == FIRST_LONG {
            return long_row(random);
        }
        if random.one_in(6) {
            return odd_row(random);
        }
        window_row(random)
    }
}

fn window_row(random: &mut Random) -> Row {
    Row {
        span: good_span(random),
        words: enough_words(random),
        labels: some_labels(random),
    }
}

/// Mostly no window opens, so that the labels meet random words.
fn odd_row(random: &mut Random) -> Row {
    Row {
        span: any_span(random),
        words: random.below(MOST_WORDS + 1),
        labels: some_labels(random),
    }
}

/// As many labels as fill a window, and some more.
fn long_row(random: &mut Random) -> Row {
    let extents = Extents::new(random);
    let (mut labels, mut accepted) = (vec![], 0);
    while accepted < RIGHT.most_labels {
        let label = label(random, &extents, labels.len());
        accepted += (extent_ok(label.extent) && label.words >= WINDOW_WORDS) as usize;
        labels.push(label);
    }
    labels.extend((0..LABELS_PAST_FULL).map(|_| label_past_full(random)));
    Row {
        span: good_span(random),
        words: enough_words(random),
        labels,
    }
}

fn some_labels(random: &mut Random) -> Vec<Label> {
    let extents = Extents::new(random);
    let most = random.pick(&[3, 3, 3, 70, 200, 4_000]);
    let count = 1 + random.below(most);
    (0..count).map(|i| label(random, &extents, i)).collect()
}

fn label(random: &mut Random, extents: &Extents, i: usize) -> Label {
    Label {
        extent: extents.at(random, i),
        words: if random.one_in(40) {
            random.below(WINDOW_WORDS)
        } else {
            enough_words(random)
        },
    }
}

fn label_past_full(random: &mut Random) -> Label {
    Label {
        extent: odd(random),
        words: random.below(MOST_WORDS + 1),
    }
}

pub fn good_span(random: &mut Random) -> u32 {
    1 + random.below(64) as u32
}

fn any_span(random: &mut Random) -> u32 {
    match random.below(4) {
        0 => 0,
        1 => 65,
        2 => random.word() as u32,
        _ => good_span(random),
    }
}

fn enough_words(random: &mut Random) -> usize {
    WINDOW_WORDS + random.below(MOST_WORDS - WINDOW_WORDS + 1)
}
