//! The first label at which each wrong reading says otherwise than the library.

use crate::lender::Lender;
use crate::library::Width;
use crate::model::Window;
use crate::random::Random;
use crate::readings::{wrong, Reading};
use crate::rows::{Label, Row};
use crate::rules::{Rules, RIGHT};

const MOST_ROWS: usize = 2_000;

struct Try {
    reading: Reading,
    /// Where it was told apart.
    told: Option<String>,
}

/// What the library says to an opening, and to the labels of a row where the window opens.
struct Answers {
    open: Width,
    labels: Vec<Width>,
}

pub fn print(seed: u64) -> Result<(), String> {
    let mut random = Random::new(seed);
    let mut tries: Vec<Try> = wrong().into_iter().map(new_try).collect();
    let mut control = new_try(Reading {
        name: "the rules themselves",
        rules: RIGHT,
    });
    let mut labels = 0;
    for index in 0..MOST_ROWS {
        let row = Row::new(&mut random, index);
        let answers = answers(&row, &mut random);
        for reading in tries.iter_mut().chain([&mut control]) {
            reading.go_on(&row, &answers, labels);
        }
        labels += row.labels.len();
        if tries.iter().all(|reading| reading.told.is_some()) {
            break;
        }
    }
    tries.iter().chain([&control]).for_each(Try::print);
    println!("labels {labels}");
    verdict(&tries, &control)
}

fn new_try(reading: Reading) -> Try {
    let told = None;
    Try { reading, told }
}

fn answers(row: &Row, random: &mut Random) -> Answers {
    let mut lender = Lender::new();
    lender.fill(random);
    let open = lender.open(row.words, row.span).answer;
    let mut add = |label: &Label| lender.add(label.words, label.extent).answer;
    let labels = match open.number {
        0 => row.labels.iter().map(&mut add).collect(),
        _ => vec![],
    };
    Answers { open, labels }
}

impl Try {
    fn go_on(&mut self, row: &Row, answers: &Answers, before: usize) {
        if self.told.is_none() {
            self.told = difference(self.reading.rules, row, answers, before);
        }
    }

    fn print(&self) {
        let told = self.told.as_deref().unwrap_or("not told apart");
        println!("{:<28} {told}", self.reading.name);
    }
}

/// Where in the row these rules say otherwise, if anywhere.
fn difference(rules: Rules, row: &Row, answers: &Answers, before: usize) -> Option<String> {
    let opened = Window::open(rules, row.span, row.words);
    let number = opened.as_ref().err().copied().unwrap_or(0);
    if number != answers.open.number {
        return Some(format!(
            "opening before label {}, span {}, {} words: library {}, reading {number}",
            before + 1,
            row.span,
            row.words,
            answers.open.number
        ));
    }
    let mut window = opened.ok()?;
    for (i, (label, answer)) in row.labels.iter().zip(&answers.labels).enumerate() {
        let read = window.add(label.extent, label.words);
        if !read.same(*answer) {
            return Some(format!(
                "label {} ({} of its row), span {}, extent {:?}, {} words: library {}, reading {}",
                before + i + 1,
                i + 1,
                row.span,
                label.extent,
                label.words,
                answer.shown(),
                read.shown()
            ));
        }
    }
    None
}

fn verdict(tries: &[Try], control: &Try) -> Result<(), String> {
    let missed = tries.iter().filter(|reading| reading.told.is_none());
    match (missed.count(), &control.told) {
        (0, None) => Ok(()),
        (0, Some(_)) => Err("the library differs from the rules".into()),
        (missed, _) => Err(format!("{missed} wrong readings are not told apart")),
    }
}
