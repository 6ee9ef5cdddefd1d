//! Words that are lent to the library, with more behind them; after each call it is seen which moved.

use crate::library::{self, Width};
use crate::random::Random;
use crate::rules::WINDOW_WORDS;

/// The most that is lent; some words more stand behind.
pub const MOST_WORDS: usize = 90;
const ALL_WORDS: usize = MOST_WORDS + 6;

pub struct Lender {
    words: [u32; ALL_WORDS],
}

/// The answer, and the first word that moved and had to stay.
pub struct Called {
    pub answer: Width,
    pub moved: Option<usize>,
}

impl Lender {
    pub fn new() -> Lender {
        Lender {
            words: [0; ALL_WORDS],
        }
    }

    /// Random words; the first three are often like those of a window.
    pub fn fill(&mut self, random: &mut Random) {
        self.words.fill_with(|| random.word() as u32);
        for (word, most) in self.words.iter_mut().zip([66, 65_540, 66]) {
            if !random.one_in(4) {
                *word = random.below(most) as u32;
            }
        }
    }

    pub fn words(&self, count: usize) -> &[u32] {
        &self.words[..count]
    }

    pub fn open(&mut self, words: usize, span: u32) -> Called {
        self.call(words, |window| library::open(window, span))
    }

    pub fn add(&mut self, words: usize, extent: f32) -> Called {
        self.call(words, |window| library::add(window, extent))
    }

    /// A refusal leaves every word, any other call those past the window.
    fn call(&mut self, words: usize, call: impl FnOnce(&mut [u32]) -> Width) -> Called {
        let before = self.words;
        let answer = call(&mut self.words[..words]);
        let first = if answer.number == 0 { WINDOW_WORDS } else { 0 };
        let moved = (first..ALL_WORDS).find(|&at| self.words[at] != before[at]);
        Called { answer, moved }
    }
}
