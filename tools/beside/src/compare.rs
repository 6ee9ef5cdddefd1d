//! Both sides on the same job: the right outcome, and what the library returns and leaves in the lent buffer.

use oracle::bytes::hex;
use oracle::decode::decode;

use crate::cases::{parts, Case};
use crate::fields::first_difference;
use crate::left_out::ByReason;
use crate::library;
use crate::text::Text;

/// Bytes around the lent buffer that no call may touch.
const GUARD: usize = 64;
const MOST_LENT: usize = 1 << 18;
const NO_ROOM: u32 = 10;

/// Memory with a pattern in it, from which buffers are lent; it is whole again after each call.
pub struct Lender {
    pattern: Vec<u8>,
    memory: Vec<u8>,
}

impl Default for Lender {
    fn default() -> Self {
        let size = MOST_LENT + 2 * GUARD;
        let pattern: Vec<u8> = (0..size).map(|i| (i * 151 + 43) as u8 | 1).collect();
        Lender {
            memory: pattern.clone(),
            pattern,
        }
    }
}

impl Lender {
    /// The first thing in which the library parts from the right outcome.
    pub fn difference(&mut self, case: &Case) -> Option<String> {
        let job = case.job.clone();
        let returned = library::call(&job, &mut self.memory[GUARD..GUARD + case.lent]);
        let (number, answer) = parts(&case.outcome);
        let found = if job != case.job {
            Some("the job was changed".to_string())
        } else if returned.number != number as u32 {
            Some(format!("number {}, right is {number}", returned.number))
        } else if returned.length as usize != answer.len() {
            let length = returned.length;
            Some(format!("length {length}, right is {}", answer.len()))
        } else if returned.number == NO_ROOM && 3 * job.len() <= case.lent {
            Some("10 in a buffer of three times the job".to_string())
        } else {
            self.difference_in_memory(answer, case.lent)
        };
        let used = case.lent + 2 * GUARD;
        self.memory[..used].copy_from_slice(&self.pattern[..used]);
        found
    }

    fn difference_in_memory(&mut self, answer: &[u8], lent: usize) -> Option<String> {
        let end = GUARD + answer.len();
        let past = end..lent + 2 * GUARD;
        let got = &self.memory[GUARD..end];
        if let Some((at, field)) = first_difference(answer, got) {
            return Some(format!(
                "{field}: byte {at} {:02x}, right is {:02x}",
                got[at], answer[at]
            ));
        }
        let place = |at: usize| match at {
            at if at < GUARD => "before the lent buffer".to_string(),
            at if at < GUARD + lent => {
                format!("byte {} of the lent buffer, past the answer", at - GUARD)
            }
            _ => "past the lent buffer".to_string(),
        };
        let before = first_written(&self.memory[..GUARD], &self.pattern[..GUARD]);
        let after = || {
            let found = first_written(&self.memory[past.clone()], &self.pattern[past]);
            found.map(|at| at + end)
        };
        before
            .or_else(after)
            .map(|at| format!("{} was written", place(at)))
    }
}

fn first_written(memory: &[u8], pattern: &[u8]) -> Option<usize> {
    if memory == pattern {
        return None;
    }
    memory.iter().zip(pattern).position(|(a, b)| a != b)
}

/// What a run met beside one text.
#[derive(Default)]
pub struct Tally {
    jobs: usize,
    met: [usize; 11],
    longest: Longest,
    differences: usize,
}

/// The longest answer as a share of its job, in bytes.
#[derive(Default)]
struct Longest {
    answer: usize,
    job: usize,
}

impl Longest {
    fn add(&mut self, answer: usize, job: usize) {
        if self.answer * job < answer * self.job.max(1) {
            *self = Longest { answer, job };
        }
    }

    fn print(&self) {
        let share = self.answer as f64 / self.job.max(1) as f64;
        let Longest { answer, job } = self;
        println!("longest answer {share:.3} of its job: {answer} bytes to {job}");
    }
}

/// Differences printed in full; the rest are counted.
const MOST_PRINTED: usize = 20;

impl Tally {
    pub fn add(&mut self, case: &Case, difference: Option<String>) {
        if let Some(difference) = difference {
            if self.differences < MOST_PRINTED {
                println!(
                    "job {} beside {}: {difference}",
                    self.jobs,
                    case.text.name()
                );
                println!("  lent {} job {}", case.lent, hex(&case.job));
            }
            self.differences += 1;
        }
        let (number, answer) = parts(&case.outcome);
        self.jobs += 1;
        self.met[number as usize] += 1;
        self.longest.add(answer.len(), case.job.len());
    }

    pub fn print(&self) {
        let refused: Vec<String> = self.met[1..].iter().map(|n| n.to_string()).collect();
        println!("jobs {}", self.jobs);
        println!("accepted {}", self.met[0]);
        println!("refused 1 to 10: {}", refused.join(", "));
    }

    fn print_compared(&self) {
        self.print();
        self.longest.print();
        println!("differences {}", self.differences);
    }
}

/// A run: each job beside the text that is right of it.
#[derive(Default)]
pub struct Tallies {
    rust: Tally,
    /// What is left out of the comparison with the Rust.
    amended: Tally,
    /// Why, and how many of these the Rust answers otherwise.
    left_out: ByReason,
    otherwise: ByReason,
}

impl Tallies {
    pub fn add(&mut self, case: &Case, difference: Option<String>) {
        match case.text {
            Text::Rust => self.rust.add(case, difference),
            Text::Amended => {
                self.amended.add(case, difference);
                self.leave_out(case);
            }
        }
    }

    fn leave_out(&mut self, case: &Case) {
        let job = decode(&case.job).expect("a job has the reason");
        self.left_out.add(&job);
        if Text::Rust.call(&case.job, case.lent) != case.outcome {
            self.otherwise.add(&job);
        }
    }

    pub fn print(&self) {
        println!("beside {}", Text::Rust.name());
        self.rust.print_compared();
        println!("left out, and beside {}", Text::Amended.name());
        self.amended.print_compared();
        for ((reason, jobs), (_, otherwise)) in self.left_out.rows().zip(self.otherwise.rows()) {
            println!("with {reason} {jobs}, answered otherwise by the Rust itself {otherwise}");
        }
    }

    /// No difference.
    pub fn verdict(&self) -> Result<(), String> {
        match self.rust.differences + self.amended.differences {
            0 => Ok(()),
            n => Err(format!("{n} jobs differ")),
        }
    }
}
