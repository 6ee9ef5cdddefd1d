//! The jobs that are timed.

use oracle::job::Job;
use oracle::label::label;

use crate::encode::encode;
use crate::jobs;
use crate::lengths::{clear_lengths, long_text, mixed};
use crate::side::Side;

/// A class of labels, and the most that the library's time may be as a share of what it stands beside.
pub struct Class {
    pub name: &'static str,
    pub job: Vec<u8>,
    pub target: f64,
    pub beside: Beside,
}

/// A side, and the class whose job it is given: the Rust with the same, or, where it has no such job, the library with another.
pub struct Beside {
    pub side: Side,
    pub class: &'static str,
}

impl Beside {
    pub fn name(&self) -> &'static str {
        match self.side {
            Side::Rust => "the Rust",
            Side::Library | Side::Floor => self.class,
        }
    }
}

/// What the library had when the class was added: the largest of three runs.
const MIXED: f64 = 0.083;

pub fn classes() -> Vec<Class> {
    let class = |name, target, job: Job, beside| Class {
        name,
        job: encode(&job),
        target,
        beside,
    };
    let rust = |name, target, job| {
        let side = Side::Rust;
        class(name, target, job, Beside { side, class: name })
    };
    let own = |class| Beside {
        side: Side::Library,
        class,
    };
    vec![
        rust("short", 0.3, label()),
        rust("first-span", 0.3, jobs::first_span()),
        rust("two-line", 0.33, jobs::two_line()),
        rust("three-spans", 0.35, jobs::three_spans()),
        rust("right-to-left", 0.1, jobs::right_to_left()),
        rust("mixed", MIXED, mixed()),
        rust("text-length", 0.03, jobs::text_length()),
        rust("chunks", 0.35, jobs::sixteen_chunks()),
        rust("sheet", 0.3, jobs::sheet()),
        rust("merge", 0.1, jobs::merge()),
        rust("long-text", 1.0, clear_lengths(long_text())),
        class("long-lengths", 1.2, long_text(), own("long-text")),
        class(
            "natural-length",
            1.05,
            jobs::natural_length(),
            own("text-length"),
        ),
    ]
}

pub fn job_of<'a>(classes: &'a [Class], name: &str) -> Result<&'a [u8], String> {
    let class = classes.iter().find(|class| class.name == name);
    Ok(&class.ok_or(format!("no class {name}"))?.job)
}
