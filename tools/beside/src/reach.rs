//! How far the generated jobs reach: which numbers they meet, and which branches of the Rust's text they take.

use std::error::Error;

use counted::count::{Branch, BRANCHES};

use crate::cases::{self, Case};
use crate::compare::Tally;
use crate::shown::Shown;
use crate::text::Text;

/// Branches that no job of document 01 takes, each by function, text and way, with the reason.
pub const NEVER: &[(&str, &str, &str, &str)] = &[
    (
        "apply_length_adjust",
        "chunk.text_flow",
        "none matched",
        "text on a path is no job's",
    ),
    (
        "apply_length_adjust",
        "!is_horizontal",
        "yes",
        "text on a path is no job's",
    ),
    (
        "apply_letter_spacing",
        "if let Some(span) = chunk_span_at(chunk, cluster.byte_idx)",
        "not matched",
        "a cluster was formed only where a span covers it",
    ),
    (
        "apply_word_spacing",
        "if let Some(span) = chunk_span_at(chunk, cluster.byte_idx)",
        "not matched",
        "a cluster was formed only where a span covers it",
    ),
    (
        "alignment_baseline_shift",
        "AlignmentBaseline::Baseline",
        "taken",
        "resolve_baseline hands it over to the dominant baseline, which has no such case",
    ),
    (
        "is_valid_length",
        "self.is_finite()",
        "no",
        "check 4 bounds all that an advance is made of",
    ),
];

pub fn print(seed: u64, count: usize) -> Result<(), Box<dyn Error>> {
    let mut tally = Tally::default();
    let mut shown = Shown::default();
    let mut beside = 0;
    for case in cases::all(seed, count) {
        if case.text == Text::Rust {
            count_branches(&case);
            beside += 1;
        }
        tally.add(&case, None);
        shown.add(&case);
    }
    tally.print();
    let missing = shown.print();
    println!(
        "branches {}, in {beside} jobs that are not left out",
        BRANCHES.len()
    );
    for branch in BRANCHES {
        println!("{:>12}  {}", branch.taken(), described(branch));
    }
    match missing + not_taken() {
        0 => Ok(()),
        missing => Err(format!("{missing} things are not reached").into()),
    }
}

fn count_branches(case: &Case) {
    let counted = counted::call::call(&case.job, case.lent);
    let counted = counted.as_ref().map_err(|refusal| refusal.0);
    let right = case.outcome.as_ref().map_err(|refusal| refusal.0);
    assert!(counted == right, "counting changes an outcome");
}

fn described(branch: &Branch) -> String {
    format!("{}: {} [{}]", branch.function, branch.text, branch.way)
}

/// How many branches were not taken without a reason.
fn not_taken() -> usize {
    let mut unknown = 0;
    for branch in BRANCHES.iter().filter(|branch| branch.taken() == 0) {
        let key = (branch.function, branch.text, branch.way);
        match NEVER.iter().find(|(f, t, w, _)| (*f, *t, *w) == key) {
            Some((.., reason)) => println!("never: {}: {reason}", described(branch)),
            None => {
                println!("not taken: {}", described(branch));
                unknown += 1;
            }
        }
    }
    println!("not taken without a reason: {unknown}");
    unknown
}
