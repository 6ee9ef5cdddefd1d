//! Whose text says what is right of a job: the Rust's, or, where document 02 parts from it, the Rust's with what that changes.

use oracle::answer::ChunkRow;
use oracle::decode::decode;
use oracle::job::Job;
use oracle::refusal::Refusal;

use crate::left_out::reason;

#[derive(Clone, Copy, PartialEq, Eq, Debug)]
pub enum Text {
    Rust,
    /// With Hanifi Rohingya among the scripts that take no letter spacing, and with `natural_length`.
    Amended,
}

impl Text {
    pub fn of(job: &Job) -> Text {
        match reason(job) {
            Some(_) => Text::Amended,
            None => Text::Rust,
        }
    }

    /// A record that is no job is refused by both alike.
    pub fn of_record(job: &[u8]) -> Text {
        decode(job).map_or(Text::Rust, |job| Text::of(&job))
    }

    pub fn call(self, job: &[u8], lent: usize) -> Result<Vec<u8>, Refusal> {
        match self {
            Text::Rust => oracle::call::call(job, lent),
            Text::Amended => amended::call::call(job, lent),
        }
    }

    pub fn rows(self, job: &Job) -> Result<Vec<ChunkRow>, Refusal> {
        match self {
            Text::Rust => oracle::rust::rows(job),
            Text::Amended => amended::rust::rows(job),
        }
    }

    pub fn name(self) -> &'static str {
        match self {
            Text::Rust => "the Rust",
            Text::Amended => "the Rust as document 02 changes it",
        }
    }
}

#[cfg(test)]
mod tests {
    use super::*;
    use crate::cases;
    use crate::left_out::ByReason;
    use oracle::label::{label, natural, rohingya};

    #[test]
    fn which_jobs_are_left_out() {
        assert_eq!(Text::of(&label()), Text::Rust);
        assert_eq!(Text::of(&rohingya(1.0)), Text::Amended);
        assert_eq!(Text::of(&rohingya(-11.0)), Text::Amended);
        assert_eq!(Text::of(&rohingya(0.0)), Text::Rust);
        assert_eq!(Text::of(&rohingya(-0.0)), Text::Rust);
        assert_eq!(Text::of(&natural(54.0)), Text::Amended);
        for (flag, adjust) in [(0, 2), (1, 0), (1, 1)] {
            let mut job = natural(54.0);
            let span = &mut job.chunks[0].spans[0];
            (span.length_flag, span.adjust) = (flag, adjust);
            assert_eq!(Text::of(&job), Text::Rust);
        }
    }

    /// Both texts agree on all jobs that are not left out, and for each reason there are jobs on which they do not.
    #[test]
    fn only_jobs_left_out_differ() {
        let mut differ = ByReason::default();
        for case in cases::all(1, 20_000) {
            let [rust, amended] =
                [Text::Rust, Text::Amended].map(|text| text.call(&case.job, case.lent));
            if rust != amended {
                assert_eq!(case.text, Text::Amended);
                differ.add(&decode(&case.job).unwrap());
            }
        }
        assert!(differ.rows().all(|(_, jobs)| jobs > 0));
    }
}
