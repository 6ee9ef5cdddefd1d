//! How many bytes step 6 looks at, counted by the Rust's own loop where document 02's request 6 ends it.

use oracle::decode::decode;
use oracle::job::{Chunk, Job};
use shortened::{rust, search};

use crate::cases::{word, Case};

/// Of each chunk of an accepted job, over its spans with a text length.
pub fn looked(job: &Job) -> Vec<usize> {
    let of_chunk = |chunk| {
        search::take();
        rust::rows(&alone(job, chunk)).expect("accepted");
        search::take()
    };
    job.chunks.iter().map(of_chunk).collect()
}

/// The chunk as a job: the loop knows nothing of other chunks.
fn alone(job: &Job, chunk: &Chunk) -> Job {
    Job {
        chunks: vec![chunk.clone()],
        ..job.clone()
    }
}

/// An accepted job and its numbers, as a line of looked.txt has them.
pub fn line(case: &Case) -> Option<String> {
    case.outcome.as_ref().ok()?;
    let numbers = looked(&decode(&case.job).expect("accepted"));
    Some(format!("{} {}", word(&case.job), list(&numbers)))
}

/// With commas, or a dash for none, so that a line always has two words.
fn list(numbers: &[usize]) -> String {
    if numbers.is_empty() {
        return "-".to_string();
    }
    let words: Vec<String> = numbers.iter().map(usize::to_string).collect();
    words.join(",")
}

#[cfg(test)]
mod tests {
    use super::*;
    use crate::cases;
    use oracle::answer::{self, ChunkRow};
    use oracle::job::Span;
    use oracle::label::{label, natural};

    /// The label, "A B" with a text length, and one thing changed.
    fn with(change: impl FnOnce(&mut Span)) -> Vec<usize> {
        let mut job = natural(54.0);
        change(&mut job.chunks[0].spans[0]);
        looked(&job)
    }

    #[test]
    fn only_with_a_text_length() {
        assert_eq!(looked(&label()), [0]);
        for adjust in 0..3 {
            assert_eq!(with(|span| span.adjust = adjust), [3]);
        }
    }

    #[test]
    fn up_to_the_last_cluster() {
        assert_eq!(with(|span| span.glyphs.clear()), [0]);
        assert_eq!(with(|span| span.glyphs.truncate(1)), [1]);
        assert_eq!(with(|span| span.glyphs.retain(|g| g.byte_index != 1)), [3]);
        assert_eq!(with(|span| span.glyphs.retain(|g| g.byte_index == 1)), [2]);
    }

    #[test]
    fn right_to_left() {
        assert_eq!(with(|span| span.glyphs.reverse()), [3]);
        let two = |span: &mut Span| {
            span.glyphs.truncate(2);
            span.glyphs.reverse();
        };
        assert_eq!(with(two), [2]);
    }

    /// A span that begins later counts from its own start, and no cluster of another span.
    #[test]
    fn two_spans() {
        let mut job = natural(54.0);
        let spans = &mut job.chunks[0].spans;
        spans.push(spans[0].clone());
        (spans[0].end, spans[1].start) = (1, 1);
        assert_eq!(looked(&job), [3]);
        job.chunks[0].spans[0].length_flag = 0;
        assert_eq!(looked(&job), [2]);
        for span in &mut job.chunks[0].spans {
            span.glyphs.truncate(2);
        }
        assert_eq!(looked(&job), [1]);
    }

    #[test]
    fn chunks_in_order() {
        let mut job = natural(54.0);
        job.chunks.push(job.chunks[0].clone());
        job.chunks[0].spans[0].glyphs.truncate(2);
        assert_eq!(list(&looked(&job)), "2,3");
        job.chunks.clear();
        assert_eq!(list(&looked(&job)), "-");
    }

    /// From an answer's rows: back from the span's end to the first byte that a cluster has.
    fn by_rows(chunk: &Chunk, row: &ChunkRow) -> usize {
        let has_cluster = |i: &u16| row.clusters.iter().any(|c| c.byte_index == *i);
        let of_span = |span: &Span| {
            let last = (span.start..span.end).rev().find(has_cluster);
            last.map_or(0, |last| (last + 1 - span.start) as usize)
        };
        let lengths = chunk.spans.iter().filter(|span| span.length_flag == 1);
        lengths.map(of_span).sum()
    }

    /// The loop loses no cluster by its end, and counts what the answers show.
    #[test]
    fn beside_the_answers() {
        for case in cases::all(1, 20_000) {
            let shortened = shortened::call::call(&case.job, case.lent);
            assert_eq!(shortened, case.outcome);
            if let Ok(answer) = &case.outcome {
                let job = decode(&case.job).expect("accepted");
                let rows = answer::rows(answer);
                let chunks = job.chunks.iter().zip(&rows);
                let counted: Vec<usize> = chunks.map(|(c, row)| by_rows(c, row)).collect();
                assert_eq!(looked(&job), counted);
            }
        }
    }
}
