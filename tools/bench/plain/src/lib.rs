//! The whole job on the Rust side, for timing: the oracle's checks and the Rust's own text, with nothing recorded that the answer
//! does not need, and the answer written straight from the clusters.

// Jobs are written with the rest of it.
#[allow(dead_code)]
#[path = "../../../beside/oracle/src/bytes.rs"]
mod bytes;
#[path = "../../../beside/oracle/src/check.rs"]
mod check;
#[path = "../../../beside/oracle/src/decode.rs"]
mod decode;
// What only the answer's writer and the jobs' maker ask.
#[allow(dead_code)]
#[path = "../../../beside/oracle/src/form.rs"]
mod form;
// The Rust has no natural length.
#[allow(dead_code)]
#[path = "../../../beside/oracle/src/job.rs"]
mod job;
#[path = "../../../beside/oracle/src/refusal.rs"]
mod refusal;
mod rust;

/// The C call, as Rust: the number and the answer's length, or the refusal's number and 0.
pub fn layout_text(job: &[u8], answer: &mut [u8]) -> (u32, u32) {
    match written(job, answer) {
        Ok(length) => (0, length as u32),
        Err(refusal) => (refusal.0 as u32, 0),
    }
}

fn written(job: &[u8], answer: &mut [u8]) -> Result<usize, refusal::Refusal> {
    let job = decode::decode(job)?;
    check::check(&job)?;
    let bytes = rust::answer(&job)?;
    refusal::unless(bytes.len() <= answer.len(), 10)?;
    answer[..bytes.len()].copy_from_slice(&bytes);
    Ok(bytes.len())
}
