//! The call: a job's bytes and a lent length in, the answer's bytes or a refusal out.

use crate::answer::answer;
use crate::check::check;
use crate::decode::decode;
use crate::form::job_form;
use crate::refusal::{unless, Refusal};
use crate::rust;

pub fn call(job: &[u8], lent: usize) -> Result<Vec<u8>, Refusal> {
    let job = decode(job)?;
    check(&job)?;
    let form = job_form(job.version).expect("checked");
    let answer = answer(form.answer, rust::rows(&job)?);
    unless(answer.len() <= lent, 10)?;
    Ok(answer)
}
