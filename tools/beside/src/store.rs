//! Jobs to keep, with the right answers: few and small, and between them they take every branch of the Rust that can be taken, meet
//! every number and tell every wrong reading apart.
//!
//! A file holds the number of its records (4 bytes, as all numbers here, but for the refusal's, which is 1) and then each record:
//! lent length, number, job's length, job, answer's length, answer.

use std::error::Error;
use std::fs;
use std::path::Path;

use counted::count::{reset, BRANCHES};
use oracle::decode::decode;
use oracle::job::Job;
use oracle::label::{label, natural, rohingya};
use oracle::refusal::Refusal;
use readings::reading::NAMES;

use crate::cases::{self, parts, Case};
use crate::encode::encode;
use crate::left_out::ByReason;
use crate::reach::NEVER;
use crate::tell::{agrees, quietly};
use crate::text::Text;

const SEED: u64 = 1;
/// How many jobs are looked through, at each size in turn.
const SEARCHED: usize = 20_000;
/// The bytes that a job and its answer may have: small ones are looked at first.
const SIZES: &[usize] = &[600, 2_000, 10_000, 100_000];
/// The same for the accepted jobs that fill up.
const FILLING: usize = 900;
/// Each branch, number and reading is shown so often, if jobs of the first size do.
const OFTEN: usize = 3;
/// A file is filled to so many bytes; a longer record has one of its own. `crates/replay` reads four times as many.
const MOST_FILE: usize = 1 << 15;
/// So that a program can lend a buffer of a fixed size.
const MOST_LENT: usize = 1 << 16;

pub fn write(count: usize, dir: &Path) -> Result<(), Box<dyn Error>> {
    quietly();
    let mut chosen = Chosen::new();
    for job in labels() {
        chosen.consider(cases::of_job(encode(&job)), OFTEN);
    }
    for (i, &size) in SIZES.iter().enumerate() {
        let often = if i == 0 { OFTEN } else { 1 };
        let fitting = cases::all(SEED, SEARCHED).filter(|case| fits(case, size));
        fitting.for_each(|case| chosen.consider(case, often));
    }
    let telling = chosen.cases.len();
    let more = cases::all(SEED + 1, usize::MAX);
    let more = more.filter(|case| fits(case, FILLING) && case.outcome.is_ok());
    chosen
        .cases
        .extend(more.take(count.saturating_sub(telling)));
    let files = write_files(&chosen.cases, dir)?;
    println!(
        "{} jobs in {files} files, {telling} of them chosen",
        chosen.cases.len()
    );
    print_left_out(&chosen.cases);
    chosen.report()
}

/// The label; in Hanifi Rohingya with letter spacing 1, and with -11, scaled to a length of 52; with a natural length of 54.
fn labels() -> [Job; 4] {
    let mut scaled = rohingya(-11.0);
    let span = &mut scaled.chunks[0].spans[0];
    (span.length_flag, span.text_length, span.adjust) = (1, 52f32.to_bits(), 1);
    [label(), rohingya(1.0), scaled, natural(54.0)]
}

fn print_left_out(cases: &[Case]) {
    let jobs = cases.iter().filter_map(|case| decode(&case.job).ok());
    let mut left_out = ByReason::default();
    jobs.for_each(|job| left_out.add(&job));
    for (reason, jobs) in left_out.rows() {
        println!("with {reason} {jobs}");
    }
}

fn fits(case: &Case, size: usize) -> bool {
    case.lent <= MOST_LENT && case.job.len() + parts(&case.outcome).1.len() <= size
}

struct Chosen {
    cases: Vec<Case>,
    /// How often each branch, number and reading is shown.
    branches: Vec<usize>,
    numbers: Vec<usize>,
    readings: Vec<usize>,
}

impl Chosen {
    fn new() -> Self {
        Chosen {
            cases: vec![],
            branches: vec![0; BRANCHES.len()],
            numbers: vec![0; 11],
            readings: vec![0; NAMES.len()],
        }
    }

    /// Keeps a case that shows something that was shown less often. A branch of the Rust is shown where the Rust is right.
    fn consider(&mut self, case: Case, often: usize) {
        reset();
        if case.text == Text::Rust {
            let _ = counted::call::call(&case.job, case.lent);
        }
        let number = parts(&case.outcome).0 as usize;
        let mut new = self.numbers[number] < often;
        let readings: Vec<bool> = (0..NAMES.len())
            .map(|i| self.readings[i] < often && !agrees(&case, Some(i)))
            .collect();
        let branches: Vec<bool> = BRANCHES.iter().map(|branch| branch.taken() > 0).collect();
        new |= readings.contains(&true);
        new |= branches
            .iter()
            .zip(&self.branches)
            .any(|(taken, count)| *taken && *count < often);
        if new {
            self.numbers[number] += 1;
            add(&mut self.readings, &readings);
            add(&mut self.branches, &branches);
            self.cases.push(case);
        }
    }

    fn report(&self) -> Result<(), Box<dyn Error>> {
        let shown = |counts: &[usize]| counts.iter().filter(|&&n| n > 0).count();
        let rows = [
            ("numbers", shown(&self.numbers), self.numbers.len()),
            (
                "branches",
                shown(&self.branches),
                BRANCHES.len() - NEVER.len(),
            ),
            ("wrong readings", shown(&self.readings), NAMES.len()),
        ];
        for (name, shown, all) in rows {
            println!("{name} {shown} of {all}");
        }
        match rows.iter().all(|(_, shown, all)| shown == all) {
            true => Ok(()),
            false => Err("not all are shown".into()),
        }
    }
}

fn add(counts: &mut [usize], shown: &[bool]) {
    counts
        .iter_mut()
        .zip(shown)
        .for_each(|(count, &shown)| *count += shown as usize);
}

/// As many records to a file as fit, at least one.
fn write_files(cases: &[Case], dir: &Path) -> Result<usize, Box<dyn Error>> {
    fs::create_dir_all(dir)?;
    let mut files: Vec<Vec<Vec<u8>>> = vec![];
    let mut room = 0;
    for record in cases.iter().map(record) {
        if record.len() > room {
            files.push(vec![]);
            room = MOST_FILE - 4;
        }
        room = room.saturating_sub(record.len());
        files.last_mut().unwrap().push(record);
    }
    for (i, records) in files.iter().enumerate() {
        let count = (records.len() as u32).to_be_bytes();
        fs::write(
            dir.join(format!("{i:02}.jobs")),
            [&count[..], &records.concat()].concat(),
        )?;
    }
    Ok(files.len())
}

fn record(case: &Case) -> Vec<u8> {
    let (number, answer) = parts(&case.outcome);
    let length = |n: usize| (n as u32).to_be_bytes();
    [
        &length(case.lent)[..],
        &[number],
        &length(case.job.len()),
        &case.job,
        &length(answer.len()),
        answer,
    ]
    .concat()
}

/// The records of a file that `write` wrote, as cases.
pub fn read(file: &Path) -> Result<Vec<Case>, Box<dyn Error>> {
    let bytes = fs::read(file)?;
    let mut rest = &bytes[..];
    let count = length(&mut rest)?;
    let cases: Result<Vec<Case>, _> = (0..count).map(|_| case(&mut rest)).collect();
    match rest.is_empty() {
        true => cases,
        false => Err("bytes after the last record".into()),
    }
}

fn case(rest: &mut &[u8]) -> Result<Case, Box<dyn Error>> {
    let lent = length(rest)?;
    let number = taken(rest, 1)?[0];
    let count = length(rest)?;
    let job = taken(rest, count)?.to_vec();
    let count = length(rest)?;
    let answer = taken(rest, count)?.to_vec();
    let outcome = match number {
        0 => Ok(answer),
        number => Err(Refusal(number)),
    };
    Ok(Case {
        text: Text::of_record(&job),
        job,
        lent,
        outcome,
    })
}

fn length(rest: &mut &[u8]) -> Result<usize, Box<dyn Error>> {
    Ok(u32::from_be_bytes(taken(rest, 4)?.try_into()?) as usize)
}

fn taken<'a>(rest: &mut &'a [u8], count: usize) -> Result<&'a [u8], Box<dyn Error>> {
    let (taken, after) = rest.split_at_checked(count).ok_or("a record is cut off")?;
    *rest = after;
    Ok(taken)
}
