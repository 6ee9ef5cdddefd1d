//! Time a call: the best of many rounds, the sides in turn, so that what else the machine does falls on both.

use std::time::{Duration, Instant};

use crate::classes::{classes, job_of};
use crate::encode::encode;
use crate::jobs::of_clusters;
use crate::lengths::{clear_lengths, of_spans, Order};
use crate::side::{buffer, call, Side};

const ROUNDS: usize = 25;
const ROUND: Duration = Duration::from_millis(4);
const MOST_GROWTH: f64 = 2.2;
const MOST_FOR_LENGTHS: f64 = 1.2;
/// Of the library's time to the floor's.
const MOST_OF_FLOOR: f64 = 2.0;

/// The library's on a job, and what it stands beside.
struct Times {
    library: f64,
    beside: f64,
}

pub fn print_classes() -> Result<(), String> {
    println!(
        "class           job bytes   library ns    beside ns     floor ns   share  target        to floor       beside"
    );
    let classes = classes();
    for class in &classes {
        let other = job_of(&classes, class.beside.class)?;
        let sides = [
            (Side::Library, &class.job[..]),
            (class.beside.side, other),
            (Side::Floor, &class.job),
        ];
        let [library, beside, floor] = measure(sides);
        let (share, ratio) = (library / beside, library / floor);
        println!(
            "{:<14} {:>10} {library:>12.0} {beside:>12.0} {floor:>12.0} {share:>7.3} {:>7} {}  {ratio:>8.2} {}  {}",
            class.name,
            class.job.len(),
            class.target,
            verdict(share <= class.target),
            verdict(ratio < MOST_OF_FLOOR),
            class.beside.name()
        );
    }
    Ok(())
}

/// Clusters doubled from 64 to 1,024.
pub fn print_growth() {
    println!("clusters   library ns  growth      Rust ns  growth");
    let mut last: Option<Times> = None;
    for count in [64, 128, 256, 512, 1_024] {
        let job = of_clusters(count);
        let times = library_and(&job, Side::Rust, &job);
        print!("{count:>8} {:>12.0}", times.library);
        match &last {
            None => println!("         {:>12.0}", times.beside),
            Some(last) => {
                let growth = times.library / last.library;
                println!(
                    " {growth:>7.2} {:>12.0} {:>7.2} {}",
                    times.beside,
                    times.beside / last.beside,
                    verdict(growth <= MOST_GROWTH)
                );
            }
        }
        last = Some(times);
    }
}

/// 1,024 clusters in spans doubled from 1 to 32, each with a text length, beside the same job without them.
pub fn print_spans() {
    println!("spans  order           library ns  without lengths   share  the lengths ns");
    for order in Order::ALL {
        for count in [1, 2, 4, 8, 16, 32] {
            let job = of_spans(count, order);
            let without = encode(&clear_lengths(job.clone()));
            let times = library_and(&encode(&job), Side::Library, &without);
            let share = times.library / times.beside;
            println!(
                "{count:>5}  {:<13} {:>12.0} {:>16.0} {share:>7.3} {:>15.0} {}",
                order.name(),
                times.library,
                times.beside,
                times.library - times.beside,
                verdict(share <= MOST_FOR_LENGTHS)
            );
        }
    }
}

fn verdict(held: bool) -> &'static str {
    if held {
        "pass"
    } else {
        "miss"
    }
}

fn library_and(job: &[u8], beside: Side, other: &[u8]) -> Times {
    let [library, beside] = measure([(Side::Library, job), (beside, other)]);
    Times { library, beside }
}

/// Nanoseconds a call of each side with its job.
fn measure<const N: usize>(sides: [(Side, &[u8]); N]) -> [f64; N] {
    let mut lent = sides.map(|(_, job)| buffer(job));
    let mut calls = [0; N];
    for (i, &(side, job)) in sides.iter().enumerate() {
        calls[i] = calls_in_a_round(side, job, &mut lent[i]);
    }
    let mut best = [f64::INFINITY; N];
    for _ in 0..ROUNDS {
        for (i, &(side, job)) in sides.iter().enumerate() {
            best[i] = best[i].min(round(side, job, &mut lent[i], calls[i]));
        }
    }
    best
}

fn calls_in_a_round(side: Side, job: &[u8], answer: &mut [u8]) -> usize {
    let mut calls = 0;
    let start = Instant::now();
    while start.elapsed() < ROUND {
        call(side, job, answer);
        calls += 1;
    }
    calls
}

/// Nanoseconds a call.
fn round(side: Side, job: &[u8], answer: &mut [u8], calls: usize) -> f64 {
    let start = Instant::now();
    for _ in 0..calls {
        call(side, job, answer);
    }
    start.elapsed().as_nanos() as f64 / calls as f64
}
