//! The width of a column, the library beside the rules and its time beside the Rust's. README.md says how to use it.

mod beside;
mod callgrind;
mod comparisons;
mod deque;
mod extents;
mod instructions;
mod lender;
mod library;
mod machine;
mod measured;
mod model;
#[allow(dead_code)]
#[path = "../../beside/src/random.rs"]
mod random;
mod readings;
mod rescan;
mod rows;
mod rules;
mod scroll;
mod sides;
mod tally;
mod tell;
mod times;

use std::env;
use std::error::Error;
use std::process::exit;

use measured::Shape;

const USAGE: &str = "\
column beside SEED LABELS  the library beside the rules
column scroll SEED LABELS  a window from the top beside one from a random place
column readings SEED       the first label that tells each wrong reading apart
column time                time a label, beside the Rust's
column instructions        instructions a label, counted by callgrind
column comparisons         comparisons of extents a label, by callgrind and objdump
column labels ROW SPAN     only labels, for a profiler; ROW is random, rising or falling
";

fn main() -> Result<(), Box<dyn Error>> {
    let words: Vec<String> = env::args().skip(1).collect();
    let words: Vec<&str> = words.iter().map(String::as_str).collect();
    match words[..] {
        ["beside", seed, labels] => beside::print(seed.parse()?, labels.parse()?)?,
        ["scroll", seed, labels] => scroll::print(seed.parse()?, labels.parse()?)?,
        ["readings", seed] => tell::print(seed.parse()?)?,
        ["time"] => times::print()?,
        ["instructions"] => instructions::print()?,
        ["comparisons"] => comparisons::print()?,
        ["labels", row, span] => measured::labels(Shape::named(row)?, span.parse()?)?,
        _ => {
            eprint!("{USAGE}");
            exit(2)
        }
    }
    Ok(())
}
