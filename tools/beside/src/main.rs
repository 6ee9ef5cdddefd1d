//! The library and the definitions beside the Rust's own layout. README.md says how to use it.

mod composed;

use std::error::Error;
use std::io::Write;
use std::path::Path;
use std::process::exit;
use std::{env, fs};

use beside::cases::{self, Case};
use beside::compare::{Lender, Tallies};
use beside::text::Text;
use beside::{climb, looked, near, reach, store, tell};

const USAGE: &str = "\
beside run SEED COUNT       the library beside the Rust, on jobs of every kind; those that document 02 has laid out otherwise apart
beside reach SEED COUNT     what these jobs show, and which branches of the Rust's text they take
beside readings SEED COUNT  after how many of them each wrong reading is told apart
beside transforms SEED COUNT
                            the library's rows composed to transforms, beside the Rust's own
beside tables SEED COUNT    the same where tags and orientations are those of the Unicode tables
beside near SEED COUNT      how far answers are from the exact layout, as a share of what demand 3 allows
beside climb SEED COUNT     the same, searched for by that many changes of jobs
beside store COUNT DIR      jobs for crates/replay, chosen for what they show, with the right answers
beside replay DIR           the library beside the answers of such jobs
beside answer FILE LENT     a job's number and answer, in hex
beside gen SEED COUNT DIR   small cases for `evaluate`, and the bytes that step 6 looks at in the accepted ones
";

type Done = Result<(), Box<dyn Error>>;

fn main() -> Done {
    let words: Vec<String> = env::args().skip(1).collect();
    let words: Vec<&str> = words.iter().map(String::as_str).collect();
    match words[..] {
        ["run", seed, count] => run(cases::all(seed.parse()?, count.parse()?)),
        ["reach", seed, count] => reach::print(seed.parse()?, count.parse()?),
        ["readings", seed, count] => tell::print(seed.parse()?, count.parse()?),
        ["transforms" | "tables", _, _] => Ok(composed::run(&words)?),
        ["near", seed, count] => near::print(seed.parse()?, count.parse()?),
        ["climb", seed, count] => climb::print(seed.parse()?, count.parse()?),
        ["store", count, dir] => store::write(count.parse()?, Path::new(dir)),
        ["replay", dir] => replay(Path::new(dir)),
        ["answer", file, lent] => answer_file(file, lent.parse()?),
        ["gen", seed, count, dir] => write_cases(seed.parse()?, count.parse()?, Path::new(dir)),
        _ => {
            eprint!("{USAGE}");
            exit(2)
        }
    }
}

/// The library beside the right outcomes.
fn run(cases: impl Iterator<Item = Case>) -> Done {
    let mut lender = Lender::default();
    let mut tallies = Tallies::default();
    for case in cases {
        let difference = lender.difference(&case);
        tallies.add(&case, difference);
    }
    tallies.print();
    Ok(tallies.verdict()?)
}

fn replay(dir: &Path) -> Done {
    let files = fs::read_dir(dir)?.map(|entry| Ok(entry?.path()));
    let mut files = files.collect::<std::io::Result<Vec<_>>>()?;
    files.sort();
    let mut cases = vec![];
    for file in files {
        cases.extend(store::read(&file)?);
    }
    run(cases.into_iter())
}

fn answer_file(file: &str, lent: usize) -> Done {
    let job = fs::read(file)?;
    let outcome = Text::of_record(&job).call(&job, lent);
    let (number, answer) = cases::parts(&outcome);
    println!("{} {}", number, cases::word(answer));
    Ok(())
}

fn write_cases(seed: u64, count: usize, dir: &Path) -> Done {
    fs::create_dir_all(dir)?;
    let mut cases = fs::File::create(dir.join("cases.txt"))?;
    let mut accepted = fs::File::create(dir.join("looked.txt"))?;
    for case in cases::small(seed, count) {
        writeln!(cases, "{}", case.line())?;
        if let Some(line) = looked::line(&case) {
            writeln!(accepted, "{line}")?;
        }
    }
    Ok(())
}
