//! The library's time beside the Rust's and that of plain C. README.md says how to use it.

mod classes;
#[path = "../../beside/src/encode.rs"]
mod encode;
mod floor;
mod instructions;
mod jobs;
mod lengths;
#[path = "../../beside/src/library.rs"]
mod library;
mod side;
mod times;

use std::error::Error;
use std::path::Path;
use std::{env, fs};

use side::Side;

const USAGE: &str = "\
bench                         time a call, and how time grows
bench instructions            instructions a call, counted by callgrind
bench jobs DIR                each class as a file
bench calls CLASS SIDE COUNT  only calls, for a profiler; SIDE is library, rust or floor
";

type Done = Result<(), Box<dyn Error>>;

fn main() -> Done {
    let words: Vec<String> = env::args().skip(1).collect();
    let words: Vec<&str> = words.iter().map(String::as_str).collect();
    match words[..] {
        [] => {
            side::agree()?;
            println!("the best of some rounds; the lent buffer is not cleared between calls");
            times::print_classes()?;
            times::print_growth();
            times::print_spans();
            Ok(())
        }
        ["instructions"] => instructions::print(),
        ["jobs", dir] => write_jobs(Path::new(dir)),
        ["calls", class, side, count] => calls(class, Side::named(side)?, count.parse()?),
        _ => Err(USAGE.into()),
    }
}

fn write_jobs(dir: &Path) -> Done {
    fs::create_dir_all(dir)?;
    for class in classes::classes() {
        fs::write(dir.join(class.name), class.job)?;
    }
    Ok(())
}

fn calls(name: &str, side: Side, count: usize) -> Done {
    let classes = classes::classes();
    let job = classes::job_of(&classes, name)?;
    let mut answer = side::buffer(job);
    for _ in 0..count {
        side::call(side, job, &mut answer);
    }
    Ok(())
}
