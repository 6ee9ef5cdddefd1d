//! A row under callgrind, within the library's call alone: what it counts repeats, whatever else the machine does.

use std::collections::HashMap;
use std::error::Error;
use std::path::Path;
use std::process::{self, Command};
use std::{env, fs};

use crate::measured::Shape;

/// How often the instruction at each address of this program was executed.
pub type Executed = HashMap<u64, u64>;

/// All instructions executed.
pub fn collected(shape: Shape, span: u32) -> Result<u64, Box<dyn Error>> {
    let report = run(shape, span, Path::new("/dev/null"))?;
    let line = report.lines().find(|line| line.contains("Collected :"));
    let number = line.and_then(|line| line.rsplit(' ').next()?.parse().ok());
    Ok(number.ok_or(report)?)
}

pub fn executed(shape: Shape, span: u32) -> Result<Executed, Box<dyn Error>> {
    let file = env::temp_dir().join(format!("column-{}.callgrind", process::id()));
    let ran = run(shape, span, &file);
    let dump = fs::read_to_string(&file);
    let _ = fs::remove_file(&file);
    ran?;
    Ok(read(&dump?, &env::current_exe()?))
}

/// What callgrind reports.
fn run(shape: Shape, span: u32, file: &Path) -> Result<String, Box<dyn Error>> {
    let output = Command::new("valgrind")
        .args(["--tool=callgrind", "--toggle-collect=column_add"])
        .args(["--dump-instr=yes", "--dump-line=no"])
        .args(["--compress-strings=no", "--compress-pos=no"])
        .arg(format!("--callgrind-out-file={}", file.display()))
        .arg(env::current_exe()?)
        .args(["labels", shape.name(), &span.to_string()])
        .output()?;
    let report = String::from_utf8_lossy(&output.stderr).into_owned();
    if !output.status.success() {
        return Err(report.into());
    }
    Ok(report)
}

/// The lines `address count` of this program; the one after a `calls=` is of the callee as a whole.
fn read(dump: &str, program: &Path) -> Executed {
    let program = format!("ob={}", program.display());
    let mut executed = Executed::new();
    let mut here = false;
    let mut lines = dump.lines();
    while let Some(line) = lines.next() {
        if line.starts_with("ob=") {
            here = line == program;
        } else if line.starts_with("calls=") {
            lines.next();
        } else if let Some((address, count)) = address_and_count(line) {
            if here {
                *executed.entry(address).or_default() += count;
            }
        }
    }
    executed
}

fn address_and_count(line: &str) -> Option<(u64, u64)> {
    let (address, count) = line.strip_prefix("0x")?.split_once(' ')?;
    let address = u64::from_str_radix(address, 16).ok()?;
    Some((address, count.parse().ok()?))
}
