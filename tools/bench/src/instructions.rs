//! Instructions a call, counted by callgrind: they repeat, whatever else the machine does.

use std::error::Error;
use std::process::Command;

use crate::classes::classes;
use crate::side::Side;

const CALLS: u64 = 3;

pub fn print() -> Result<(), Box<dyn Error>> {
    println!("class               library       beside        floor   share  to floor  beside");
    for class in classes() {
        let library = counted(class.name, Side::Library)?;
        let beside = counted(class.beside.class, class.beside.side)?;
        let floor = counted(class.name, Side::Floor)?;
        println!(
            "{:<14} {library:>12} {beside:>12} {floor:>12} {:>7.3} {:>9.2}  {}",
            class.name,
            library as f64 / beside as f64,
            library as f64 / floor as f64,
            class.beside.name()
        );
    }
    Ok(())
}

fn counted(class: &str, side: Side) -> Result<u64, Box<dyn Error>> {
    let output = Command::new("valgrind")
        .args(["--tool=callgrind", "--callgrind-out-file=/dev/null"])
        .arg("--toggle-collect=measured_call")
        .arg(std::env::current_exe()?)
        .args(["calls", class, side.name(), &CALLS.to_string()])
        .output()?;
    let report = String::from_utf8_lossy(&output.stderr).into_owned();
    let line = report.lines().find(|line| line.contains("Collected :"));
    let number = line.and_then(|line| line.rsplit(' ').next()?.parse::<u64>().ok());
    Ok(number.ok_or(report)? / CALLS)
}
