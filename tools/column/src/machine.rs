//! This program's machine code as objdump shows it, and which of it compares two extents.

use std::error::Error;
use std::process::Command;

struct Instruction {
    address: u64,
    name: String,
    operands: String,
}

pub struct Code(Vec<Instruction>);

/// Instructions that compare or select, by the beginning of their names.
const COMPARING: [&str; 10] = [
    "cmp", "test", "sub", "sbb", "comis", "ucomis", "max", "min", "pmax", "pcmp",
];

impl Code {
    pub fn of_this_program() -> Result<Code, Box<dyn Error>> {
        let output = Command::new("objdump")
            .args(["-d", "-M", "intel", "--no-show-raw-insn"])
            .arg(std::env::current_exe()?)
            .output()?;
        let text = String::from_utf8_lossy(&output.stdout);
        Ok(Code(text.lines().filter_map(instruction).collect()))
    }

    pub fn places(&self) -> std::ops::Range<usize> {
        0..self.0.len()
    }

    pub fn address(&self, at: usize) -> u64 {
        self.0[at].address
    }

    /// How many comparisons of two extents an instruction makes: 1 for one whose result chooses between the two that it compared, and one
    /// for each lane of a packed one.
    pub fn comparisons(&self, at: usize) -> u64 {
        let instruction = &self.0[at];
        if let Some(lanes) = packed_lanes(instruction) {
            return lanes;
        }
        match self.user(at) {
            Some(user) => chooses(instruction, user) as u64,
            None => 0,
        }
    }

    pub fn compares(&self, at: usize) -> bool {
        let name = plain_name(&self.0[at]);
        COMPARING
            .iter()
            .any(|beginning| name.starts_with(beginning))
    }

    /// An instruction, and what uses its result.
    pub fn shown(&self, at: usize) -> String {
        let user = self.user(at).map_or(String::new(), text);
        format!("{:<26} {user}", text(&self.0[at]))
    }

    /// The first instruction after this one that is no move.
    fn user(&self, at: usize) -> Option<&Instruction> {
        let mut after = self.0[at + 1..].iter();
        after.find(|next| !["mov", "lea", "nop"].contains(&next.name.as_str()))
    }
}

fn instruction(line: &str) -> Option<Instruction> {
    let (address, text) = line.trim_start().split_once(":\t")?;
    let (name, operands) = text.split_once(' ').unwrap_or((text, ""));
    Some(Instruction {
        address: u64::from_str_radix(address, 16).ok()?,
        name: name.to_string(),
        operands: operands.trim().to_string(),
    })
}

fn text(instruction: &Instruction) -> String {
    format!("{} {}", instruction.name, instruction.operands)
}

/// The name without the v of the wider vectors.
fn plain_name(instruction: &Instruction) -> &str {
    let name = instruction.name.as_str();
    name.strip_prefix('v').unwrap_or(name)
}

fn packed_lanes(instruction: &Instruction) -> Option<u64> {
    match plain_name(instruction) {
        "maxss" => Some(1),
        "pmaxud" | "pmaxsd" | "maxps" | "pcmpgtd" | "cmpltps" | "cmpleps" => {
            Some(match instruction.operands.as_bytes().first() {
                Some(b'z') => 16,
                Some(b'y') => 8,
                _ => 4,
            })
        }
        _ => None,
    }
}

/// Whether `user` moves one of the two 32 bit operands of a `cmp` to the other.
fn chooses(compare: &Instruction, user: &Instruction) -> bool {
    let Some((one, other)) = compare.operands.split_once(',') else {
        return false;
    };
    let moved = user.operands.split_once(',');
    compare.name == "cmp"
        && user.name.starts_with("cmov")
        && (is_32_bits(one) || is_32_bits(other))
        && (moved == Some((one, other)) || moved == Some((other, one)))
}

/// A register such as eax or r9d.
fn is_32_bits(operand: &str) -> bool {
    operand.starts_with('e') || (operand.starts_with('r') && operand.ends_with('d'))
}
