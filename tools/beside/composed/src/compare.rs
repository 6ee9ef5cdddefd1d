//! Both sides on the accepted jobs of a run: the library's rows composed, and the Rust's own transforms.

use beside::library;
use oracle::answer::{self, ChunkRow};
use oracle::bytes::hex;
use tiny_skia_path::Transform;

use crate::job::Job;
use crate::recipe::{drawn, Recipe, RIGHT};
use crate::rust::{self, Lookups};
use crate::tally::Tally;
use crate::transforms::{same, Transforms};
use crate::wrong::{chain, sizes};

const MOST_LENT: usize = 1 << 18;
/// The error of one rounding is at most a share of 1 ÷ UNIT.
const UNIT: f64 = (1 << 24) as f64;
/// Differences printed in full; the rest are counted.
const MOST_PRINTED: usize = 20;

pub struct Found {
    lookups: Lookups,
    wrong: &'static [Recipe],
    buffer: Vec<u8>,
    tally: Tally,
    differences: usize,
    chained: Chained,
    /// The job by which each wrong reading was told apart.
    told: Vec<Option<usize>>,
}

/// Glyphs whose steps in one chain give other bits than in groups.
#[derive(Default)]
struct Chained {
    glyphs: usize,
    /// How far the place is off at most, as a share of the sizes that it is added up from.
    most: f64,
}

impl Found {
    pub fn new(lookups: Lookups, wrong: &'static [Recipe]) -> Self {
        Found {
            lookups,
            wrong,
            buffer: vec![0; MOST_LENT],
            tally: Tally::default(),
            differences: 0,
            chained: Chained::default(),
            told: vec![None; wrong.len()],
        }
    }

    /// An accepted job, the `number`-th of the run.
    pub fn add(&mut self, number: usize, bytes: &[u8], job: &Job) {
        let difference = match self.laid_out(bytes) {
            Ok(rows) => self.compare(number, job, &rows),
            Err(refusal) => Some(format!("refused with {refusal}")),
        };
        let Some(difference) = difference else {
            return;
        };
        self.differences += 1;
        if self.differences <= MOST_PRINTED {
            println!("job {number}: {difference}");
            println!("  job {}", hex(bytes));
        }
    }

    /// The library's rows, or its refusal.
    fn laid_out(&mut self, bytes: &[u8]) -> Result<Vec<ChunkRow>, u32> {
        let returned = library::call(bytes, &mut self.buffer);
        match returned.number {
            0 => Ok(answer::rows(&self.buffer[..returned.length as usize])),
            number => Err(number),
        }
    }

    fn compare(&mut self, number: usize, job: &Job, rows: &[ChunkRow]) -> Option<String> {
        let rust = rust::transforms(job, self.lookups);
        self.tally.add(job, rows);
        self.chained.add(job, rows, &rust);
        self.tell(number, job, rows, &rust);
        RIGHT.transforms(job, rows).difference(&rust)
    }

    fn tell(&mut self, number: usize, job: &Job, rows: &[ChunkRow], rust: &Transforms) {
        for (told, wrong) in self.told.iter_mut().zip(self.wrong) {
            if told.is_none() && wrong.transforms(job, rows).difference(rust).is_some() {
                *told = Some(number);
            }
        }
    }

    /// Prints it all; the verdict is no difference, and every wrong reading told apart.
    pub fn verdict(&self) -> Result<(), String> {
        self.tally.print();
        let Chained { glyphs, most } = self.chained;
        println!("glyphs that one chain of steps gives other bits: {glyphs},");
        println!("  off by at most {:.2} x 2^-24 of their sizes", most * UNIT);
        let never = self.print_told();
        println!("differences {}", self.differences);
        match (self.differences, never) {
            (0, 0) => Ok(()),
            (0, n) => Err(format!("{n} wrong readings are not told apart")),
            (n, _) => Err(format!("{n} jobs differ")),
        }
    }

    /// How many wrong readings are not told apart.
    fn print_told(&self) -> usize {
        for (wrong, told) in self.wrong.iter().zip(&self.told) {
            match told {
                Some(job) => println!("told apart by job {job:>6}: {}", wrong.name),
                None => println!("never told apart: {}", wrong.name),
            }
        }
        self.told.iter().filter(|told| told.is_none()).count()
    }
}

impl Chained {
    fn add(&mut self, job: &Job, rows: &[ChunkRow], rust: &Transforms) {
        let chunks = job.chunks.iter().zip(rows);
        let spans =
            chunks.flat_map(|(chunk, row)| row.spans.iter().map(move |of| (chunk, row, of)));
        let glyphs = spans.flat_map(|(chunk, row, of)| drawn(job, chunk, row, of));
        let theirs = rust.spans.iter().flat_map(|span| &span.glyphs);
        for (glyph, ts) in glyphs.zip(theirs) {
            let one = chain(&glyph);
            if !same(&one, ts) {
                self.glyphs += 1;
                self.most = self.most.max(apart(&one, ts) / sizes(&glyph));
            }
        }
    }
}

/// Along x or along y, whichever is more.
fn apart(one: &Transform, other: &Transform) -> f64 {
    let along = |a: f32, b: f32| (a as f64 - b as f64).abs();
    along(one.tx, other.tx).max(along(one.ty, other.ty))
}
