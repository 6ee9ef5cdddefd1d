//! How much was compared, by mode and flag.

use oracle::answer::{ChunkRow, ClusterRow, COLLAPSED, ROTATED, SCALED, SIDEWAYS, UPRIGHT};

use crate::job::Job;
use crate::recipe::{drawn, lines};

const FLAGS: &[(u8, &str)] = &[
    (UPRIGHT, "upright"),
    (SIDEWAYS, "sideways"),
    (SCALED, "scaled"),
    (ROTATED, "rotated"),
    (COLLAPSED, "collapsed"),
];

/// Of one writing mode.
#[derive(Clone, Copy, Default)]
struct Counts {
    jobs: usize,
    clusters: usize,
    flags: [usize; FLAGS.len()],
    glyphs: usize,
    spans: usize,
    runs: usize,
    lines: usize,
}

impl Counts {
    fn cluster(&mut self, row: &ClusterRow) {
        self.clusters += 1;
        for (count, (flag, _)) in self.flags.iter_mut().zip(FLAGS) {
            *count += usize::from(row.flags & flag != 0);
        }
    }

    /// Three of a cluster, two of a span, one of a run and of a glyph.
    fn transforms(&self) -> usize {
        3 * self.clusters + 2 * self.spans + self.runs + self.glyphs
    }
}

#[derive(Default)]
pub struct Tally {
    modes: [Counts; 2],
}

impl Tally {
    pub fn add(&mut self, job: &Job, rows: &[ChunkRow]) {
        let counts = &mut self.modes[job.mode as usize];
        counts.jobs += 1;
        for (chunk, row) in job.chunks.iter().zip(rows) {
            row.clusters.iter().for_each(|row| counts.cluster(row));
            for of in &row.spans {
                counts.glyphs += drawn(job, chunk, row, of).count();
                counts.lines += lines(&chunk.spans[of.index as usize], of).len();
                counts.runs += of.runs.len();
            }
            counts.spans += row.spans.len();
        }
    }

    pub fn print(&self) {
        println!(
            "{:<28}{:>16}{:>16}",
            "compared", "left to right", "top to bottom"
        );
        self.row("accepted jobs", |counts| counts.jobs);
        self.row("clusters", |counts| counts.clusters);
        for (i, (_, name)) in FLAGS.iter().enumerate() {
            self.row(&format!("  {name}"), |counts| counts.flags[i]);
        }
        self.row("glyphs of spans with a font", |counts| counts.glyphs);
        self.row("span rows", |counts| counts.spans);
        self.row("decoration runs", |counts| counts.runs);
        self.row("decoration lines", |counts| counts.lines);
        self.row("transforms", Counts::transforms);
    }

    fn row(&self, name: &str, of: impl Fn(&Counts) -> usize) {
        let [across, down] = &self.modes;
        println!("{name:<28}{:>16}{:>16}", of(across), of(down));
    }
}
