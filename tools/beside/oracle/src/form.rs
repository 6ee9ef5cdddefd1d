//! The versions of a job, and the limits of its counts. answer.rs has the versions of an answer.

/// The version byte's place in both records. Before it stands the length of what follows, itself not counted.
pub const VERSION_AT: usize = 4;

/// A version of the job. A later one is an entry more.
pub struct JobForm {
    pub version: u8,
    /// The most bytes of the record.
    pub bytes: usize,
    pub chunks: usize,
    /// The version of its answer.
    pub answer: u8,
}

const JOBS: &[JobForm] = &[JobForm {
    version: 1,
    bytes: MOST_BYTES,
    chunks: MOST_CHUNKS,
    answer: 1,
}];

pub fn job_form(version: u8) -> Option<&'static JobForm> {
    JOBS.iter().find(|form| form.version == version)
}

/// A record of no known version may have as many.
pub const MOST_BYTES: usize = 65_536;
pub const MOST_CHUNKS: usize = 16;
pub const MOST_FONTS: usize = 16;
pub const MOST_LIST: usize = 4_096;
pub const MOST_TEXT: usize = 4_096;
pub const MOST_SPANS: usize = 32;
pub const MOST_SHIFTS: usize = 8;
pub const MOST_GLYPHS: usize = 1_024;
/// Of a glyph's row.
pub const GLYPH_BYTES: usize = 25;
