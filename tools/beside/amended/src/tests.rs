//! The label of document 01 with what document 02 changes, by this text and by the Rust's own.

use oracle::answer::{ChunkRow, ClusterRow, COLLAPSED, SCALED};
use oracle::job::{Job, Span};
use oracle::label::{label, natural, rohingya};
use oracle::refusal::Refusal;

fn chunk(job: &Job) -> ChunkRow {
    crate::rust::rows(job).unwrap().remove(0)
}

fn advances(row: &ChunkRow) -> Vec<f32> {
    row.clusters.iter().map(|c| c.advance).collect()
}

fn length_spacings(row: &ChunkRow) -> Vec<f32> {
    row.clusters.iter().map(|c| c.length_spacing).collect()
}

/// Advances, and which clusters collapse, by both texts.
#[test]
fn in_rohingya() {
    let seen = |row: ChunkRow| -> Vec<(f32, u8)> {
        let seen = |c: &ClusterRow| (c.advance, c.flags & COLLAPSED);
        row.clusters.iter().map(seen).collect()
    };
    let rust = |job: &Job| oracle::rust::rows(job).unwrap().remove(0);
    let joined = [(10.0, 0), (6.0, 0), (10.0, 0)];
    assert_eq!(seen(chunk(&rohingya(1.0))), joined);
    assert_eq!(seen(chunk(&rohingya(-11.0))), joined);
    let spaced = [(11.0, 0), (7.0, 0), (10.0, 0)];
    assert_eq!(seen(rust(&rohingya(1.0))), spaced);
    let collapsed = [(0.0, 32), (2.0, 32), (10.0, 0)];
    assert_eq!(seen(rust(&rohingya(-11.0))), collapsed);
}

/// The label with a natural length of 54, and one thing changed.
fn with(change: impl FnOnce(&mut Span)) -> Job {
    let mut job = natural(54.0);
    change(&mut job.chunks[0].spans[0]);
    job
}

/// 11, 7 and 10 are 28; two gaps of 13 make it 54.
#[test]
fn natural_length() {
    let row = chunk(&natural(54.0));
    assert_eq!(advances(&row), [24.0, 20.0, 23.0]);
    assert_eq!(length_spacings(&row), [13.0; 3]);
    assert_eq!((row.clusters[0].shift.0, row.pen), (-54.0, (113.0, 50.0)));
    assert_eq!(row.spans[0].runs[0].width, 67.0);
    let widths: Vec<f32> = row.clusters.iter().map(|c| c.width).collect();
    assert_eq!(widths, [10.0, 4.0, 10.0]);
    assert!(row.clusters.iter().all(|c| c.flags & SCALED == 0));
}

#[test]
fn natural_length_of_one_cluster() {
    let row = chunk(&with(|span| span.glyphs.truncate(1)));
    assert_eq!(advances(&row), [10.0]);
    assert_eq!(length_spacings(&row)[0].to_bits(), 0);
}

/// The third cluster has the first one's byte index and keeps its advance; 11 and 7 are brought to 54.
#[test]
fn natural_length_of_the_first_of_a_byte_index() {
    let row = chunk(&with(|span| span.glyphs[2].byte_index = 0));
    assert_eq!(advances(&row), [47.0, 43.0, 10.0]);
    assert_eq!(length_spacings(&row), [36.0, 36.0, 0.0]);
}

/// 0, 2 and 10, as P5 leaves them.
#[test]
fn natural_length_of_collapsed_clusters() {
    let row = chunk(&with(|span| span.letter_spacing = (-11f32).to_bits()));
    assert_eq!(advances(&row), [21.0, 23.0, 31.0]);
    let flags: Vec<u8> = row.clusters.iter().map(|c| c.flags).collect();
    assert_eq!(flags, [COLLAPSED, COLLAPSED, 0]);
}

/// Nothing is too narrow, as it would be for SpacingAndGlyphs; −0 less +0 is −0.
#[test]
fn natural_length_without_width() {
    let mut job = with(|span| {
        span.glyphs.iter_mut().for_each(|g| g.width = 0);
        (span.letter_spacing, span.word_spacing) = (0, 0);
        span.text_length = (-0f32).to_bits();
    });
    let row = chunk(&job);
    let bits = |floats: Vec<f32>| floats.into_iter().map(f32::to_bits).collect::<Vec<_>>();
    assert_eq!(bits(advances(&row)), [0; 3]);
    assert_eq!(bits(length_spacings(&row)), [0x8000_0000; 3]);
    job.chunks[0].spans[0].adjust = 1;
    assert_eq!(crate::rust::rows(&job).err(), Some(Refusal(9)));
}

/// By both texts it is the label; and the Rust itself knows no natural length.
#[test]
fn natural_length_that_is_none() {
    let mut unflagged = label();
    unflagged.chunks[0].spans[0].adjust = 2;
    let answer = |rows: Result<Vec<ChunkRow>, Refusal>| oracle::answer::answer(1, rows.unwrap());
    let labelled = answer(oracle::rust::rows(&label()));
    assert_eq!(answer(crate::rust::rows(&unflagged)), labelled);
    assert_eq!(answer(oracle::rust::rows(&unflagged)), labelled);
    assert_eq!(answer(oracle::rust::rows(&natural(54.0))), labelled);
}
