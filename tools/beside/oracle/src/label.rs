//! The label of document 01. The tests show that the Rust gives for it and for P1 to P9 what the document prints.

use crate::job::{Chunk, FontRow, Glyph, Job, Span, NATURAL};

fn glyph(byte_index: u16, width: i32) -> Glyph {
    Glyph {
        id: 0,
        byte_index,
        cluster_length: 1,
        dx: 0,
        dy: 0,
        width,
        font: 0,
        tag: *b"Latn",
        orientation: 0,
    }
}

pub fn label() -> Job {
    let font = FontRow {
        units_per_em: 2048,
        ascent: 1536,
        descent: -512,
        x_height: 1024,
        underline_position: -256,
        underline_thickness: 128,
        line_through: 0,
        subscript: 0,
        superscript: 640,
    };
    let span = Span {
        start: 0,
        end: 3,
        font: 0,
        size: 16f32.to_bits(),
        letter_spacing: 1f32.to_bits(),
        word_spacing: 2f32.to_bits(),
        length_flag: 0,
        text_length: 0,
        adjust: 0,
        dominant_baseline: 0,
        alignment_baseline: 0,
        decorations: 1,
        shifts: vec![],
        glyphs: vec![glyph(0, 1280), glyph(1, 512), glyph(2, 1280)],
    };
    let chunk = Chunk {
        flags: 3,
        x: 100f32.to_bits(),
        y: 50f32.to_bits(),
        anchor: 2,
        flow: 0,
        text: b"A B".to_vec(),
        spans: vec![span],
    };
    Job {
        version: 1,
        mode: 0,
        fonts: vec![font],
        dx: vec![],
        dy: vec![],
        rotate: vec![],
        chunks: vec![chunk],
    }
}

/// The label in Hanifi Rohingya, with some letter spacing.
pub fn rohingya(letter: f32) -> Job {
    let mut job = label();
    let span = &mut job.chunks[0].spans[0];
    span.letter_spacing = letter.to_bits();
    span.glyphs.iter_mut().for_each(|g| g.tag = *b"Rohg");
    job
}

/// The label with a text length by document 02's value of adjust.
pub fn natural(length: f32) -> Job {
    let mut job = label();
    let span = &mut job.chunks[0].spans[0];
    (span.length_flag, span.text_length, span.adjust) = (1, length.to_bits(), NATURAL);
    job
}

#[cfg(test)]
mod tests {
    use super::label;
    use crate::answer::{ChunkRow, UPRIGHT};
    use crate::job::{Job, Shift, Span};
    use crate::rust::rows;

    /// The row of the label's one chunk, with one thing changed.
    fn with(change: impl FnOnce(&mut Job, &mut Span)) -> ChunkRow {
        let mut job = label();
        let mut span = job.chunks[0].spans.remove(0);
        change(&mut job, &mut span);
        job.chunks[0].spans.push(span);
        rows(&job).unwrap().remove(0)
    }

    fn advances(row: &ChunkRow) -> Vec<f32> {
        row.clusters.iter().map(|c| c.advance).collect()
    }

    fn runs(row: &ChunkRow) -> Vec<(u16, f32)> {
        row.spans[0]
            .runs
            .iter()
            .map(|r| (r.first, r.width))
            .collect()
    }

    #[test]
    fn p1_the_label_itself() {
        let row = with(|_, _| {});
        let shifts: Vec<f32> = row.clusters.iter().map(|c| c.shift.0).collect();
        assert_eq!(row.pen, (100.0, 50.0));
        assert_eq!(advances(&row), [11.0, 7.0, 10.0]);
        assert_eq!(shifts, [-28.0, -17.0, -10.0]);
        assert_eq!(runs(&row), [(0, 28.0)]);
        assert_eq!((row.spans[0].thickness, row.spans[0].under), (1.0, 2.0));
    }

    #[test]
    fn p2_text_length_by_spacing() {
        let row = with(|_, span| (span.length_flag, span.text_length) = (1, 54f32.to_bits()));
        assert_eq!(advances(&row), [25.0, 19.0, 25.0]);
        assert_eq!(row.clusters[0].shift.0, -54.0);
    }

    #[test]
    fn p3_text_length_by_spacing_and_glyphs() {
        let row = with(|_, span| {
            (span.length_flag, span.text_length, span.adjust) = (1, 48f32.to_bits(), 1)
        });
        assert_eq!(advances(&row), [11.0, 7.0, 10.0]);
        assert!(row.clusters.iter().all(|c| c.scale == 2.0));
    }

    #[test]
    fn p4_a_dx_list() {
        let row = with(|job, _| job.dx = vec![0, 3f32.to_bits()]);
        let flags: Vec<u8> = row.clusters.iter().map(|c| c.flags).collect();
        assert_eq!(flags, [0, 1, 0]);
        assert_eq!(runs(&row), [(0, 11.0), (1, 17.0)]);
    }

    #[test]
    fn p5_letter_spacing_that_collapses() {
        let row = with(|_, span| span.letter_spacing = (-11f32).to_bits());
        assert_eq!(advances(&row), [0.0, 2.0, 10.0]);
    }

    #[test]
    fn p6_alignment_middle() {
        let row = with(|_, span| span.alignment_baseline = 4);
        assert_eq!(row.spans[0].baseline_shift, 4.0);
    }

    #[test]
    fn p7_superscript() {
        let row = with(|_, span| span.shifts.push(Shift { kind: 2, number: 0 }));
        assert_eq!(row.spans[0].baseline_shift, -5.0);
    }

    #[test]
    fn p8_top_to_bottom() {
        let row = with(|job, span| (job.mode, span.glyphs[0].orientation) = (1, 1));
        let first = &row.clusters[0];
        assert_eq!(
            (first.flags, first.nudge, first.ascent),
            (UPRIGHT, 4.0, 5.0)
        );
    }

    #[test]
    fn p9_a_listed_script() {
        let row = with(|_, span| span.glyphs.iter_mut().for_each(|g| g.tag = *b"Arab"));
        assert_eq!(advances(&row), [10.0, 6.0, 10.0]);
    }
}
