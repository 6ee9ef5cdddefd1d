//! The worked label by hand, and the oracle's stand-ins beside the crates themselves.

use ::unicode_script::UnicodeScript;
use beside::tables::{LISTED, ROHINGYA};
use oracle::job::Job;
use oracle::label::label;

use crate::recipe::RIGHT;
use crate::rust::{self, script_supports_letter_spacing, ApproxZeroUlps, Lookups};
use crate::transforms::{floats, Transforms};

// The other stand-in is a type that this build takes from strict-num.
#[allow(dead_code)]
#[path = "../../oracle/src/rust/numbers.rs"]
mod stand_ins;

/// The Rust's transforms, which are those of the rows.
fn transforms(job: &Job) -> Transforms {
    let rust = rust::transforms(job, Lookups::FirstGlyph);
    let rows = oracle::rust::rows(job).unwrap();
    assert_eq!(RIGHT.transforms(job, &rows).difference(&rust), None);
    rust
}

#[test]
fn the_worked_label() {
    let laid = transforms(&label());
    let span = &laid.spans[0];
    assert_eq!(
        floats(&laid.clusters[0][1].whole),
        [1.0, 0.0, 0.0, 1.0, -17.0, 0.0]
    );
    assert_eq!(floats(&span.span_ts), [1.0, 0.0, 0.0, 1.0, 100.0, 50.0]);
    assert_eq!(
        floats(&span.runs[0].transform),
        [1.0, 0.0, 0.0, 1.0, -28.0, 0.0]
    );
    assert_eq!((span.runs[0].width, span.lines[0].offset), (28.0, 2.0));
    let size = 16.0 / 2048.0;
    assert_eq!(floats(&span.glyphs[0]), [size, 0.0, 0.0, -size, 72.0, 50.0]);
}

/// P8: the upright A is 10 wide with its middle on x = 100. It stands 28 before the origin's 50, and its foot 9 below that.
#[test]
fn an_upright_glyph() {
    let mut job = label();
    job.mode = 1;
    job.chunks[0].spans[0].glyphs[0].orientation = 1;
    let laid = transforms(&job);
    let outline = &laid.spans[0].glyphs[0];
    let near = |x: f32, y: f32| assert!((x - y).abs() < 1e-4, "{x} is not {y}");
    let size = 16.0 / 2048.0;
    for (x, y) in floats(outline)
        .into_iter()
        .zip([size, 0.0, 0.0, -size, 95.0, 31.0])
    {
        near(x, y);
    }
}

/// Over all code points, the scripts that the Rust names are the tags without letter spacing, but for the one that document 02 adds.
#[test]
fn tags_without_letter_spacing() {
    for c in '\0'..=char::MAX {
        let mut names = LISTED.iter().filter(|tag| **tag != ROHINGYA);
        let listed = names.any(|tag| *tag == c.script().short_name().as_bytes());
        assert_eq!(script_supports_letter_spacing(c.script()), !listed, "{c:?}");
    }
}

/// Around zero, and at the edges of every exponent.
#[test]
fn approx_zero_ulps() {
    let sizes = (0..255u32).flat_map(|e| [0, 1, 0x7f_ffff].map(|fraction| e << 23 | fraction));
    for size in (0..100).chain(sizes) {
        for sign in [0, 1 << 31] {
            let x = f32::from_bits(size | sign);
            let stand_in = stand_ins::ApproxZeroUlps::approx_zero_ulps(&x, 4);
            assert_eq!(stand_in, ApproxZeroUlps::approx_zero_ulps(&x, 4), "{x}");
        }
    }
}
