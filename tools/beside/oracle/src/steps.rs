//! The steps of a transform, from the identity on, as document 01 has them from an answer's rows.

use crate::answer::{self, ClusterRow, SpanRow};

#[derive(Clone, Copy, Debug, PartialEq)]
pub enum Step {
    Translate(f32, f32),
    Scale(f32, f32),
    Rotate(f32),
    RotateAt(f32, f32, f32),
}

pub const TOP_TO_BOTTOM: u8 = 1;

/// "Translate (0, nudge) if 4, scale (scale, 1) if 8, translate (shift x, shift y), rotate angle if 16."
pub fn transform(row: &ClusterRow) -> Vec<Step> {
    let steps = [
        (answer::SIDEWAYS, Step::Translate(0.0, row.nudge)),
        (answer::SCALED, Step::Scale(row.scale, 1.0)),
        (0, Step::Translate(row.shift.0, row.shift.1)),
        (answer::ROTATED, Step::Rotate(row.angle)),
    ];
    let taken = steps
        .into_iter()
        .filter(|&(flag, _)| row.flags & flag == flag);
    taken.map(|(_, step)| step).collect()
}

/// "With 2 there is also `path_transform`: translate (0, nudge), rotate −90 about (ascent, −nudge)."
pub fn path_transform(row: &ClusterRow) -> Vec<Step> {
    if row.flags & answer::UPRIGHT == 0 {
        return vec![];
    }
    vec![
        Step::Translate(0.0, row.nudge),
        Step::RotateAt(-90.0, row.ascent, -row.nudge),
    ]
}

/// "The host turns a top-to-bottom span by 90 about its origin."
pub fn text(mode: u8, row: &SpanRow) -> Vec<Step> {
    if mode != TOP_TO_BOTTOM {
        return vec![];
    }
    vec![Step::RotateAt(90.0, row.origin.0, row.origin.1)]
}

/// Behind the text's turn: to the origin, then to the baseline.
pub fn span(mode: u8, row: &SpanRow) -> Vec<Step> {
    let mut steps = text(mode, row);
    steps.push(Step::Translate(row.origin.0, row.origin.1));
    steps.push(Step::Translate(0.0, row.baseline_shift));
    steps
}
