//! Wrong readings of how the steps are composed, each in one place.

use oracle::answer::{ClusterRow, ROTATED, SCALED, SIDEWAYS, UPRIGHT};
use oracle::steps::{self, Step};
use tiny_skia_path::Transform;

use crate::recipe::{appended, composed, Drawn, Recipe, MIRROR, RIGHT};

pub const WRONG: &[Recipe] = &[
    Recipe {
        name: "sideways: the nudge left out",
        transform: |row| {
            sideways(row, |steps| {
                steps.remove(0);
            })
        },
        ..RIGHT
    },
    Recipe {
        name: "sideways: the nudge after the shift and the angle",
        transform: |row| sideways(row, |steps| steps.rotate_left(1)),
        ..RIGHT
    },
    Recipe {
        name: "sideways: the nudge up, not down",
        transform: |row| sideways(row, |steps| steps[0] = Step::Translate(0.0, -row.nudge)),
        ..RIGHT
    },
    Recipe {
        name: "the scale after the shift",
        transform: |row| {
            let place = usize::from(row.flags & SIDEWAYS != 0);
            swapped(row, SCALED, place)
        },
        ..RIGHT
    },
    Recipe {
        name: "the angle before the shift",
        transform: |row| {
            let last_two = steps::transform(row).len().saturating_sub(2);
            swapped(row, ROTATED, last_two)
        },
        ..RIGHT
    },
    Recipe {
        name: "upright: the nudge left out",
        path_transform: |row| {
            upright(row, |steps| {
                steps.remove(0);
            })
        },
        ..RIGHT
    },
    Recipe {
        name: "upright: the nudge after the turn",
        path_transform: |row| upright(row, |steps| steps.swap(0, 1)),
        ..RIGHT
    },
    Recipe {
        name: "upright: turned about (ascent, nudge)",
        path_transform: |row| {
            let turn = Step::RotateAt(-90.0, row.ascent, row.nudge);
            upright(row, |steps| steps[1] = turn)
        },
        ..RIGHT
    },
    Recipe {
        name: "upright: turned by 90",
        path_transform: |row| {
            let turn = Step::RotateAt(90.0, row.ascent, -row.nudge);
            upright(row, |steps| steps[1] = turn)
        },
        ..RIGHT
    },
    Recipe {
        name: "the turn of an upright cluster after its shift",
        whole: |transform, path_transform| path_transform.pre_concat(transform),
        ..RIGHT
    },
    Recipe {
        name: "a run with the turn of an upright cluster",
        run: |_, first| RIGHT.cluster(first).whole,
        ..RIGHT
    },
    Recipe {
        name: "top to bottom: turned about (0, 0)",
        text: |mode, row| about_zero(steps::text(mode, row)),
        span: |mode, row| about_zero(steps::span(mode, row)),
        ..RIGHT
    },
    Recipe {
        name: "the translation to the origin left out",
        span: |mode, row| {
            let mut all = steps::text(mode, row);
            all.push(Step::Translate(0.0, row.baseline_shift));
            all
        },
        ..RIGHT
    },
    Recipe {
        name: "the baseline shift before the turn by 90",
        span: |mode, row| {
            let mut all = steps::span(mode, row);
            all.rotate_right(1);
            all
        },
        ..RIGHT
    },
    Recipe {
        name: "the baseline shift up, not down",
        span: |mode, row| {
            let mut all = steps::span(mode, row);
            all.pop();
            all.push(Step::Translate(0.0, -row.baseline_shift));
            all
        },
        ..RIGHT
    },
    Recipe {
        name: "the units per em of the span's font",
        size: |drawn| f32::from_bits(drawn.span.size) / drawn.units(drawn.span.font),
        ..RIGHT
    },
    Recipe {
        name: "the font size of the chunk's first span",
        size: |drawn| f32::from_bits(drawn.chunk.spans[0].size) / drawn.units(drawn.glyph.font),
        ..RIGHT
    },
    Recipe {
        name: "a glyph's place before the font size",
        outline: |recipe, drawn| {
            let size = (recipe.size)(drawn);
            composed(&(recipe.span)(drawn.job.mode, drawn.span_row))
                .pre_concat(RIGHT.cluster(drawn.cluster).whole)
                .pre_concat(Transform::from_translate(drawn.glyph.x, drawn.glyph.y))
                .pre_concat(Transform::from_scale(size, size))
                .pre_concat(MIRROR)
        },
        ..RIGHT
    },
    Recipe {
        name: "an outline not mirrored",
        outline: |recipe, drawn| (RIGHT.outline)(recipe, drawn).pre_concat(MIRROR),
        ..RIGHT
    },
    Recipe {
        name: "all steps in one chain, not in groups",
        outline: |_, drawn| chain(drawn),
        ..RIGHT
    },
];

/// The right steps with an edit, where the cluster is sideways.
fn sideways(row: &ClusterRow, edit: impl Fn(&mut Vec<Step>)) -> Vec<Step> {
    edited(row, SIDEWAYS, steps::transform(row), edit)
}

fn upright(row: &ClusterRow, edit: impl Fn(&mut Vec<Step>)) -> Vec<Step> {
    edited(row, UPRIGHT, steps::path_transform(row), edit)
}

/// The step at `place` changes places with the next, where the cluster has the flag.
fn swapped(row: &ClusterRow, flag: u8, place: usize) -> Vec<Step> {
    edited(row, flag, steps::transform(row), |steps| {
        steps.swap(place, place + 1)
    })
}

fn edited(
    row: &ClusterRow,
    flag: u8,
    mut steps: Vec<Step>,
    edit: impl Fn(&mut Vec<Step>),
) -> Vec<Step> {
    if row.flags & flag != 0 {
        edit(&mut steps);
    }
    steps
}

fn about_zero(mut steps: Vec<Step>) -> Vec<Step> {
    if let Some(Step::RotateAt(angle, ..)) = steps.first().copied() {
        steps[0] = Step::Rotate(angle);
    }
    steps
}

/// Every step appended to the ones before it: the same place but for rounding.
pub fn chain(drawn: &Drawn) -> Transform {
    let size = (RIGHT.size)(drawn);
    let last = [
        Step::Scale(size, size),
        Step::Translate(drawn.glyph.x, drawn.glyph.y),
        Step::Scale(1.0, -1.0),
    ];
    let parts = [
        steps::span(drawn.job.mode, drawn.span_row),
        steps::transform(drawn.cluster),
        steps::path_transform(drawn.cluster),
        last.to_vec(),
    ];
    parts.iter().flatten().fold(Transform::default(), appended)
}

/// What a glyph's place is added up from, signs dropped: rounding is measured by it.
pub fn sizes(drawn: &Drawn) -> f64 {
    let (row, span, glyph) = (drawn.cluster, drawn.span_row, drawn.glyph);
    let stretch = row.scale.abs().max(1.0) as f64;
    let size = (RIGHT.size)(drawn) as f64;
    let of_span = [span.origin.0, span.origin.1, span.baseline_shift];
    let of_cluster = [row.shift.0, row.shift.1, row.nudge, row.ascent];
    let of_glyph = [glyph.x, glyph.y];
    sum(&of_span) + stretch * (sum(&of_cluster) + size * sum(&of_glyph))
}

fn sum(floats: &[f32]) -> f64 {
    floats.iter().map(|x| x.abs() as f64).sum()
}
