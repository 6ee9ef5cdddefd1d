//! Wrong readings of the rules.

use crate::rules::{extent_ok, Rules, RIGHT};

pub struct Reading {
    pub name: &'static str,
    pub rules: Rules,
}

fn reading(name: &'static str, change: fn(&mut Rules)) -> Reading {
    let mut rules = RIGHT;
    change(&mut rules);
    Reading { name, rules }
}

pub fn wrong() -> Vec<Reading> {
    vec![
        reading("span + 1", |r| r.looked_at = |span| span + 1),
        reading("span - 1", |r| r.looked_at = |span| (span - 1).max(1)),
        reading("a span of 64 is refused", |r| r.most_span = 63),
        reading("a span of 65 is accepted", |r| r.most_span = 65),
        reading("3 before 4", |r| r.order = [3, 4, 10, 19]),
        reading("10 before 4", |r| r.order = [10, 4, 3, 19]),
        reading("10 before 3", |r| r.order = [4, 10, 3, 19]),
        reading("65,536 labels", |r| r.most_labels = 65_536),
        reading("65,534 labels", |r| r.most_labels = 65_534),
        reading("a refused extent counts", |r| r.refused_counts = true),
        reading("a refused extent stays", |r| r.refused_stays = true),
        reading("-0 is kept", |r| r.widest = widest_of_either_zero),
        reading("-0 is refused", |r| r.extent_ok = ok_and_plus),
        reading("the float range of 01", |r| r.extent_ok = ok_in_range),
        reading("a refusal has the last width", |r| r.width_stays = true),
    ]
}

fn widest_of_either_zero(extents: &[f32]) -> f32 {
    let larger = |a, b| if b > a { b } else { a };
    extents.iter().copied().reduce(larger).unwrap_or(0.0)
}

fn ok_and_plus(extent: f32) -> bool {
    extent_ok(extent) && extent.is_sign_positive()
}

/// Zero, or 2^-20 to 2^20.
fn ok_in_range(extent: f32) -> bool {
    let most = (1 << 20) as f32;
    extent == 0.0 || (1.0 / most <= extent && extent <= most)
}
