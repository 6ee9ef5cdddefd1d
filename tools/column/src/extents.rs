//! Extents of all kinds.

use crate::random::Random;

#[derive(Clone, Copy)]
enum Kind {
    Patterns,
    Odd,
    Widths,
    Equal,
    Rising,
    Falling,
    Saw,
}

const KINDS: [Kind; 7] = [
    Kind::Patterns,
    Kind::Odd,
    Kind::Widths,
    Kind::Equal,
    Kind::Rising,
    Kind::Falling,
    Kind::Saw,
];

/// The patterns at which something begins or ends: zeros, subnormals, normals, 2^-20 and 2^20, infinities, NaNs; and some below zero.
const EDGES: [u32; 24] = [
    0,
    1,
    0x007f_ffff,
    0x0080_0000,
    0x357f_ffff,
    0x3580_0000,
    0x3f80_0000,
    0x4980_0000,
    0x4980_0001,
    0x7f7f_ffff,
    0x7f80_0000,
    0x7f80_0001,
    0x7fc0_0000,
    0x7fff_ffff,
    0x8000_0000,
    0x8000_0001,
    0x807f_ffff,
    0x8080_0000,
    0xbf80_0000,
    0xff7f_ffff,
    0xff80_0000,
    0xff80_0001,
    0xffc0_0000,
    0xffff_ffff,
];

/// The extents of one row.
pub struct Extents {
    kind: Kind,
    /// One in so many is odd, where this is not 0.
    odd: usize,
    size: f32,
    period: usize,
}

impl Extents {
    pub fn new(random: &mut Random) -> Extents {
        Extents {
            kind: random.pick(&KINDS),
            odd: random.pick(&[0, 5, 50]),
            size: width(random),
            period: 2 + random.below(150),
        }
    }

    pub fn at(&self, random: &mut Random, i: usize) -> f32 {
        if self.odd != 0 && random.one_in(self.odd) {
            return odd(random);
        }
        match self.kind {
            Kind::Patterns => pattern(random),
            Kind::Odd => odd(random),
            Kind::Widths => width(random),
            Kind::Equal => self.size,
            Kind::Rising => self.size * i as f32,
            Kind::Falling => self.size / (i + 1) as f32,
            Kind::Saw => self.size * (i % self.period) as f32,
        }
    }
}

/// A typical width, 0 to 2,000.
pub fn width(random: &mut Random) -> f32 {
    const STEPS: usize = 1 << 24;
    random.below(STEPS) as f32 * (2_000.0 / STEPS as f32)
}

pub fn odd(random: &mut Random) -> f32 {
    match random.below(6) {
        0 => pattern(random),
        1 => f32::from_bits(random.word() as u32 & 0x007f_ffff),
        2 => -width(random),
        _ => f32::from_bits(random.pick(&EDGES)),
    }
}

fn pattern(random: &mut Random) -> f32 {
    f32::from_bits(random.word() as u32)
}
