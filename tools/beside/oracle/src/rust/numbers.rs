//! Stand-ins for what the cut text takes from the crate strict-num.

#[derive(Clone, Copy, Debug)]
pub struct NonZeroPositiveF32(f32);

impl NonZeroPositiveF32 {
    pub fn new(x: f32) -> Option<Self> {
        (x.is_finite() && x > 0.0).then_some(NonZeroPositiveF32(x))
    }

    pub fn get(self) -> f32 {
        self.0
    }
}

pub trait ApproxZeroUlps {
    fn approx_zero_ulps(&self, ulps: u32) -> bool;
}

impl ApproxZeroUlps for f32 {
    fn approx_zero_ulps(&self, ulps: u32) -> bool {
        *self == 0.0 || self.to_bits() <= ulps
    }
}
