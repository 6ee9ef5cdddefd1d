//! Whole numbers of 1,024 bits: as many as a chunk's exact layout can need over one denominator.

use std::cmp::Ordering;
use std::ops::{Add, AddAssign, Neg, Sub};

const LIMBS: usize = 16;

/// Two's complement, the lowest limb first.
#[derive(Clone, Copy, PartialEq, Eq)]
pub struct Whole([u64; LIMBS]);

impl Whole {
    pub const ZERO: Whole = Whole([0; LIMBS]);

    pub fn from(n: u64) -> Whole {
        let mut limbs = [0; LIMBS];
        limbs[0] = n;
        Whole(limbs)
    }

    pub fn is_negative(self) -> bool {
        self.0[LIMBS - 1] >> 63 == 1
    }

    pub fn size(self) -> Whole {
        if self.is_negative() {
            -self
        } else {
            self
        }
    }

    pub fn times(self, n: i64) -> Whole {
        let size = self.size().times_unsigned(n.unsigned_abs());
        if self.is_negative() != (n < 0) {
            -size
        } else {
            size
        }
    }

    fn times_unsigned(self, n: u64) -> Whole {
        let mut carry = 0;
        let limbs = self.0.map(|limb| {
            let product = limb as u128 * n as u128 + carry;
            carry = product >> 64;
            product as u64
        });
        assert!(carry == 0 && limbs[LIMBS - 1] >> 63 == 0, "too large");
        Whole(limbs)
    }

    pub fn shifted(self, bits: u32) -> Whole {
        (0..bits / 32)
            .fold(self, |n, _| n.times(1 << 32))
            .times(1 << (bits % 32))
    }

    /// The quotient, where it is whole.
    pub fn divided(self, n: u64) -> Whole {
        let (quotient, rest) = self.size().quotient_and_rest(n);
        assert!(rest == 0, "not a multiple of {n}");
        if self.is_negative() {
            -quotient
        } else {
            quotient
        }
    }

    /// Of a number that is not negative.
    pub fn rest(self, n: u64) -> u64 {
        self.quotient_and_rest(n).1
    }

    fn quotient_and_rest(self, n: u64) -> (Whole, u64) {
        let mut limbs = [0; LIMBS];
        let mut rest = 0u128;
        for i in (0..LIMBS).rev() {
            let all = rest << 64 | self.0[i] as u128;
            limbs[i] = (all / n as u128) as u64;
            rest = all % n as u128;
        }
        (Whole(limbs), rest as u64)
    }

    pub fn as_f64(self) -> f64 {
        let limbs = self.size().0;
        let size = limbs
            .iter()
            .rev()
            .fold(0.0, |x, &limb| x * 2f64.powi(64) + limb as f64);
        if self.is_negative() {
            -size
        } else {
            size
        }
    }
}

impl Add for Whole {
    type Output = Whole;

    fn add(self, other: Whole) -> Whole {
        let mut limbs = [0; LIMBS];
        let mut carry = false;
        for (i, limb) in limbs.iter_mut().enumerate() {
            let (sum, one) = self.0[i].overflowing_add(other.0[i]);
            let (sum, two) = sum.overflowing_add(carry as u64);
            (*limb, carry) = (sum, one || two);
        }
        Whole(limbs)
    }
}

impl AddAssign for Whole {
    fn add_assign(&mut self, other: Whole) {
        *self = *self + other;
    }
}

impl Neg for Whole {
    type Output = Whole;

    fn neg(self) -> Whole {
        Whole(self.0.map(|limb| !limb)) + Whole::from(1)
    }
}

impl Sub for Whole {
    type Output = Whole;

    fn sub(self, other: Whole) -> Whole {
        self + -other
    }
}

impl Ord for Whole {
    fn cmp(&self, other: &Whole) -> Ordering {
        let signs = other.is_negative().cmp(&self.is_negative());
        signs.then_with(|| self.0.iter().rev().cmp(other.0.iter().rev()))
    }
}

impl PartialOrd for Whole {
    fn partial_cmp(&self, other: &Whole) -> Option<Ordering> {
        Some(self.cmp(other))
    }
}

#[cfg(test)]
mod tests {
    use super::*;

    #[test]
    fn signed_arithmetic() {
        let minus_seven = -Whole::from(7);
        assert!(minus_seven < Whole::ZERO && minus_seven < -Whole::from(6));
        assert!(minus_seven.times(-3) == Whole::from(21));
        assert!(Whole::from(21).shifted(200).divided(7) == Whole::from(3).shifted(200));
        assert!(minus_seven - Whole::from(1) == -Whole::from(8));
        assert_eq!(
            (minus_seven.as_f64(), Whole::from(1).shifted(149).rest(7)),
            (-7.0, 4)
        );
    }
}
