//! Fractions in lowest terms, with a positive denominator, within the limit.

use std::cmp::Ordering;

/// The greatest numerator magnitude and the greatest denominator.
pub const LIMIT: u64 = 2_147_483_647;

#[derive(Clone, Copy, Debug, PartialEq, Eq)]
pub struct Fraction {
    num: i32,
    den: i32,
}

impl Fraction {
    pub const ZERO: Fraction = Fraction { num: 0, den: 1 };
    pub const ONE: Fraction = Fraction { num: 1, den: 1 };

    /// `num / den` in lowest terms, or nothing if that is too wide. The denominator is positive.
    pub fn new(num: i64, den: i64) -> Option<Fraction> {
        let divisor = if den == 1 { 1 } else { gcd(num.unsigned_abs(), den.unsigned_abs()) };
        let magnitude = num.unsigned_abs() / divisor;
        let den = den.unsigned_abs() / divisor;
        if magnitude > LIMIT || den > LIMIT {
            return None;
        }
        let magnitude = magnitude as i32;
        Some(Fraction { num: if num < 0 { -magnitude } else { magnitude }, den: den as i32 })
    }

    /// A whole number, of magnitude at most the limit.
    pub fn whole(number: i32) -> Fraction {
        Fraction { num: number, den: 1 }
    }

    pub fn negated(self) -> Fraction {
        Fraction { num: -self.num, den: self.den }
    }

    pub fn num(self) -> i32 {
        self.num
    }

    pub fn den(self) -> i32 {
        self.den
    }

    pub fn is_zero(self) -> bool {
        self.num == 0
    }

    pub fn is_whole(self) -> bool {
        self.den == 1
    }

    /// -1, 0 or 1.
    pub fn sign(self) -> i32 {
        self.num.signum()
    }

    /// Numerators and denominators are below 2^31, so nothing here leaves an i64.
    pub fn product(self, other: Fraction) -> Option<Fraction> {
        Fraction::new(i64::from(self.num) * i64::from(other.num), i64::from(self.den) * i64::from(other.den))
    }

    /// Two products below 2^62 - 2^32 + 2 are added, so nothing here leaves an i64.
    pub fn sum(self, other: Fraction) -> Option<Fraction> {
        let (a, b) = (i64::from(self.num), i64::from(self.den));
        let (c, d) = (i64::from(other.num), i64::from(other.den));
        Fraction::new(a * d + c * b, b * d)
    }

    pub fn floor(self) -> Fraction {
        Fraction { num: self.num.div_euclid(self.den), den: 1 }
    }

    pub fn ceiling(self) -> Fraction {
        Fraction { num: -(-self.num).div_euclid(self.den), den: 1 }
    }
}

impl Ord for Fraction {
    fn cmp(&self, other: &Fraction) -> Ordering {
        let left = i64::from(self.num) * i64::from(other.den);
        let right = i64::from(other.num) * i64::from(self.den);
        left.cmp(&right)
    }
}

impl PartialOrd for Fraction {
    fn partial_cmp(&self, other: &Fraction) -> Option<Ordering> {
        Some(self.cmp(other))
    }
}

fn gcd(mut a: u64, mut b: u64) -> u64 {
    while b != 0 {
        (a, b) = (b, a % b);
    }
    a
}

#[cfg(test)]
mod tests {
    use super::*;

    fn fraction(num: i64, den: i64) -> Fraction {
        Fraction::new(num, den).unwrap()
    }

    #[test]
    fn rounding_goes_by_the_number_and_not_toward_zero() {
        assert_eq!(fraction(-1, 2).floor(), fraction(-1, 1));
        assert_eq!(fraction(-1, 2).ceiling(), fraction(0, 1));
        assert_eq!(fraction(-3, 1).floor(), fraction(-3, 1));
        assert_eq!(fraction(7, 2).floor(), fraction(3, 1));
        assert_eq!(fraction(7, 2).ceiling(), fraction(4, 1));
    }

    #[test]
    fn products_on_either_side_of_the_limit() {
        assert_eq!(fraction(1, 65536).product(fraction(1, 32767)), Some(fraction(1, 2147418112)));
        assert_eq!(fraction(1, 65536).product(fraction(1, 32768)), None);
        assert_eq!(fraction(-2147483647, 1).product(fraction(2147483647, 1)), None);
        assert_eq!(fraction(2147483647, 2).product(fraction(2, 2147483647)), Some(Fraction::ONE));
    }

    #[test]
    fn a_sum_is_wide_only_in_lowest_terms() {
        assert_eq!(fraction(1, 2147483646).sum(fraction(1, 2147483646)), Some(fraction(1, 1073741823)));
        assert_eq!(fraction(1, 2147483647).sum(fraction(1, 2147483646)), None);
        assert_eq!(fraction(2147483647, 1).sum(fraction(1, 1)), None);
        let (widest, least) = (fraction(2147483647, 2147483646), fraction(-2147483647, 2147483646));
        assert_eq!(widest.sum(least), Some(Fraction::ZERO));
        assert_eq!(widest.sum(widest), Some(fraction(2147483647, 1073741823)));
    }

    #[test]
    fn comparison_is_exact() {
        assert!(fraction(2147483646, 2147483647) > fraction(2147483645, 2147483646));
        assert!(fraction(-2147483647, 1) < fraction(-2147483647, 2));
    }
}
