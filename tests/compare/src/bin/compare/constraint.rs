//! Constraints with a coefficient for each variable, and their combinations, as the generator works them out.

use plain::certificate::Sense;
use plain::fraction::Fraction;

#[derive(Clone, Debug)]
pub struct Constraint {
    pub coefficients: Vec<Fraction>,
    pub sense: Sense,
    pub right: Fraction,
}

impl Constraint {
    /// A x >= right as it stands, A x <= right negated, an equality both ways; with the sign by which each was multiplied.
    pub fn as_greater(&self) -> Vec<(i32, Constraint)> {
        let signs: &[i32] = match self.sense {
            Sense::Greater => &[1],
            Sense::Less => &[-1],
            Sense::Equal => &[1, -1],
        };
        signs.iter().map(|&sign| (sign, self.with_sign(sign))).collect()
    }

    fn with_sign(&self, sign: i32) -> Constraint {
        let signed = |value: Fraction| if sign < 0 { value.negated() } else { value };
        let coefficients = self.coefficients.iter().map(|&value| signed(value)).collect();
        Constraint { coefficients, sense: Sense::Greater, right: signed(self.right) }
    }

    /// Every coefficient is whole and stands at an integer variable, or is zero.
    pub fn is_integral(&self, is_integer: &[bool]) -> bool {
        let fits = |(value, &integer): (&Fraction, &bool)| value.is_zero() || integer && value.is_whole();
        self.coefficients.iter().zip(is_integer).all(fits)
    }

    /// The other side of a split that has this constraint as one side, if there is one.
    pub fn other_side(&self, is_integer: &[bool]) -> Option<Constraint> {
        if !self.is_integral(is_integer) || !self.right.is_whole() {
            return None;
        }
        let (sense, step) = match self.sense {
            Sense::Less => (Sense::Greater, Fraction::ONE),
            Sense::Greater => (Sense::Less, Fraction::ONE.negated()),
            Sense::Equal => return None,
        };
        Some(Constraint { coefficients: self.coefficients.clone(), sense, right: self.right.sum(step)? })
    }

    /// The right side rounded to the next whole number that keeps every integer point.
    pub fn rounded(mut self) -> Constraint {
        self.right = match self.sense {
            Sense::Less => self.right.floor(),
            _ => self.right.ceiling(),
        };
        self
    }

    /// Numbers so small that sums of a few such constraints stay within the limit.
    pub fn is_small(&self) -> bool {
        self.coefficients.iter().all(|&value| is_small(value)) && is_small(self.right)
    }
}

pub fn is_small(value: Fraction) -> bool {
    value.num().unsigned_abs() <= 20_000 && value.den() <= 200
}

/// The sum of products, or nothing if a number grows too wide.
pub fn inner_product(left: &[Fraction], right: &[Fraction]) -> Option<Fraction> {
    left.iter().zip(right).try_fold(Fraction::ZERO, |sum, (a, b)| sum.sum(a.product(*b)?))
}

/// A suitable linear combination (000), or nothing if it is none or a number grows too wide.
pub fn combine(variables: usize, multiplied: &[(Fraction, &Constraint)]) -> Option<Constraint> {
    let signs = || multiplied.iter().map(|(multiplier, row)| multiplier.sign() * row.sense.sign());
    let sense = match (signs().any(|sign| sign > 0), signs().any(|sign| sign < 0)) {
        (true, true) => return None,
        (true, false) => Sense::Greater,
        (false, true) => Sense::Less,
        (false, false) => Sense::Equal,
    };
    let mut sum = Constraint { coefficients: vec![Fraction::ZERO; variables], sense, right: Fraction::ZERO };
    for (multiplier, row) in multiplied {
        for (total, &coefficient) in sum.coefficients.iter_mut().zip(&row.coefficients) {
            if !coefficient.is_zero() {
                *total = total.sum(multiplier.product(coefficient)?)?;
            }
        }
        sum.right = sum.right.sum(multiplier.product(row.right)?)?;
    }
    Some(sum)
}
