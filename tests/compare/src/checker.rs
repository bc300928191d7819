//! What a certificate that was read must meet: refusals 9 to 18, in 01's order of checks.

use std::cmp::Ordering;

use crate::certificate::{Certificate, Claim, Direction, Multiplier, Reason, Row, Sense, Solution, Term};
use crate::fraction::Fraction;
use crate::refusal::*;

pub fn check(certificate: &Certificate) -> Result<(), Refusal> {
    let best = check_solutions(certificate)?;
    let assumptions = check_derivations(certificate, best)?;
    check_claim(certificate, &assumptions)
}

fn require(condition: bool, reason: u8, place: usize) -> Result<(), Refusal> {
    if condition {
        Ok(())
    } else {
        Err(Refusal::new(reason, place))
    }
}

// Solutions

/// All solutions, then all objectives, then what the claim asks of them. Gives the best objective.
fn check_solutions(certificate: &Certificate) -> Result<Option<Fraction>, Refusal> {
    for solution in &certificate.solutions {
        check_solution(certificate, solution)?;
    }
    let best = best_objective(certificate)?;
    require(claim_is_reached(certificate, best), CLAIM_NOT_REACHED, certificate.rtp)?;
    Ok(best)
}

/// "values of integer variables are whole, else 9; then each given row in order".
fn check_solution(certificate: &Certificate, solution: &Solution) -> Result<(), Refusal> {
    let point = dense(certificate.variables, &solution.terms);
    let integral = point.iter().zip(&certificate.is_integer).all(|(value, &integer)| !integer || value.is_whole());
    require(integral, BAD_SOLUTION, solution.name)?;
    for row in &certificate.rows[..certificate.given()] {
        let left = left_side(certificate.terms(row), &point).ok_or(Refusal::new(RESULT_TOO_WIDE, solution.name))?;
        require(holds(left, row.sense, row.right), BAD_SOLUTION, solution.name)?;
    }
    Ok(())
}

/// "starts at 0 and adds coefficient times value in listed order"; nothing if a product or sum is too wide.
fn left_side(terms: &[Term], point: &[Fraction]) -> Option<Fraction> {
    terms.iter().try_fold(Fraction::ZERO, |sum, term| sum.sum(term.value.product(point[term.variable])?))
}

fn holds(left: Fraction, sense: Sense, right: Fraction) -> bool {
    match sense {
        Sense::Equal => left == right,
        Sense::Less => left <= right,
        Sense::Greater => left >= right,
    }
}

/// The least objective under min, the greatest under max, if there is a solution.
fn best_objective(certificate: &Certificate) -> Result<Option<Fraction>, Refusal> {
    let mut best: Option<Fraction> = None;
    for solution in &certificate.solutions {
        let point = dense(certificate.variables, &solution.terms);
        let objective = left_side(&certificate.objective, &point).ok_or(Refusal::new(RESULT_TOO_WIDE, solution.name))?;
        best = Some(match (best, certificate.direction) {
            (None, _) => objective,
            (Some(best), Direction::Min) => best.min(objective),
            (Some(best), Direction::Max) => best.max(objective),
        });
    }
    Ok(best)
}

/// "If min with ub finite, some objective is at most ub; if max with lb finite, some is at least lb".
fn claim_is_reached(certificate: &Certificate, best: Option<Fraction>) -> bool {
    match (certificate.claim, certificate.direction) {
        (Claim::Range { upper: Some(upper), .. }, Direction::Min) => best.is_some_and(|best| best <= upper),
        (Claim::Range { lower: Some(lower), .. }, Direction::Max) => best.is_some_and(|best| best >= lower),
        _ => true,
    }
}

// Constraints

/// The values of all variables; those that the list leaves out have 0.
fn dense(variables: usize, terms: &[Term]) -> Vec<Fraction> {
    let mut values = vec![Fraction::ZERO; variables];
    for term in terms {
        values[term.variable] = term.value;
    }
    values
}

/// A constraint with a coefficient for each variable.
struct Constraint {
    coefficients: Vec<Fraction>,
    sense: Sense,
    right: Fraction,
}

impl Constraint {
    fn of(certificate: &Certificate, row: &Row) -> Constraint {
        let coefficients = dense(certificate.variables, certificate.terms(row));
        Constraint { coefficients, sense: row.sense, right: row.right }
    }

    fn on_objective(certificate: &Certificate, sense: Sense, right: Fraction) -> Constraint {
        Constraint { coefficients: dense(certificate.variables, &certificate.objective), sense, right }
    }

    /// "0 ≥ β with β > 0, 0 ≤ β with β < 0, or 0 = β with β ≠ 0" (000).
    fn is_absurd(&self) -> bool {
        let right_is_absurd = match self.sense {
            Sense::Equal => self.right.sign() != 0,
            Sense::Less => self.right.sign() < 0,
            Sense::Greater => self.right.sign() > 0,
        };
        right_is_absurd && self.coefficients.iter().all(|coefficient| coefficient.is_zero())
    }

    /// Domination of 000: "absurdities dominate all; otherwise equal coefficients".
    fn dominates(&self, other: &Constraint) -> bool {
        self.is_absurd() || self.right_dominates(other) && self.coefficients == other.coefficients
    }

    fn right_dominates(&self, other: &Constraint) -> bool {
        let order = self.right.cmp(&other.right);
        match (self.sense, other.sense) {
            (Sense::Greater | Sense::Equal, Sense::Greater) => order != Ordering::Less,
            (Sense::Less | Sense::Equal, Sense::Less) => order != Ordering::Greater,
            (Sense::Equal, Sense::Equal) => order == Ordering::Equal,
            _ => false,
        }
    }

    /// Every coefficient is whole, and nonzero only at integer variables.
    fn is_integral(&self, is_integer: &[bool]) -> bool {
        self.coefficients
            .iter()
            .zip(is_integer)
            .all(|(coefficient, &integer)| coefficient.is_zero() || integer && coefficient.is_whole())
    }

    /// Rounding of 000; nothing if it cannot be rounded.
    fn rounded(self, is_integer: &[bool]) -> Option<Constraint> {
        let right = match self.sense {
            Sense::Equal => return None,
            Sense::Less => self.right.floor(),
            Sense::Greater => self.right.ceiling(),
        };
        self.is_integral(is_integer).then_some(Constraint { right, ..self })
    }

    /// Adds a row times its multiplier: "each listed term in order (product, then sum for that variable), then the right
    /// side"; nothing at the first too wide.
    fn plus(mut self, multiplier: Fraction, terms: &[Term], right: Fraction) -> Option<Constraint> {
        for term in terms {
            let coefficient = &mut self.coefficients[term.variable];
            *coefficient = coefficient.sum(multiplier.product(term.value)?)?;
        }
        self.right = self.right.sum(multiplier.product(right)?)?;
        Some(self)
    }
}

// Derivations

/// A set of assumptions: a bit for each `asm` row, of which there are at most 64.
type Assumptions = u64;

/// Checks each derived row; gives the assumption set of every row.
fn check_derivations(certificate: &Certificate, best: Option<Fraction>) -> Result<Vec<Assumptions>, Refusal> {
    let bits = assumption_bits(certificate);
    let mut sets = vec![0; certificate.given()];
    for row in certificate.given()..certificate.rows.len() {
        check_row(certificate, row, best)?;
        sets.push(assumptions_of(certificate, row, &sets, &bits));
    }
    Ok(sets)
}

fn reason_of(certificate: &Certificate, row: usize) -> Option<&Reason> {
    let derived = row.checked_sub(certificate.given())?;
    Some(&certificate.derivations[derived].reason)
}

fn is_assumption(certificate: &Certificate, row: usize) -> bool {
    matches!(reason_of(certificate, row), Some(Reason::Asm))
}

/// The bit of each `asm` row, in order; other rows have none.
fn assumption_bits(certificate: &Certificate) -> Vec<Assumptions> {
    let mut next = 0;
    let mut bits = vec![0; certificate.rows.len()];
    for (row, bit) in bits.iter_mut().enumerate() {
        if is_assumption(certificate, row) {
            *bit = 1 << next;
            next += 1;
        }
    }
    bits
}

fn assumptions_of(certificate: &Certificate, row: usize, sets: &[Assumptions], bits: &[Assumptions]) -> Assumptions {
    match reason_of(certificate, row) {
        Some(Reason::Asm) => bits[row],
        Some(Reason::Lin(multipliers) | Reason::Rnd(multipliers)) => {
            multipliers.iter().fold(0, |union, multiplier| union | sets[multiplier.row])
        }
        Some(&Reason::Uns { i1, l1, i2, l2 }) => sets[i1] & !bits[l1] | sets[i2] & !bits[l2],
        Some(Reason::Sol) | None => 0,
    }
}

/// "first 11, over the rows its reason names", then what the reason asks.
fn check_row(certificate: &Certificate, row: usize, best: Option<Fraction>) -> Result<(), Refusal> {
    let place = certificate.rows[row].name;
    let Some(reason) = reason_of(certificate, row) else { return Ok(()) };
    check_not_spent(certificate, row, reason)?;
    let target = || Constraint::of(certificate, &certificate.rows[row]);
    match reason {
        Reason::Asm => Ok(()),
        Reason::Lin(multipliers) => {
            let combination = combine(certificate, multipliers, place)?;
            require(combination.dominates(&target()), NO_DOMINATION, place)
        }
        Reason::Rnd(multipliers) => {
            let combination = combine(certificate, multipliers, place)?;
            let rounded = combination.rounded(&certificate.is_integer).ok_or(Refusal::new(CANNOT_BE_ROUNDED, place))?;
            require(rounded.dominates(&target()), NO_DOMINATION, place)
        }
        &Reason::Uns { i1, l1, i2, l2 } => {
            require(is_proper_split(certificate, l1, l2), NO_PROPER_SPLIT, place)?;
            let (one, other) = (&certificate.rows[i1], &certificate.rows[i2]);
            let both_dominate = Constraint::of(certificate, one).dominates(&target())
                && Constraint::of(certificate, other).dominates(&target());
            require(both_dominate, NO_DOMINATION, place)
        }
        Reason::Sol => {
            let best = best.ok_or(Refusal::new(NO_SOLUTION_LISTED, place))?;
            let sense = match certificate.direction {
                Direction::Min => Sense::Less,
                Direction::Max => Sense::Greater,
            };
            let cutoff = Constraint::on_objective(certificate, sense, best);
            require(cutoff.dominates(&target()), NO_DOMINATION, place)
        }
    }
}

fn check_not_spent(certificate: &Certificate, row: usize, reason: &Reason) -> Result<(), Refusal> {
    let any_spent = match reason {
        Reason::Asm | Reason::Sol => false,
        Reason::Lin(multipliers) | Reason::Rnd(multipliers) => {
            multipliers.iter().any(|multiplier| is_spent(certificate, multiplier.row, row))
        }
        &Reason::Uns { i1, l1, i2, l2 } => [i1, l1, i2, l2].iter().any(|&named| is_spent(certificate, named, row)),
    };
    require(!any_spent, SPENT_ROW, certificate.rows[row].name)
}

/// "A derived row is spent for rows above its last index; -1 means never; given rows never."
fn is_spent(certificate: &Certificate, named: usize, row: usize) -> bool {
    let derived = named.checked_sub(certificate.given());
    derived.and_then(|derived| certificate.derivations[derived].last).is_some_and(|last| row > last)
}

/// 13, then 12. The sense is an equality if every multiplier times sign is zero, whatever cancels.
fn combine(certificate: &Certificate, multipliers: &[Multiplier], place: usize) -> Result<Constraint, Refusal> {
    let sense = suitable_sense(certificate, multipliers).ok_or(Refusal::new(NOT_SUITABLE, place))?;
    let coefficients = vec![Fraction::ZERO; certificate.variables];
    let start = Constraint { coefficients, sense, right: Fraction::ZERO };
    multipliers
        .iter()
        .try_fold(start, |combination, multiplier| {
            let row = &certificate.rows[multiplier.row];
            combination.plus(multiplier.value, certificate.terms(row), row.right)
        })
        .ok_or(Refusal::new(RESULT_TOO_WIDE, place))
}

/// The sign rule of 000; nothing if the multipliers are not suitable.
fn suitable_sense(certificate: &Certificate, multipliers: &[Multiplier]) -> Option<Sense> {
    let sign = |multiplier: &Multiplier| multiplier.value.sign() * certificate.rows[multiplier.row].sense.sign();
    let positive = multipliers.iter().any(|multiplier| sign(multiplier) > 0);
    let negative = multipliers.iter().any(|multiplier| sign(multiplier) < 0);
    match (positive, negative) {
        (true, true) => None,
        (true, false) => Some(Sense::Greater),
        (false, true) => Some(Sense::Less),
        (false, false) => Some(Sense::Equal),
    }
}

/// "coefficients equal and whole, nonzero only at integer variables; one is L with whole β, the other G with exactly β + 1
/// (never 12)". That both are `asm` rows is no longer asked (request 3 of 02).
fn is_proper_split(certificate: &Certificate, l1: usize, l2: usize) -> bool {
    let one = Constraint::of(certificate, &certificate.rows[l1]);
    let other = Constraint::of(certificate, &certificate.rows[l2]);
    let (less, greater) = match (one.sense, other.sense) {
        (Sense::Less, Sense::Greater) => (one, other),
        (Sense::Greater, Sense::Less) => (other, one),
        _ => return false,
    };
    less.coefficients == greater.coefficients
        && less.is_integral(&certificate.is_integer)
        && less.right.is_whole()
        && greater.right.is_whole()
        && i64::from(less.right.num()) + 1 == i64::from(greater.right.num())
}

// The claim

fn check_claim(certificate: &Certificate, assumptions: &[Assumptions]) -> Result<(), Refusal> {
    let asked = match (certificate.claim, certificate.direction) {
        (Claim::Infeas, _) => None,
        (Claim::Range { lower: Some(lower), .. }, Direction::Min) => {
            Some(Constraint::on_objective(certificate, Sense::Greater, lower))
        }
        (Claim::Range { upper: Some(upper), .. }, Direction::Max) => {
            Some(Constraint::on_objective(certificate, Sense::Less, upper))
        }
        (Claim::Range { .. }, _) => return Ok(()),
    };
    if certificate.derivations.is_empty() {
        return Err(Refusal::new(CLAIM_NOT_PROVED, certificate.der));
    }
    let last = certificate.rows.len() - 1;
    let proved = Constraint::of(certificate, &certificate.rows[last]);
    let is_proof = match asked {
        None => proved.is_absurd(),
        Some(asked) => proved.dominates(&asked),
    };
    require(is_proof && assumptions[last] == 0, CLAIM_NOT_PROVED, certificate.rows[last].name)
}
