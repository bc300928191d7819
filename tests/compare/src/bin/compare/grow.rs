//! Rows beyond what a proof needs, given and derived, all of them valid.

use plain::certificate::{Direction, Multiplier, Reason, Sense};
use plain::fraction::Fraction;

use crate::constraint::{combine, inner_product, Constraint};
use crate::draft::Draft;
use crate::prng::Prng;

/// Adds a given row that every solution meets.
pub fn add_given_row(draft: &mut Draft, most_terms: usize, prng: &mut Prng) -> Option<()> {
    let variables = draft.variables.len();
    let mut coefficients = vec![Fraction::ZERO; variables];
    let count = prng.below(most_terms + 1);
    for variable in prng.distinct(count, variables) {
        coefficients[variable] = Fraction::new(i64::from(prng.from(-12, 12)), *prng.pick(&[1, 1, 1, 1, 2, 3]))?;
    }
    let values = draft
        .solutions
        .iter()
        .map(|solution| inner_product(&coefficients, &draft.dense(&solution.terms)))
        .collect::<Option<Vec<Fraction>>>()?;
    let least = values.iter().min().copied().unwrap_or(Fraction::ZERO);
    let greatest = values.iter().max().copied().unwrap_or(Fraction::ZERO);
    let (sense, right) = match prng.below(5) {
        0 if least == greatest => (Sense::Equal, least),
        0..=2 => (Sense::Less, greatest.sum(slack(prng))?),
        _ => (Sense::Greater, least.sum(slack(prng).negated())?),
    };
    draft.add_given(&Constraint { coefficients, sense, right }, prng);
    Some(())
}

/// Zero or more.
fn slack(prng: &mut Prng) -> Fraction {
    if prng.chance(50) {
        return Fraction::ZERO;
    }
    Fraction::new(i64::from(prng.from(0, 9)), *prng.pick(&[1, 1, 2, 3, 10])).unwrap_or(Fraction::ZERO)
}

/// Adds a derived row by some reason; nothing is added if the attempt fails.
pub fn derive_row(draft: &mut Draft, splits: &mut Vec<[usize; 2]>, best: Option<Fraction>, prng: &mut Prng) -> Option<()> {
    match prng.below(20) {
        0..=9 => derive_combination(draft, prng),
        10..=15 => derive_rounding(draft, prng),
        16 => derive_split(draft, splits, prng),
        17..=18 => derive_joined(draft, splits, prng),
        _ => derive_cutoff(draft, best?, prng),
    }
}

fn derive_combination(draft: &mut Draft, prng: &mut Prng) -> Option<()> {
    let named = pick_rows(draft, 4, prng);
    let rows: Vec<Constraint> = named.iter().map(|&row| draft.constraint(row)).collect();
    let multipliers = suitable_multipliers(&rows.iter().collect::<Vec<_>>(), prng)?;
    let multiplied: Vec<(Fraction, &Constraint)> = multipliers.iter().copied().zip(&rows).collect();
    let combination = combine(draft.variables.len(), &multiplied).filter(Constraint::is_small)?;
    let reason = named.iter().zip(&multipliers).map(|(&row, &value)| Multiplier { row, value }).collect();
    let dominated = weaken(combination, prng)?;
    draft.derive(&dominated, Reason::Lin(reason), prng);
    Some(())
}

fn derive_rounding(draft: &mut Draft, prng: &mut Prng) -> Option<()> {
    let named = pick_rows(draft, 3, prng);
    let rows: Vec<Constraint> = named.iter().map(|&row| draft.constraint(row)).collect();
    let multipliers = rounding_multipliers(&rows.iter().collect::<Vec<_>>(), &draft.is_integer(), prng)?;
    let multiplied: Vec<(Fraction, &Constraint)> = multipliers.iter().map(|&(row, value)| (value, &rows[row])).collect();
    let combination = combine(draft.variables.len(), &multiplied)?;
    let reason = multipliers.iter().map(|&(row, value)| Multiplier { row: named[row], value }).collect();
    let dominated = weaken(combination.rounded(), prng)?;
    draft.derive(&dominated, Reason::Rnd(reason), prng);
    Some(())
}

/// Two rows that make a proper split: two assumptions, or a row that stands and its other side. Now and then a copy of one of
/// them, by `lin`, is in its place.
fn derive_split(draft: &mut Draft, splits: &mut Vec<[usize; 2]>, prng: &mut Prng) -> Option<()> {
    if draft.assumptions_left() < 2 {
        return None;
    }
    let sides = if prng.chance(50) { split_at_row(draft, prng)? } else { assume_split(draft, prng)? };
    splits.push(sides.map(|side| if prng.chance(20) { copy_row(draft, side, prng) } else { side }));
    Some(())
}

fn assume_split(draft: &mut Draft, prng: &mut Prng) -> Option<[usize; 2]> {
    if draft.integers.is_empty() {
        return None;
    }
    let mut coefficients = vec![Fraction::ZERO; draft.variables.len()];
    for _ in 0..prng.from(1, 3) {
        coefficients[*prng.pick(&draft.integers)] = Fraction::whole(prng.from(-3, 3));
    }
    let sides = crate::branch::split(&coefficients, Fraction::whole(prng.from(-4, 4)))?;
    Some(sides.map(|side| draft.derive(&side, Reason::Asm, prng)))
}

/// A row that stands, given or derived, and its other side, which is assumed.
fn split_at_row(draft: &mut Draft, prng: &mut Prng) -> Option<[usize; 2]> {
    let (row, is_integer) = (prng.below(draft.rows.len()), draft.is_integer());
    let other_side = draft.rows.get(row).and_then(|_| draft.constraint(row).other_side(&is_integer))?;
    Some([row, draft.derive(&other_side, Reason::Asm, prng)])
}

fn copy_row(draft: &mut Draft, row: usize, prng: &mut Prng) -> usize {
    let copied = draft.constraint(row);
    draft.derive(&copied, Reason::Lin(vec![Multiplier { row, value: Fraction::ONE }]), prng)
}

/// Derives a row once more, from itself and from a copy that assumes one side of a split whose other side is a row that
/// stands: nothing that the copy assumes is left. If `copied`, `uns` names a copy of the assumption in its place, which is no
/// assumption and removes none.
pub fn rejoin(draft: &mut Draft, row: usize, copied: bool, prng: &mut Prng) -> Option<usize> {
    let (constraint, [side, assumed]) = (draft.constraint(row), split_at_row(draft, prng)?);
    let multipliers = vec![Multiplier { row, value: Fraction::ONE }, Multiplier { row: assumed, value: Fraction::ZERO }];
    let leaning = draft.derive(&constraint, Reason::Lin(multipliers), prng);
    let other_side = if copied { copy_row(draft, assumed, prng) } else { assumed };
    let mut joined = [(row, side), (leaning, other_side)];
    prng.shuffle(&mut joined);
    let [(i1, l1), (i2, l2)] = joined;
    Some(draft.derive(&constraint, Reason::Uns { i1, l1, i2, l2 }, prng))
}

/// A row twice, once under each side of a split, proves itself.
fn derive_joined(draft: &mut Draft, splits: &[[usize; 2]], prng: &mut Prng) -> Option<()> {
    if splits.is_empty() || draft.rows.is_empty() {
        return None;
    }
    let row = prng.below(draft.rows.len());
    let mut split = *prng.pick(splits);
    prng.shuffle(&mut split);
    let dominated = weaken(draft.constraint(row), prng)?;
    draft.derive(&dominated, Reason::Uns { i1: row, l1: split[0], i2: row, l2: split[1] }, prng);
    Some(())
}

/// The reason `sol`: the objective is no worse than the best solution's.
pub fn derive_cutoff(draft: &mut Draft, best: Fraction, prng: &mut Prng) -> Option<()> {
    let sense = if draft.direction == Direction::Min { Sense::Less } else { Sense::Greater };
    let cutoff = Constraint { coefficients: draft.dense(&draft.objective), sense, right: best };
    let dominated = weaken(cutoff, prng)?;
    draft.derive(&dominated, Reason::Sol, prng);
    Some(())
}

fn pick_rows(draft: &Draft, most: usize, prng: &mut Prng) -> Vec<usize> {
    let count = prng.below(most + 1);
    prng.distinct(count, draft.rows.len())
}

/// Multipliers that obey the sign rule.
fn suitable_multipliers(rows: &[&Constraint], prng: &mut Prng) -> Option<Vec<Fraction>> {
    let orientation = *prng.pick(&[-1, 1]);
    rows.iter()
        .map(|row| {
            let sign = match row.sense {
                Sense::Equal => *prng.pick(&[-1, 1]),
                sense => orientation * sense.sign(),
            };
            Fraction::new(i64::from(sign * prng.from(0, 6)), *prng.pick(&[1, 1, 2, 3]))
        })
        .collect()
}

/// Multipliers of some rows whose combination can be rounded: those of a random combination, scaled so that its
/// coefficients become whole with no common divisor.
pub fn rounding_multipliers(rows: &[&Constraint], is_integer: &[bool], prng: &mut Prng) -> Option<Vec<(usize, Fraction)>> {
    let named = prng.distinct(2, rows.len());
    let picked: Vec<&Constraint> = named.iter().map(|&row| rows[row]).collect();
    let multipliers = suitable_multipliers(&picked, prng)?;
    let multiplied: Vec<(Fraction, &Constraint)> = multipliers.iter().copied().zip(picked.iter().copied()).collect();
    let combination = combine(is_integer.len(), &multiplied)?;
    if combination.sense == Sense::Equal {
        return None;
    }
    let scale = whole_scale(&combination.coefficients)?;
    let scaled = multipliers.iter().map(|multiplier| multiplier.product(scale)).collect::<Option<Vec<Fraction>>>()?;
    let multiplied: Vec<(Fraction, &Constraint)> = scaled.iter().copied().zip(picked).collect();
    combine(is_integer.len(), &multiplied).filter(|whole| whole.is_integral(is_integer) && whole.is_small())?;
    Some(named.into_iter().zip(scaled).collect())
}

/// The least positive number that makes all the values whole; 1 if they are all zero.
fn whole_scale(values: &[Fraction]) -> Option<Fraction> {
    let (mut multiple, mut divisor) = (1, 0);
    for value in values.iter().filter(|value| !value.is_zero()) {
        let (num, den) = (i64::from(value.num()).abs(), i64::from(value.den()));
        multiple = multiple / gcd(multiple, den) * den;
        divisor = gcd(divisor, num);
        if multiple > 1_000_000 {
            return None;
        }
    }
    Fraction::new(multiple, divisor.max(1))
}

fn gcd(a: i64, b: i64) -> i64 {
    if b == 0 {
        a
    } else {
        gcd(b, a % b)
    }
}

/// The constraint itself, or one that it dominates.
pub fn weaken(mut constraint: Constraint, prng: &mut Prng) -> Option<Constraint> {
    if constraint.sense == Sense::Equal && prng.chance(40) {
        constraint.sense = *prng.pick(&[Sense::Less, Sense::Greater]);
    }
    if constraint.sense != Sense::Equal && prng.chance(25) {
        let amount = slack(prng);
        constraint.right = constraint.right.sum(if constraint.sense == Sense::Less { amount } else { amount.negated() })?;
    }
    Some(constraint)
}
