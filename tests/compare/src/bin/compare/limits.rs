//! Certificates near 01's limits: of the width of numbers, and of counts. Not all of them verify.

use plain::certificate::{Claim, Direction, Left, Multiplier, Reason, Sense, Term};
use plain::fraction::Fraction;
use plain::reader::{MOST_ASSUMPTIONS, MOST_ROWS, MOST_SOLUTIONS, MOST_VARIABLES};

use crate::constraint::{combine, Constraint};
use crate::damage::wide_value;
use crate::draft::{Draft, Solution};
use crate::grow::weaken;
use crate::prng::Prng;

// Width

/// A few rows with wide numbers and combinations of them: sums that grow too wide on the way, or fit by a little.
pub fn wide(prng: &mut Prng) -> Draft {
    if prng.chance(30) {
        return detour(prng);
    }
    let variables = prng.from(1, 4) as usize;
    let direction = *prng.pick(&[Direction::Min, Direction::Max]);
    let mut draft = Draft::new((0..variables).map(|variable| format!("x{variable}")).collect(), direction);
    draft.integers = (0..variables).filter(|_| prng.chance(75)).collect();
    let objective = values(variables, prng);
    draft.objective = draft.term_list(&objective, prng);
    for _ in 0..prng.below(4) {
        let row = Constraint { coefficients: values(variables, prng), sense: sense(prng), right: wide_or_small(prng) };
        draft.add_given(&row, prng);
    }
    if prng.chance(40) {
        add_solutions(&mut draft, prng);
    }
    for _ in 0..prng.below(6) {
        derive_wide(&mut draft, prng);
    }
    let mut end = || prng.chance(20).then(|| wide_or_small(prng));
    draft.claim = Claim::Range { lower: end(), upper: end() };
    draft
}

/// Sums of whole numbers near the limit: whether they grow too wide depends on the order in which they are taken.
fn detour(prng: &mut Prng) -> Draft {
    let variables = prng.from(2, 5) as usize;
    let mut draft = Draft::new((0..variables).map(|_| "x".to_string()).collect(), Direction::Min);
    let value = |prng: &mut Prng| {
        Fraction::whole(*prng.pick(&[2147483647, -2147483647, 2147483646, 1073741824, -1073741824, 1, -1, 0]))
    };
    for _ in 0..prng.from(2, 5) {
        let coefficients = (0..variables).map(|_| value(prng)).collect();
        draft.add_given(&Constraint { coefficients, sense: Sense::Equal, right: value(prng) }, prng);
    }
    if prng.chance(50) {
        for row in &mut draft.rows {
            (row.sense, row.right) = (Sense::Less, Fraction::whole(2147483647));
        }
        for _ in 0..prng.from(1, 3) {
            let value = |prng: &mut Prng| Fraction::whole(*prng.pick(&[1, 1, -1]));
            let terms = (0..variables).map(|variable| Term { variable, value: value(prng) }).collect();
            draft.solutions.push(Solution { name: "s".to_string(), terms });
        }
        draft.objective = draft.rows.pop().map_or(Vec::new(), |row| draft.terms(&row).to_vec());
    } else {
        let multipliers = prng
            .distinct(8, draft.rows.len())
            .into_iter()
            .map(|row| Multiplier { row, value: Fraction::whole(*prng.pick(&[1, 1, -1])) })
            .collect();
        let target = Constraint { coefficients: values(variables, prng), sense: Sense::Equal, right: Fraction::ZERO };
        draft.derive(&target, Reason::Lin(multipliers), prng);
    }
    draft.claim = Claim::Range { lower: None, upper: None };
    draft
}

fn sense(prng: &mut Prng) -> Sense {
    *prng.pick(&[Sense::Equal, Sense::Less, Sense::Less, Sense::Greater, Sense::Greater])
}

fn wide_or_small(prng: &mut Prng) -> Fraction {
    if prng.chance(50) {
        return wide_value(prng);
    }
    Fraction::new(i64::from(prng.from(-3, 3)), *prng.pick(&[1, 1, 1, 2, 3])).unwrap_or(Fraction::ONE)
}

fn values(variables: usize, prng: &mut Prng) -> Vec<Fraction> {
    (0..variables).map(|_| if prng.chance(80) { wide_or_small(prng) } else { Fraction::ZERO }).collect()
}

/// Solutions of small values, which wide rows often refuse: half of the time every given row is made to allow them.
fn add_solutions(draft: &mut Draft, prng: &mut Prng) {
    for _ in 0..prng.from(1, 3) {
        let values: Vec<Fraction> = draft.variables.iter().map(|_| Fraction::whole(prng.from(-1, 2))).collect();
        let terms = draft.term_list(&values, prng);
        draft.solutions.push(Solution { name: "s".to_string(), terms });
    }
    if prng.chance(50) {
        for row in &mut draft.rows {
            let greatest = Fraction::whole(2147483647);
            (row.sense, row.right) =
                if prng.chance(50) { (Sense::Less, greatest) } else { (Sense::Greater, greatest.negated()) };
        }
    }
}

fn derive_wide(draft: &mut Draft, prng: &mut Prng) {
    let variables = draft.variables.len();
    match prng.below(8) {
        0 => {
            let row = Constraint { coefficients: values(variables, prng), sense: sense(prng), right: wide_or_small(prng) };
            draft.derive(&row, Reason::Asm, prng);
        }
        1 => derive_wide_split(draft, prng),
        2 => {
            let sense = if draft.direction == Direction::Min { Sense::Less } else { Sense::Greater };
            let right = Fraction::whole(2147483647);
            let right = if sense == Sense::Less { right } else { right.negated() };
            draft.derive(&Constraint { coefficients: draft.dense(&draft.objective), sense, right }, Reason::Sol, prng);
        }
        _ => derive_wide_combination(draft, prng),
    }
}

/// Both sides of a split near the limit, where β + 1 may not exist, and a row that leans on it.
fn derive_wide_split(draft: &mut Draft, prng: &mut Prng) {
    let (at, above) = *prng.pick(&[
        (2147483646, 2147483647),
        (2147483647, -2147483647),
        (2147483647, 2147483647),
        (-2147483647, -2147483646),
        (0, 1),
    ]);
    let coefficients: Vec<Fraction> =
        draft.is_integer().iter().map(|&integer| if integer { Fraction::ONE } else { Fraction::ZERO }).collect();
    let mut assume = |sense, right| {
        let side = Constraint { coefficients: coefficients.clone(), sense, right: Fraction::whole(right) };
        draft.derive(&side, Reason::Asm, prng)
    };
    let (l1, l2) = (assume(Sense::Less, at), assume(Sense::Greater, above));
    let copied = prng.below(draft.rows.len());
    let joined = draft.constraint(copied);
    draft.derive(&joined, Reason::Uns { i1: copied, l1, i2: copied, l2 }, prng);
}

/// The combination itself where it fits, so that only sums on the way decide; else anything.
fn derive_wide_combination(draft: &mut Draft, prng: &mut Prng) {
    let count = prng.below(4);
    let multipliers: Vec<Multiplier> = prng
        .distinct(count, draft.rows.len())
        .into_iter()
        .map(|row| {
            let value = if prng.chance(75) { Fraction::whole(*prng.pick(&[-2, -1, 1, 1, 2])) } else { wide_or_small(prng) };
            let is_turned = draft.rows[row].sense.sign() * value.sign() < 0 && prng.chance(85);
            Multiplier { row, value: if is_turned { value.negated() } else { value } }
        })
        .collect();
    let rows: Vec<Constraint> = multipliers.iter().map(|multiplier| draft.constraint(multiplier.row)).collect();
    let multiplied: Vec<(Fraction, &Constraint)> =
        multipliers.iter().map(|multiplier| multiplier.value).zip(&rows).collect();
    let combination = combine(draft.variables.len(), &multiplied);
    let is_rounded = prng.chance(30);
    let target = combination
        .map(|combination| if is_rounded { combination.rounded() } else { combination })
        .and_then(|combination| weaken(combination, prng))
        .unwrap_or_else(|| Constraint {
            coefficients: values(draft.variables.len(), prng),
            sense: sense(prng),
            right: Fraction::ZERO,
        });
    let reason = if is_rounded { Reason::Rnd(multipliers) } else { Reason::Lin(multipliers) };
    draft.derive(&target, reason, prng);
}

// Counts

/// A certificate with one count at its limit, sometimes one beyond. It verifies if none is beyond.
pub fn full(prng: &mut Prng) -> (Draft, bool) {
    let beyond = usize::from(prng.chance(30));
    let draft = match prng.below(6) {
        0 => with_counts(MOST_VARIABLES + beyond, 1, 1, 1, prng),
        1 => with_counts(1, MOST_ROWS + beyond, 0, 0, prng),
        2 => with_counts(1, 1, MOST_SOLUTIONS + beyond, 1, prng),
        3 => {
            let given = prng.below(MOST_ROWS);
            with_counts(1, given, 1, MOST_ROWS + beyond - given, prng)
        }
        4 => {
            let given = prng.below(3);
            let mut draft = with_counts(1, given, 1, 1, prng);
            draft.bounds = given + beyond;
            draft
        }
        _ => with_assumptions(MOST_ASSUMPTIONS + beyond, prng),
    };
    (draft, beyond == 0)
}

/// Every list is as long as it may be: all variables are integer and listed, the last row names all rows before it.
fn with_counts(variables: usize, given: usize, solutions: usize, derived: usize, prng: &mut Prng) -> Draft {
    let mut draft = Draft::new((0..variables).map(|_| "x".to_string()).collect(), Direction::Min);
    draft.integers = (0..variables).collect();
    let all = |value: i32| -> Vec<Term> {
        (0..variables).map(|variable| Term { variable, value: Fraction::whole(value) }).collect()
    };
    draft.objective = all(1);
    draft.claim = Claim::Range { lower: None, upper: None };
    let empty = Constraint { coefficients: vec![Fraction::ZERO; variables], sense: Sense::Less, right: Fraction::ZERO };
    for _ in 0..given {
        draft.add_given(&empty, prng);
    }
    draft.bounds = given;
    draft.solutions = (0..solutions).map(|_| Solution { name: "s".to_string(), terms: all(3) }).collect();
    for number in 0..derived {
        let is_last = number + 1 == derived;
        let named = if is_last { draft.rows.len() } else { 0 };
        let multipliers = (0..named).map(|row| Multiplier { row, value: Fraction::ZERO }).collect();
        draft.derive(&empty, Reason::Lin(multipliers), prng);
    }
    if let Some(row) = draft.rows.first_mut().filter(|_| variables > 1) {
        row.left = Left::Terms(all(-1));
    }
    draft
}

fn with_assumptions(assumptions: usize, prng: &mut Prng) -> Draft {
    let mut draft = with_counts(2, 0, 0, 0, prng);
    for _ in 0..assumptions {
        let side = Constraint { coefficients: vec![Fraction::ONE; 2], sense: sense(prng), right: Fraction::ZERO };
        draft.derive(&side, Reason::Asm, prng);
    }
    draft
}
