//! Certificates that verify.

use plain::certificate::{Claim, Direction, Multiplier, Reason, Sense, Term};
use plain::fraction::Fraction;
use plain::reader::{MOST_ROWS, MOST_SOLUTIONS, MOST_VARIABLES};

use crate::branch::{search, Found, Program};
use crate::constraint::Constraint;
use crate::draft::{Draft, Solution};
use crate::grow::{add_given_row, derive_row, rejoin};
use crate::prng::Prng;
use crate::proof::{place, place_values, Proved, Prover};

/// How large a certificate becomes.
#[derive(Clone, Copy)]
pub struct Size {
    /// Variables that the program does not need.
    pub variables: usize,
    pub solutions: usize,
    pub given_rows: usize,
    pub derived_rows: usize,
    pub terms: usize,
    /// About how many bytes its text may take.
    pub bytes: usize,
}

impl Size {
    pub fn random(prng: &mut Prng) -> Size {
        let mut upto = |most: usize| prng.below(most + 1);
        match upto(99) {
            0..=39 => {
                Size { variables: upto(1), solutions: 1, given_rows: upto(1), derived_rows: 0, terms: 2, bytes: 2_000 }
            }
            40..=79 => Size {
                variables: upto(5),
                solutions: 3,
                given_rows: upto(6),
                derived_rows: upto(12),
                terms: 4,
                bytes: 6_000,
            },
            80..=93 => Size {
                variables: upto(40),
                solutions: 8,
                given_rows: upto(30),
                derived_rows: upto(80),
                terms: 12,
                bytes: 16_000,
            },
            94..=96 => Size {
                variables: MOST_VARIABLES,
                solutions: MOST_SOLUTIONS,
                given_rows: upto(60),
                derived_rows: upto(200),
                terms: 60,
                bytes: 29_000,
            },
            97..=98 => Size {
                variables: upto(MOST_VARIABLES),
                solutions: 20,
                given_rows: upto(300),
                derived_rows: MOST_ROWS,
                terms: 6,
                bytes: 31_000,
            },
            _ => Size {
                variables: 0,
                solutions: 1,
                given_rows: upto(MOST_ROWS),
                derived_rows: MOST_ROWS,
                terms: 1,
                bytes: 31_000,
            },
        }
    }
}

pub fn certificate(size: Size, prng: &mut Prng) -> Draft {
    loop {
        let program = Program::random(prng);
        if let Some(draft) = search(&program, prng).and_then(|found| attempt(&program, &found, size, prng)) {
            return draft;
        }
    }
}

fn attempt(program: &Program, found: &Found, size: Size, prng: &mut Prng) -> Option<Draft> {
    let variables = (program.variables() + size.variables).min(MOST_VARIABLES);
    let mut places: Vec<usize> = (0..variables).collect();
    prng.shuffle(&mut places);
    places.truncate(program.variables());

    let names = (0..variables).map(|variable| variable_name(variable, prng)).collect();
    let mut draft = Draft::new(names, program.direction);
    draft.integers = integers(program, &places, variables, prng);
    let objective = place_values(&program.objective, &places, variables);
    draft.objective = draft.term_list(&objective, prng);
    draft.solutions = solutions(&draft, found, &places, size, prng);
    let pool = add_given_rows(&mut draft, program, &places, size, prng);
    draft.bounds = if prng.chance(50) { 2 * program.variables() } else { prng.below(draft.given() + 1) };

    let proved = if prng.chance(4) { None } else { derive_rows(&mut draft, program, found, &places, pool, size, prng)? };
    draft.claim = claim(program, found.best, proved, prng);
    draft.set_last_indices(prng);
    Some(draft)
}

fn variable_name(variable: usize, prng: &mut Prng) -> String {
    match prng.below(20) {
        0 => prng.pick(&["x", "INT", "{", "-inf", "0", "%x"]).to_string(),
        1..=3 => prng.pick(&["x", "y", "z"]).to_string(),
        _ => format!("x{variable}"),
    }
}

fn integers(program: &Program, places: &[usize], variables: usize, prng: &mut Prng) -> Vec<usize> {
    let is_integer = |variable: usize| match places.iter().position(|&place| place == variable) {
        Some(own) => program.is_integer[own],
        None => variable % 3 > 0,
    };
    let mut integers: Vec<usize> = (0..variables).filter(|&variable| is_integer(variable)).collect();
    if prng.chance(30) {
        prng.shuffle(&mut integers);
    }
    integers
}

/// The points found, the best among them, and copies that differ in the variables that the program does not need.
fn solutions(draft: &Draft, found: &Found, places: &[usize], size: Size, prng: &mut Prng) -> Vec<Solution> {
    let mut points: Vec<&Vec<Fraction>> = found.points.iter().rev().take(size.solutions).collect();
    let wanted = 1 + prng.below(size.solutions);
    while !points.is_empty() && points.len() < wanted {
        points.push(*prng.pick(&points));
    }
    prng.shuffle(&mut points);
    let is_integer = draft.is_integer();
    let solution = |(number, point): (usize, &Vec<Fraction>)| {
        let mut values = place_values(point, places, draft.variables.len());
        for (variable, value) in values.iter_mut().enumerate() {
            if !places.contains(&variable) && prng.chance(15) {
                let den = if is_integer[variable] { 1 } else { *prng.pick(&[1, 2, 5]) };
                *value = Fraction::new(i64::from(prng.from(-5, 5)), den).unwrap_or(Fraction::ZERO);
            }
        }
        let name = if prng.chance(70) { format!("s{number}") } else { "a".to_string() };
        Solution { name, terms: draft.term_list(&values, prng) }
    };
    points.into_iter().enumerate().map(solution).collect()
}

/// The program's rows and others, mixed; gives the program's with their places, in the program's order.
fn add_given_rows(
    draft: &mut Draft,
    program: &Program,
    places: &[usize],
    size: Size,
    prng: &mut Prng,
) -> Vec<(usize, Constraint)> {
    let mut order: Vec<Option<usize>> = (0..program.rows.len()).map(Some).collect();
    order.extend((0..size.given_rows.min(MOST_ROWS - 64 - order.len())).map(|_| None));
    if prng.chance(50) {
        prng.shuffle(&mut order);
    }
    let mut pool = vec![0; program.rows.len()];
    for own in order {
        match own {
            Some(own) => pool[own] = draft.add_given(&place(&program.rows[own], places, draft.variables.len()), prng),
            None if estimate(draft) < size.bytes * 2 / 3 => {
                add_given_row(draft, size.terms, prng);
            }
            None => {}
        }
    }
    pool.into_iter().zip(program.rows.iter().cloned()).collect()
}

/// The proof, with other derivations before it and perhaps after it. Gives the last row, which is what it proves.
fn derive_rows(
    draft: &mut Draft,
    program: &Program,
    found: &Found,
    places: &[usize],
    mut pool: Vec<(usize, Constraint)>,
    size: Size,
    prng: &mut Prng,
) -> Option<Option<Proved>> {
    let best = found.best.map(|best| program.least(best));
    let proof_bytes = 3_000;
    let mut splits = Vec::new();
    grow(draft, &mut splits, best, size.derived_rows, size.bytes.saturating_sub(proof_bytes), prng);
    if let Some(best) = best.filter(|_| prng.chance(35)) {
        let sense = if program.direction == Direction::Min { Sense::Less } else { Sense::Greater };
        let cutoff = Constraint { coefficients: program.objective.clone(), sense, right: best };
        let row = draft.derive(&place(&cutoff, places, draft.variables.len()), Reason::Sol, prng);
        pool.push((row, cutoff));
    }
    let mut proved = Prover { program, draft, places, pool, best: found.best }.prove(&found.tree, prng)?;
    let rows = draft.rows.len();
    grow(draft, &mut splits, best, size.derived_rows / 8, size.bytes, prng);
    if draft.rows.len() > rows {
        let copied = draft.constraint(proved.row);
        let multiplier = Multiplier { row: proved.row, value: Fraction::ONE };
        proved.row = draft.derive(&copied, Reason::Lin(vec![multiplier]), prng);
    }
    if draft.assumptions_left() > 1 && prng.chance(25) {
        proved.row = rejoin(draft, proved.row, false, prng).unwrap_or(proved.row);
    }
    (draft.assumptions_left() > 0 && draft.rows.len() <= MOST_ROWS).then_some(Some(proved))
}

/// Adds derived rows up to a number of rows and of bytes, and leaves room for a proof.
fn grow(
    draft: &mut Draft,
    splits: &mut Vec<[usize; 2]>,
    best: Option<Fraction>,
    rows: usize,
    bytes: usize,
    prng: &mut Prng,
) {
    let mut size = estimate(draft);
    for _ in 0..rows {
        if size > bytes || draft.rows.len() + 100 > MOST_ROWS {
            return;
        }
        let before = draft.rows.len();
        if draft.assumptions_left() > 34 || splits.is_empty() {
            derive_row(draft, splits, best, prng);
        } else {
            derive_row(draft, &mut splits.clone(), best, prng);
        }
        size += (before..draft.rows.len()).map(|row| estimate_row(draft, row)).sum::<usize>();
    }
}

/// What the proof allows: the end that derivations prove at most what was proved, the other at least the best.
fn claim(program: &Program, best: Option<Fraction>, proved: Option<Proved>, prng: &mut Prng) -> Claim {
    if best.is_none() && proved.is_some() && prng.chance(75) {
        return Claim::Infeas;
    }
    let mut off = |percent: usize| if prng.chance(percent) { Fraction::whole(prng.from(0, 4)) } else { Fraction::ZERO };
    let bound = match proved {
        None => None,
        Some(Proved { bound: None, .. }) => Some(best.unwrap_or(off(90))),
        Some(Proved { bound: Some(bound), .. }) => Some(best.map_or(bound, |best| best.min(bound))),
    };
    let derived_end = bound.and_then(|bound| bound.sum(off(25).negated()));
    let solution_end = best.and_then(|best| best.sum(off(25)));
    let derived_end = derived_end.filter(|_| !prng.chance(8));
    let solution_end = solution_end.filter(|_| !prng.chance(15));
    match program.direction {
        Direction::Min => Claim::Range { lower: derived_end, upper: solution_end },
        Direction::Max => {
            Claim::Range { lower: solution_end.map(Fraction::negated), upper: derived_end.map(Fraction::negated) }
        }
    }
}

/// About how many bytes the text takes.
fn estimate(draft: &Draft) -> usize {
    let solutions: usize = draft.solutions.iter().map(|solution| 8 + terms_bytes(&solution.terms)).sum();
    let rows: usize = (0..draft.rows.len()).map(|row| estimate_row(draft, row)).sum();
    100 + 9 * draft.variables.len() + solutions + rows
}

fn estimate_row(draft: &Draft, row: usize) -> usize {
    let own = match &draft.rows[row].left {
        plain::certificate::Left::Terms(terms) => 14 + terms_bytes(terms),
        plain::certificate::Left::Objective => 18,
    };
    let Some(derived) = row.checked_sub(draft.given()) else { return own };
    own + 16 + 8 * Draft::named_rows(&draft.derivations[derived].reason).len()
}

fn terms_bytes(terms: &[Term]) -> usize {
    2 + 7 * terms.len()
}
