//! The derivations that a tree of splits gives.

use plain::certificate::{Direction, Multiplier, Reason, Sense};
use plain::fraction::Fraction;

use crate::branch::{split, Program, Tree};
use crate::constraint::{combine, Constraint};
use crate::draft::Draft;
use crate::grow::rounding_multipliers;
use crate::prng::Prng;
use crate::simplex::Outcome;

/// A derived row, and the bound it sets on the objective (negated under max); an absurdity sets none.
#[derive(Clone, Copy)]
pub struct Proved {
    pub row: usize,
    pub bound: Option<Fraction>,
}

pub struct Prover<'a> {
    pub program: &'a Program,
    pub draft: &'a mut Draft,
    /// Where each variable of the program stands among the draft's.
    pub places: &'a [usize],
    /// Rows that hold at the node, the program's bounds first: the draft's index, and the row in the program's variables.
    pub pool: Vec<(usize, Constraint)>,
    /// The best objective (negated under max), if a point was found.
    pub best: Option<Fraction>,
}

impl Prover<'_> {
    /// Derives that the objective is at least the best found, or an absurdity, under the assumptions in the pool.
    pub fn prove(&mut self, tree: &Tree, prng: &mut Prng) -> Option<Proved> {
        let held = self.pool.len();
        if prng.chance(15) {
            self.cut(prng);
        }
        let proved = match tree {
            Tree::Leaf => self.settle(prng),
            Tree::Split { coefficients, at, below, above } => self.branch(split(coefficients, *at)?, [below, above], prng),
        };
        self.pool.truncate(held);
        proved
    }

    fn branch(&mut self, sides: [Constraint; 2], trees: [&Tree; 2], prng: &mut Prng) -> Option<Proved> {
        let first = prng.below(2);
        let mut assumed = [0; 2];
        let mut proved = [None; 2];
        let all_at_once = prng.chance(30);
        if all_at_once {
            for (row, side) in assumed.iter_mut().zip(&sides) {
                *row = self.derive(side, Reason::Asm, prng);
            }
        }
        for side in [first, 1 - first] {
            if !all_at_once {
                assumed[side] = self.derive(&sides[side], Reason::Asm, prng);
            }
            self.pool.push((assumed[side], sides[side].clone()));
            proved[side] = Some(self.prove(trees[side], prng)?);
            self.pool.pop();
        }
        let (one, other) = (proved[first]?, proved[1 - first]?);
        let reason = Reason::Uns { i1: one.row, l1: assumed[first], i2: other.row, l2: assumed[1 - first] };
        let bound = match (one.bound, other.bound) {
            (Some(one), Some(other)) => Some(one.min(other)),
            (one, other) => one.or(other),
        };
        Some(self.conclude(bound, reason, prng))
    }

    /// A leaf: the linear program over the pool gives the multipliers.
    fn settle(&mut self, prng: &mut Prng) -> Option<Proved> {
        let rows: Vec<&Constraint> = self.pool.iter().map(|(_, constraint)| constraint).collect();
        match self.program.relax(&rows)? {
            Outcome::Infeasible { multipliers } => {
                let multipliers = self.multipliers(&multipliers, false, prng);
                // Absurdities dominate all, so this may prove the bound at once.
                let bound = self.best.filter(|_| prng.chance(30));
                Some(self.conclude(bound, Reason::Lin(multipliers), prng))
            }
            Outcome::Optimal { bound, multipliers, .. } => {
                let multipliers = self.multipliers(&multipliers, self.program.direction == Direction::Max, prng);
                let falls_short = self.best.is_some_and(|best| bound < best);
                if self.program.has_whole_objective() && (falls_short || prng.chance(60)) && self.rounds(&multipliers) {
                    return Some(self.conclude(Some(bound.ceiling()), Reason::Rnd(multipliers), prng));
                }
                let bound = self.best.filter(|&best| best <= bound && prng.chance(40)).unwrap_or(bound);
                Some(self.conclude(Some(bound), Reason::Lin(multipliers), prng))
            }
        }
    }

    /// An equality cannot be rounded (01), and only equalities may have been combined.
    fn rounds(&self, multipliers: &[Multiplier]) -> bool {
        multipliers
            .iter()
            .any(|multiplier| !multiplier.value.is_zero() && self.draft.rows[multiplier.row].sense != Sense::Equal)
    }

    /// The nonzero multipliers, and now and then a zero one; negated they give the same constraint the other way round.
    fn multipliers(&self, values: &[Fraction], negate: bool, prng: &mut Prng) -> Vec<Multiplier> {
        let mut multipliers = Vec::new();
        for ((row, _), &value) in self.pool.iter().zip(values) {
            if !value.is_zero() || prng.chance(4) {
                multipliers.push(Multiplier { row: *row, value: if negate { value.negated() } else { value } });
            }
        }
        if prng.chance(30) {
            prng.shuffle(&mut multipliers);
        }
        multipliers
    }

    /// Derives a bound on the objective, or an absurdity.
    fn conclude(&mut self, bound: Option<Fraction>, reason: Reason, prng: &mut Prng) -> Proved {
        let constraint = match bound {
            Some(bound) => {
                let sense = if self.program.direction == Direction::Min { Sense::Greater } else { Sense::Less };
                Constraint { coefficients: self.program.objective.clone(), sense, right: self.program.least(bound) }
            }
            None => absurdity(self.program.variables(), prng),
        };
        Proved { row: self.derive(&constraint, reason, prng), bound }
    }

    /// A rounded combination of rows that hold here joins the pool.
    fn cut(&mut self, prng: &mut Prng) {
        let rows: Vec<&Constraint> = self.pool.iter().map(|(_, constraint)| constraint).collect();
        let Some(multipliers) = rounding_multipliers(&rows, &self.program.is_integer, prng) else { return };
        let multiplied: Vec<(Fraction, &Constraint)> = multipliers.iter().map(|&(row, value)| (value, rows[row])).collect();
        let Some(combination) = combine(self.program.variables(), &multiplied) else { return };
        let reason = multipliers.iter().map(|&(row, value)| Multiplier { row: self.pool[row].0, value }).collect();
        let cut = combination.rounded();
        let row = self.derive(&cut, Reason::Rnd(reason), prng);
        self.pool.push((row, cut));
    }

    /// Adds a row in the program's variables.
    fn derive(&mut self, constraint: &Constraint, reason: Reason, prng: &mut Prng) -> usize {
        let placed = place(constraint, self.places, self.draft.variables.len());
        self.draft.derive(&placed, reason, prng)
    }
}

/// A constraint of the program in the draft's variables.
pub fn place(constraint: &Constraint, places: &[usize], variables: usize) -> Constraint {
    Constraint { coefficients: place_values(&constraint.coefficients, places, variables), ..constraint.clone() }
}

pub fn place_values(values: &[Fraction], places: &[usize], variables: usize) -> Vec<Fraction> {
    let mut placed = vec![Fraction::ZERO; variables];
    for (&variable, &value) in places.iter().zip(values) {
        placed[variable] = value;
    }
    placed
}

fn absurdity(variables: usize, prng: &mut Prng) -> Constraint {
    let amount = prng.from(1, 5);
    let (sense, right) =
        *prng.pick(&[(Sense::Greater, amount), (Sense::Greater, 1), (Sense::Less, -amount), (Sense::Equal, -amount)]);
    Constraint { coefficients: vec![Fraction::ZERO; variables], sense, right: Fraction::whole(right) }
}
