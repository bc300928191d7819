//! A certificate under construction.

use plain::certificate::{Claim, Derivation, Direction, Left, Reason, Sense, Term};
use plain::fraction::Fraction;
use plain::reader::MOST_ASSUMPTIONS;

use crate::constraint::Constraint;
use crate::prng::Prng;

#[derive(Clone)]
pub struct Row {
    pub name: String,
    pub sense: Sense,
    pub right: Fraction,
    pub left: Left,
}

#[derive(Clone)]
pub struct Solution {
    pub name: String,
    pub terms: Vec<Term>,
}

/// `rows` has the given rows, then the derived ones.
#[derive(Clone)]
pub struct Draft {
    pub variables: Vec<String>,
    pub integers: Vec<usize>,
    pub direction: Direction,
    pub objective: Vec<Term>,
    pub bounds: usize,
    pub rows: Vec<Row>,
    pub claim: Claim,
    pub solutions: Vec<Solution>,
    pub derivations: Vec<Derivation>,
    /// Names that a row may bear once, though they are words of the format.
    odd_names: Vec<&'static str>,
}

const ODD_NAMES: [&str; 16] =
    ["{", "}", "OBJ", "L", "E", "G", "asm", "DER", "-1", "0", "%", "1/0", "VER", "infeas", "~!@#$^&*()", "0.5"];

impl Draft {
    pub fn new(variables: Vec<String>, direction: Direction) -> Draft {
        Draft {
            variables,
            integers: Vec::new(),
            direction,
            objective: Vec::new(),
            bounds: 0,
            rows: Vec::new(),
            claim: Claim::Infeas,
            solutions: Vec::new(),
            derivations: Vec::new(),
            odd_names: ODD_NAMES.to_vec(),
        }
    }

    pub fn given(&self) -> usize {
        self.rows.len() - self.derivations.len()
    }

    pub fn assumptions_left(&self) -> usize {
        let used = self.derivations.iter().filter(|derivation| matches!(derivation.reason, Reason::Asm)).count();
        MOST_ASSUMPTIONS.saturating_sub(used)
    }

    pub fn is_integer(&self) -> Vec<bool> {
        (0..self.variables.len()).map(|variable| self.integers.contains(&variable)).collect()
    }

    pub fn terms<'a>(&'a self, row: &'a Row) -> &'a [Term] {
        match &row.left {
            Left::Terms(terms) => terms,
            Left::Objective => &self.objective,
        }
    }

    pub fn dense(&self, terms: &[Term]) -> Vec<Fraction> {
        let mut values = vec![Fraction::ZERO; self.variables.len()];
        for term in terms {
            values[term.variable] = term.value;
        }
        values
    }

    pub fn constraint(&self, row: usize) -> Constraint {
        let row = &self.rows[row];
        Constraint { coefficients: self.dense(self.terms(row)), sense: row.sense, right: row.right }
    }

    /// A term list for the coefficients, in some order, now and then with a zero.
    pub fn term_list(&self, coefficients: &[Fraction], prng: &mut Prng) -> Vec<Term> {
        let mut terms = Vec::new();
        for (variable, &value) in coefficients.iter().enumerate() {
            if !value.is_zero() || prng.below(400) < 3 {
                terms.push(Term { variable, value });
            }
        }
        if prng.chance(30) {
            prng.shuffle(&mut terms);
        }
        terms
    }

    /// The left side: a term list, or `OBJ` where that fits.
    pub fn left(&self, coefficients: &[Fraction], prng: &mut Prng) -> Left {
        if prng.chance(80) && coefficients == self.dense(&self.objective) {
            Left::Objective
        } else {
            Left::Terms(self.term_list(coefficients, prng))
        }
    }

    pub fn add_given(&mut self, constraint: &Constraint, prng: &mut Prng) -> usize {
        let row = self.row(constraint, prng);
        self.rows.push(row);
        self.rows.len() - 1
    }

    /// Adds a derived row that nothing spends.
    pub fn derive(&mut self, constraint: &Constraint, reason: Reason, prng: &mut Prng) -> usize {
        let row = self.row(constraint, prng);
        self.rows.push(row);
        self.derivations.push(Derivation { reason, last: None });
        self.rows.len() - 1
    }

    fn row(&mut self, constraint: &Constraint, prng: &mut Prng) -> Row {
        let left = self.left(&constraint.coefficients, prng);
        Row { name: self.fresh_name(prng), sense: constraint.sense, right: constraint.right, left }
    }

    fn fresh_name(&mut self, prng: &mut Prng) -> String {
        if prng.below(200) == 0 && !self.odd_names.is_empty() {
            return self.odd_names.swap_remove(prng.below(self.odd_names.len())).to_string();
        }
        format!("{}{}", prng.pick(&["C", "r", "c_", "R"]), self.rows.len())
    }

    /// The rows that a reason names, in order.
    pub fn named_rows(reason: &Reason) -> Vec<usize> {
        match reason {
            Reason::Asm | Reason::Sol => Vec::new(),
            Reason::Lin(multipliers) | Reason::Rnd(multipliers) => {
                multipliers.iter().map(|multiplier| multiplier.row).collect()
            }
            &Reason::Uns { i1, l1, i2, l2 } => vec![i1, l1, i2, l2],
        }
    }

    /// For each derived row the last row that names it, if one does.
    pub fn last_uses(&self) -> Vec<Option<usize>> {
        let given = self.given();
        let mut uses = vec![None; self.derivations.len()];
        for (derived, derivation) in self.derivations.iter().enumerate() {
            for named in Draft::named_rows(&derivation.reason) {
                if named >= given {
                    uses[named - given] = Some(given + derived);
                }
            }
        }
        uses
    }

    /// Last indices that spend no row too early: none, the last use, or one above; any at all where no row names it.
    pub fn set_last_indices(&mut self, prng: &mut Prng) {
        let rows = self.rows.len();
        let uses = self.last_uses();
        for (derivation, last_use) in self.derivations.iter_mut().zip(uses) {
            derivation.last = match (prng.below(10), last_use) {
                (0..=2, _) => None,
                (3..=8, Some(last_use)) => Some(last_use),
                (_, Some(last_use)) => Some(last_use + prng.below(rows - last_use)),
                (_, None) => Some(prng.below(rows)),
            };
        }
    }
}
