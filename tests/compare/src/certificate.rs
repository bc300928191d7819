//! A certificate that was read, in the words of 000.

use crate::fraction::Fraction;

/// `min` 0, `max` 1.
#[derive(Clone, Copy, Debug, PartialEq, Eq)]
pub enum Direction {
    Min,
    Max,
}

/// `E` 0, `L` 1, `G` 2.
#[derive(Clone, Copy, Debug, PartialEq, Eq)]
pub enum Sense {
    Equal,
    Less,
    Greater,
}

impl Sense {
    /// s(C) of 000.
    pub fn sign(self) -> i32 {
        match self {
            Sense::Equal => 0,
            Sense::Less => -1,
            Sense::Greater => 1,
        }
    }
}

/// A variable with a coefficient, or with its value in a solution.
#[derive(Clone, Copy, Debug, PartialEq, Eq)]
pub struct Term {
    pub variable: usize,
    pub value: Fraction,
}

#[derive(Clone, Debug)]
pub enum Left {
    Terms(Vec<Term>),
    Objective,
}

/// A constraint, given or derived. `name` is the byte place of its name.
#[derive(Clone, Debug)]
pub struct Row {
    pub name: usize,
    pub sense: Sense,
    pub right: Fraction,
    pub left: Left,
}

#[derive(Clone, Copy, Debug, PartialEq, Eq)]
pub struct Multiplier {
    pub row: usize,
    pub value: Fraction,
}

#[derive(Clone, Debug)]
pub enum Reason {
    Asm,
    Lin(Vec<Multiplier>),
    Rnd(Vec<Multiplier>),
    Uns { i1: usize, l1: usize, i2: usize, l2: usize },
    Sol,
}

/// Why a derived row holds, and the last row that may name it; none is -1.
#[derive(Clone, Debug)]
pub struct Derivation {
    pub reason: Reason,
    pub last: Option<usize>,
}

/// A finite end is some value.
#[derive(Clone, Copy, Debug)]
pub enum Claim {
    Infeas,
    Range { lower: Option<Fraction>, upper: Option<Fraction> },
}

#[derive(Clone, Debug)]
pub struct Solution {
    pub name: usize,
    pub terms: Vec<Term>,
}

/// `rows` has the given rows, then the derived ones; `derivations` has a reason for each of the latter.
#[derive(Clone, Debug)]
pub struct Certificate {
    pub variables: usize,
    pub is_integer: Vec<bool>,
    pub direction: Direction,
    pub objective: Vec<Term>,
    pub rows: Vec<Row>,
    pub claim: Claim,
    pub solutions: Vec<Solution>,
    pub derivations: Vec<Derivation>,
    /// Byte places of the words `RTP` and `DER`.
    pub rtp: usize,
    pub der: usize,
}

impl Certificate {
    /// m of 01: the number of given rows.
    pub fn given(&self) -> usize {
        self.rows.len() - self.derivations.len()
    }

    /// The terms of a row, in listed order; the objective's for `OBJ`.
    pub fn terms<'a>(&'a self, row: &'a Row) -> &'a [Term] {
        match &row.left {
            Left::Terms(terms) => terms,
            Left::Objective => &self.objective,
        }
    }
}
