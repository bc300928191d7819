//! Branch and bound on small integer programs: a tree of splits whose leaves linear programs settle.

use plain::certificate::{Direction, Sense};
use plain::fraction::Fraction;

use crate::constraint::{inner_product, is_small, Constraint};
use crate::prng::Prng;
use crate::simplex::{minimise, Outcome};

/// An integer program in a box. Rows 2 j and 2 j + 1 bound variable j below and above.
pub struct Program {
    pub direction: Direction,
    pub objective: Vec<Fraction>,
    pub is_integer: Vec<bool>,
    pub rows: Vec<Constraint>,
}

impl Program {
    pub fn random(prng: &mut Prng) -> Program {
        let variables = match prng.below(10) {
            0..=2 => 1,
            3..=8 => prng.from(2, 3) as usize,
            _ => prng.from(4, 6) as usize,
        };
        let is_integer: Vec<bool> = (0..variables).map(|_| prng.chance(88)).collect();
        let mut rows = Vec::new();
        let mut inside = Vec::new();
        for variable in 0..variables {
            let (least, width) = (prng.from(-3, 1), prng.from(1, 5));
            inside.push(Fraction::whole(least + prng.from(0, width)));
            rows.push(bound(variables, variable, Sense::Greater, least));
            rows.push(bound(variables, variable, Sense::Less, least + width));
        }
        let contrariness = if prng.chance(20) { 60 } else { 5 };
        for _ in 0..prng.from(0, 4) {
            rows.extend(random_row(&inside, contrariness, prng));
        }
        let is_fractional = prng.chance(15);
        let objective = (0..variables).map(|_| small_value(prng, 70, is_fractional)).collect();
        let direction = if prng.chance(50) { Direction::Min } else { Direction::Max };
        Program { direction, objective, is_integer, rows }
    }

    pub fn variables(&self) -> usize {
        self.objective.len()
    }

    /// The objective to minimise: negated under max.
    pub fn least(&self, value: Fraction) -> Fraction {
        match self.direction {
            Direction::Min => value,
            Direction::Max => value.negated(),
        }
    }

    fn costs(&self) -> Vec<Fraction> {
        self.objective.iter().map(|&value| self.least(value)).collect()
    }

    /// Every value that an integer point gives the objective is whole.
    pub fn has_whole_objective(&self) -> bool {
        self.objective.iter().zip(&self.is_integer).all(|(value, &integer)| value.is_zero() || integer && value.is_whole())
    }

    /// Minimises over some rows, the bounds first; the multipliers are those of the rows as they stand.
    pub fn relax(&self, rows: &[&Constraint]) -> Option<Outcome> {
        let greater: Vec<(usize, i32, Constraint)> = rows
            .iter()
            .enumerate()
            .flat_map(|(row, constraint)| {
                constraint.as_greater().into_iter().map(move |(sign, greater)| (row, sign, greater))
            })
            .collect();
        let constraints: Vec<Constraint> = greater.iter().map(|(_, _, constraint)| constraint.clone()).collect();
        let as_given = |multipliers: Vec<Fraction>| {
            let mut summed = vec![Fraction::ZERO; rows.len()];
            for (&(row, sign, _), multiplier) in greater.iter().zip(multipliers) {
                summed[row] = summed[row].sum(if sign < 0 { multiplier.negated() } else { multiplier })?;
            }
            summed.iter().all(|&multiplier| is_small(multiplier)).then_some(summed)
        };
        Some(match minimise(&self.costs(), &constraints)? {
            Outcome::Optimal { bound, point, multipliers } => {
                Outcome::Optimal { bound, point, multipliers: as_given(multipliers)? }
            }
            Outcome::Infeasible { multipliers } => Outcome::Infeasible { multipliers: as_given(multipliers)? },
        })
    }
}

fn bound(variables: usize, variable: usize, sense: Sense, right: i32) -> Constraint {
    let mut coefficients = vec![Fraction::ZERO; variables];
    coefficients[variable] = Fraction::ONE;
    Constraint { coefficients, sense, right: Fraction::whole(right) }
}

/// A row that the point inside the box meets, but for a percentage that may rule it out.
fn random_row(inside: &[Fraction], contrariness: usize, prng: &mut Prng) -> Option<Constraint> {
    let is_fractional = prng.chance(15);
    let coefficients: Vec<Fraction> = inside.iter().map(|_| small_value(prng, 80, is_fractional)).collect();
    let value = inner_product(&coefficients, inside)?;
    let (sense, slack) = match prng.below(10) {
        0 => (Sense::Equal, 0),
        1..=5 => (Sense::Less, prng.from(0, 3)),
        _ => (Sense::Greater, -prng.from(0, 3)),
    };
    let off = if prng.chance(contrariness) { prng.from(-12, 12) } else { 0 };
    Some(Constraint { coefficients, sense, right: value.sum(Fraction::whole(slack + off))? })
}

fn small_value(prng: &mut Prng, nonzero: usize, is_fractional: bool) -> Fraction {
    if !prng.chance(nonzero) {
        return Fraction::ZERO;
    }
    let den = if is_fractional { *prng.pick(&[1, 2, 3, 4, 5]) } else { 1 };
    Fraction::new(i64::from(prng.from(-9, 9)), den).unwrap_or(Fraction::ONE)
}

pub enum Tree {
    Leaf,
    /// coefficients x <= at, or coefficients x >= at + 1.
    Split {
        coefficients: Vec<Fraction>,
        at: Fraction,
        below: Box<Tree>,
        above: Box<Tree>,
    },
}

/// What a search found: the tree, the points that improved on those before, and the least objective of all (negated under max).
pub struct Found {
    pub tree: Tree,
    pub points: Vec<Vec<Fraction>>,
    pub best: Option<Fraction>,
}

const MOST_SPLITS: usize = 16;

/// Nothing if the tree grows too large, or a number too wide.
pub fn search(program: &Program, prng: &mut Prng) -> Option<Found> {
    let mut search = Search { program, points: Vec::new(), best: None, splits: 0 };
    let tree = search.explore(&mut Vec::new(), prng)?;
    Some(Found { tree, points: search.points, best: search.best })
}

struct Search<'a> {
    program: &'a Program,
    points: Vec<Vec<Fraction>>,
    best: Option<Fraction>,
    splits: usize,
}

impl Search<'_> {
    fn explore(&mut self, path: &mut Vec<Constraint>, prng: &mut Prng) -> Option<Tree> {
        let rows: Vec<&Constraint> = self.program.rows.iter().chain(path.iter()).collect();
        let Outcome::Optimal { bound, point, .. } = self.program.relax(&rows)? else {
            return Some(Tree::Leaf);
        };
        let reached = if self.program.has_whole_objective() { bound.ceiling() } else { bound };
        if self.best.is_some_and(|best| reached >= best) {
            return Some(Tree::Leaf);
        }
        let Some(coefficients) = self.fractional_direction(&point, prng) else {
            self.best = Some(bound);
            self.points.push(point);
            return Some(Tree::Leaf);
        };
        self.splits += 1;
        if self.splits > MOST_SPLITS {
            return None;
        }
        let at = inner_product(&coefficients, &point)?.floor();
        let [less, greater] = split(&coefficients, at)?;
        let below = Box::new(self.explore_with(less, path, prng)?);
        let above = Box::new(self.explore_with(greater, path, prng)?);
        Some(Tree::Split { coefficients, at, below, above })
    }

    fn explore_with(&mut self, row: Constraint, path: &mut Vec<Constraint>, prng: &mut Prng) -> Option<Tree> {
        path.push(row);
        let tree = self.explore(path, prng);
        path.pop();
        tree
    }

    /// Whole coefficients at integer variables by which the point has no whole value: a variable, now and then a sum.
    fn fractional_direction(&self, point: &[Fraction], prng: &mut Prng) -> Option<Vec<Fraction>> {
        let integer = &self.program.is_integer;
        let fractional: Vec<usize> = (0..point.len()).filter(|&j| integer[j] && !point[j].is_whole()).collect();
        if fractional.is_empty() {
            return None;
        }
        if prng.chance(25) {
            let direction: Vec<Fraction> =
                integer.iter().map(|&integer| Fraction::whole(if integer { prng.from(-2, 2) } else { 0 })).collect();
            if inner_product(&direction, point).is_some_and(|value| !value.is_whole()) {
                return Some(direction);
            }
        }
        let mut direction = vec![Fraction::ZERO; point.len()];
        direction[*prng.pick(&fractional)] = Fraction::ONE;
        Some(direction)
    }
}

/// Both sides of a split.
pub fn split(coefficients: &[Fraction], at: Fraction) -> Option<[Constraint; 2]> {
    let side = |sense, right| Constraint { coefficients: coefficients.to_vec(), sense, right };
    Some([side(Sense::Less, at), side(Sense::Greater, at.sum(Fraction::ONE)?)])
}
