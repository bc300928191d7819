//! Small linear programs, solved exactly on their dual, so that each answer comes with the multipliers that prove it.

use plain::fraction::Fraction;

use crate::constraint::Constraint;

pub enum Outcome {
    /// The multipliers combine the rows to: objective >= bound. The point reaches the bound.
    Optimal { bound: Fraction, point: Vec<Fraction>, multipliers: Vec<Fraction> },
    /// The multipliers combine the rows to: 0 >= a positive number.
    Infeasible { multipliers: Vec<Fraction> },
}

const MOST_PIVOTS: usize = 60;

/// Minimises the objective over rows of sense G. Row 2 j is x_j >= a number, row 2 j + 1 is -x_j >= a number: one of them
/// makes a first basis of the dual. Nothing if a number grows too wide or the pivots do not end.
pub fn minimise(objective: &[Fraction], rows: &[Constraint]) -> Option<Outcome> {
    let mut tableau = Tableau::new(objective, rows)?;
    for _ in 0..MOST_PIVOTS {
        let Some(entering) = tableau.reduced.iter().position(|cost| cost.sign() > 0) else {
            return tableau.optimum(objective, rows);
        };
        match tableau.leaving(entering)? {
            Some(leaving) => tableau.pivot(leaving, entering)?,
            None => return Some(tableau.ray(entering)),
        }
    }
    None
}

/// The dual: maximise sum right_i y_i with sum coefficients_i y_i = objective, y >= 0.
struct Tableau {
    /// For each basic column its row of the tableau.
    cells: Vec<Vec<Fraction>>,
    basis: Vec<usize>,
    basic_values: Vec<Fraction>,
    reduced: Vec<Fraction>,
}

impl Tableau {
    fn new(objective: &[Fraction], rows: &[Constraint]) -> Option<Tableau> {
        let mut tableau = Tableau {
            cells: Vec::new(),
            basis: Vec::new(),
            basic_values: Vec::new(),
            reduced: rows.iter().map(|row| row.right).collect(),
        };
        for (variable, &cost) in objective.iter().enumerate() {
            let is_upper = cost.sign() < 0;
            let column = 2 * variable + usize::from(is_upper);
            let signed = |value: Fraction| if is_upper { value.negated() } else { value };
            let cells: Vec<Fraction> = rows.iter().map(|row| signed(row.coefficients[variable])).collect();
            subtract(&mut tableau.reduced, rows[column].right, &cells)?;
            tableau.cells.push(cells);
            tableau.basis.push(column);
            tableau.basic_values.push(signed(cost));
        }
        Some(tableau)
    }

    /// The basic column that leaves: the least ratio, then the least column (Bland).
    fn leaving(&self, entering: usize) -> Option<Option<usize>> {
        let mut best: Option<(Fraction, usize, usize)> = None;
        for (basic, cells) in self.cells.iter().enumerate() {
            if cells[entering].sign() > 0 {
                let ratio = self.basic_values[basic].product(inverse(cells[entering]))?;
                let candidate = (ratio, self.basis[basic], basic);
                if best.is_none_or(|best| (candidate.0, candidate.1) < (best.0, best.1)) {
                    best = Some(candidate);
                }
            }
        }
        Some(best.map(|(_, _, basic)| basic))
    }

    fn pivot(&mut self, leaving: usize, entering: usize) -> Option<()> {
        let scale = inverse(self.cells[leaving][entering]);
        for cell in &mut self.cells[leaving] {
            *cell = cell.product(scale)?;
        }
        self.basic_values[leaving] = self.basic_values[leaving].product(scale)?;
        let pivot_cells = self.cells[leaving].clone();
        let pivot_value = self.basic_values[leaving];
        for basic in (0..self.cells.len()).filter(|&basic| basic != leaving) {
            let factor = self.cells[basic][entering];
            subtract(&mut self.cells[basic], factor, &pivot_cells)?;
            self.basic_values[basic] = self.basic_values[basic].sum(factor.product(pivot_value)?.negated())?;
        }
        let factor = self.reduced[entering];
        subtract(&mut self.reduced, factor, &pivot_cells)?;
        self.basis[leaving] = entering;
        Some(())
    }

    fn optimum(&self, objective: &[Fraction], rows: &[Constraint]) -> Option<Outcome> {
        let mut multipliers = vec![Fraction::ZERO; rows.len()];
        for (&column, &value) in self.basis.iter().zip(&self.basic_values) {
            multipliers[column] = value;
        }
        // The reduced cost of x_j >= right is right - x_j.
        let coordinate = |variable: usize| rows[2 * variable].right.sum(self.reduced[2 * variable].negated());
        let point = (0..objective.len()).map(coordinate).collect::<Option<Vec<Fraction>>>()?;
        let bound = crate::constraint::inner_product(objective, &point)?;
        Some(Outcome::Optimal { bound, point, multipliers })
    }

    fn ray(&self, entering: usize) -> Outcome {
        let mut multipliers = vec![Fraction::ZERO; self.reduced.len()];
        multipliers[entering] = Fraction::ONE;
        for (&column, cells) in self.basis.iter().zip(&self.cells) {
            multipliers[column] = cells[entering].negated();
        }
        Outcome::Infeasible { multipliers }
    }
}

fn inverse(value: Fraction) -> Fraction {
    let (num, den) = (i64::from(value.num()), i64::from(value.den()));
    Fraction::new(den * num.signum(), num.abs()).expect("the inverse of a fraction is a fraction")
}

/// row := row - factor * other.
fn subtract(row: &mut [Fraction], factor: Fraction, other: &[Fraction]) -> Option<()> {
    if factor.is_zero() {
        return Some(());
    }
    for (cell, &amount) in row.iter_mut().zip(other) {
        *cell = cell.sum(factor.product(amount)?.negated())?;
    }
    Some(())
}
