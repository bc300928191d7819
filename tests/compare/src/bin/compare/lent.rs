//! The three tables that are lent, full of noise, with cells beyond them that must stay as they are.

use plain::reader::{INDEX_CELLS, ROW_CELLS, VALUE_CELLS};

use crate::prng::Prng;

/// Cells in memory beyond the largest table that is lent.
const BEYOND: usize = 16;
/// The most cells that are lent beyond those needed.
const MOST_EXTRA: usize = 48;

/// How many cells of each table are lent.
#[derive(Clone, Copy, Debug, PartialEq, Eq)]
pub struct Cells {
    pub index: usize,
    pub values: usize,
    pub rows: usize,
}

impl Cells {
    pub const NEEDED: Cells = Cells { index: INDEX_CELLS, values: VALUE_CELLS, rows: ROW_CELLS };

    /// Exactly those needed, or some more in some of the tables.
    pub fn enough(prng: &mut Prng) -> Cells {
        let mut extra = || if prng.chance(50) { 0 } else { prng.below(MOST_EXTRA + 1) };
        let Cells { index, values, rows } = Cells::NEEDED;
        Cells { index: index + extra(), values: values + extra(), rows: rows + extra() }
    }

    /// Fewer than those needed in one table or more.
    pub fn too_few(prng: &mut Prng) -> Cells {
        let mut cells = Cells::enough(prng);
        let short = 1 + prng.below(7);
        let mut fewer = |needed: usize| match prng.below(3) {
            0 => 0,
            1 => prng.below(needed),
            _ => needed - 1,
        };
        if short & 1 > 0 {
            cells.index = fewer(INDEX_CELLS);
        }
        if short & 2 > 0 {
            cells.values = fewer(VALUE_CELLS);
        }
        if short & 4 > 0 {
            cells.rows = fewer(ROW_CELLS);
        }
        cells
    }
}

#[derive(Clone, PartialEq, Eq)]
pub struct Lent {
    pub index: Vec<u16>,
    pub values: Vec<i32>,
    pub rows: Vec<u16>,
    pub cells: Cells,
}

impl Lent {
    pub fn noise(prng: &mut Prng) -> Lent {
        let room = MOST_EXTRA + BEYOND;
        Lent {
            index: (0..INDEX_CELLS + room).map(|_| prng.next() as u16).collect(),
            values: (0..VALUE_CELLS + room).map(|_| prng.next() as i32).collect(),
            rows: (0..ROW_CELLS + room).map(|_| prng.next() as u16).collect(),
            cells: Cells::NEEDED,
        }
    }

    /// Takes the noise, turned about by some cells, and lends so many of them.
    pub fn refill(&mut self, noise: &Lent, turn: usize, cells: Cells) {
        copy_turned(&mut self.index, &noise.index, turn);
        copy_turned(&mut self.values, &noise.values, turn);
        copy_turned(&mut self.rows, &noise.rows, turn);
        self.cells = cells;
    }

    /// The tables as they are lent.
    pub fn parts(&mut self) -> (&mut [u16], &mut [i32], &mut [u16]) {
        let Cells { index, values, rows } = self.cells;
        (&mut self.index[..index], &mut self.values[..values], &mut self.rows[..rows])
    }
}

fn copy_turned<T: Copy>(cells: &mut [T], noise: &[T], turn: usize) {
    let turn = turn % noise.len();
    cells[..noise.len() - turn].copy_from_slice(&noise[turn..]);
    cells[noise.len() - turn..].copy_from_slice(&noise[..turn]);
}

/// The first cell in which two tables differ, in words.
pub fn first_difference(plain: &Lent, other: &Lent) -> Option<String> {
    differing("index", &plain.index, &other.index)
        .or_else(|| differing("value", &plain.values, &other.values))
        .or_else(|| differing("row", &plain.rows, &other.rows))
}

fn differing<T: PartialEq + std::fmt::Display>(table: &str, plain: &[T], other: &[T]) -> Option<String> {
    let cell = plain.iter().zip(other).position(|(one, two)| one != two)?;
    Some(format!("{table} table, cell {cell}: plain {}, other {}", plain[cell], other[cell]))
}
