//! **Read a certificate**: text and three lent tables to a filled set of tables, or a refusal.

use std::collections::HashSet;

use crate::certificate::{Certificate, Claim, Derivation, Direction, Left, Multiplier, Reason, Row, Sense, Solution, Term};
use crate::fraction::Fraction;
use crate::refusal::*;
use crate::text::{skip_comments, skip_separators, skip_token};
use crate::value::{are_digits, read_value};

pub const MOST_BYTES: usize = 32_768;
pub const INDEX_CELLS: usize = 16_384;
pub const VALUE_CELLS: usize = 16_384;
pub const ROW_CELLS: usize = 4 * (MOST_ROWS + MOST_SOLUTIONS);
pub const MOST_VARIABLES: usize = 256;
pub const MOST_ROWS: usize = 1_024;
pub const MOST_SOLUTIONS: usize = 64;
pub const MOST_ASSUMPTIONS: usize = 64;

/// `OBJ` instead of a term list, and a last index of -1.
const NO_NUMBER: u16 = 65_535;

/// The three tables lent by the caller, and how much of them is filled.
pub struct Tables<'a> {
    index: &'a mut [u16],
    values: &'a mut [i32],
    rows: &'a mut [u16],
    cells_filled: usize,
    values_filled: usize,
}

impl<'a> Tables<'a> {
    pub fn new(index: &'a mut [u16], values: &'a mut [i32], rows: &'a mut [u16]) -> Tables<'a> {
        Tables { index, values, rows, cells_filled: 0, values_filled: 0 }
    }

    pub fn are_too_small(&self) -> bool {
        self.index.len() < INDEX_CELLS || self.values.len() < VALUE_CELLS || self.rows.len() < ROW_CELLS
    }

    /// "every cell not named here is 0, also in cells beyond those needed".
    pub fn clear(&mut self) {
        self.index.fill(0);
        self.values.fill(0);
        self.rows.fill(0);
    }

    fn add_cell(&mut self, number: usize) {
        self.index[self.cells_filled] = number as u16;
        self.cells_filled += 1;
    }

    fn add_value(&mut self, value: Fraction) {
        self.values[2 * self.values_filled] = value.num();
        self.values[2 * self.values_filled + 1] = value.den();
        self.values_filled += 1;
    }

    /// What stands next in the index and value tables belongs to this row: "byte place of the name, its length, index cell
    /// where its sense stands, number of its right-hand value", or for a solution "cell of its count, number of values read
    /// before it".
    fn mark_row(&mut self, row: usize, name: Token) {
        let mark = [name.place, name.bytes.len(), self.cells_filled, self.values_filled];
        for (cell, number) in self.rows[4 * row..].iter_mut().zip(mark) {
            *cell = number as u16;
        }
    }
}

#[derive(Clone, Copy)]
struct Token<'t> {
    place: usize,
    bytes: &'t [u8],
}

impl Token<'_> {
    fn refuse<T>(self, reason: u8) -> Result<T, Refusal> {
        Err(Refusal::new(reason, self.place))
    }
}

/// The indices that stand in one list so far, a bit for each.
struct Seen([u64; MOST_ROWS / 64]);

impl Seen {
    fn none() -> Seen {
        Seen([0; MOST_ROWS / 64])
    }

    /// Whether the index is new.
    fn insert(&mut self, index: usize) -> bool {
        let (word, bit) = (&mut self.0[index / 64], 1 << (index % 64));
        let is_new = *word & bit == 0;
        *word |= bit;
        is_new
    }
}

/// Reads the text, which is not too long, into the tables, which are clear and large enough.
pub fn read<'t>(text: &'t [u8], tables: &mut Tables) -> Result<Certificate, Refusal> {
    let mut reader = Reader { text, place: skip_comments(text), tables, names: HashSet::new(), assumptions: 0 };
    let certificate = reader.certificate()?;
    match reader.next_token() {
        Some(token) => token.refuse(TOKEN_AFTER_THE_LAST),
        None => Ok(certificate),
    }
}

struct Reader<'t, 'a, 'b> {
    text: &'t [u8],
    place: usize,
    tables: &'a mut Tables<'b>,
    /// The names of constraints read so far.
    names: HashSet<&'t [u8]>,
    /// How often the reason `asm` was read.
    assumptions: usize,
}

/// Tokens.
impl<'t> Reader<'t, '_, '_> {
    fn next_token(&mut self) -> Option<Token<'t>> {
        let place = skip_separators(self.text, self.place);
        self.place = skip_token(self.text, place);
        let bytes = &self.text[place..self.place];
        (!bytes.is_empty()).then_some(Token { place, bytes })
    }

    /// A token that is due: 3, then 4 for "a byte outside 33 to 126".
    fn token(&mut self) -> Result<Token<'t>, Refusal> {
        let Some(token) = self.next_token() else {
            return Err(Refusal::new(TEXT_ENDS, self.text.len()));
        };
        if token.bytes.iter().all(|byte| (33..=126).contains(byte)) {
            Ok(token)
        } else {
            token.refuse(NOT_OF_THE_KIND)
        }
    }

    /// A fixed word; its place.
    fn word(&mut self, word: &[u8]) -> Result<usize, Refusal> {
        let token = self.token()?;
        if token.bytes == word {
            Ok(token.place)
        } else {
            token.refuse(NOT_OF_THE_KIND)
        }
    }

    /// One of several words, each with what it means.
    fn choice<T: Copy>(&mut self, words: &[(&[u8], T)]) -> Result<T, Refusal> {
        let token = self.token()?;
        self.choice_of(token, words)
    }

    /// The cell takes the word's number among the choices.
    fn choice_of<T: Copy>(&mut self, token: Token<'t>, words: &[(&[u8], T)]) -> Result<T, Refusal> {
        match words.iter().position(|(word, _)| token.bytes == *word) {
            Some(number) => {
                self.tables.add_cell(number);
                Ok(words[number].1)
            }
            None => token.refuse(NOT_OF_THE_KIND),
        }
    }

    fn count(&mut self, most: usize) -> Result<usize, Refusal> {
        let token = self.token()?;
        self.number(token, most + 1)
    }

    /// An index below the bound.
    fn index(&mut self, bound: usize) -> Result<usize, Refusal> {
        let token = self.token()?;
        self.number(token, bound)
    }

    /// An index of a list with distinct indices.
    fn distinct_index(&mut self, bound: usize, seen: &mut Seen) -> Result<usize, Refusal> {
        let token = self.token()?;
        let index = self.number(token, bound)?;
        if seen.insert(index) {
            Ok(index)
        } else {
            token.refuse(USED_BEFORE)
        }
    }

    /// "Counts and indices are digits only, leading zeros allowed": 4, then 5.
    fn number(&mut self, token: Token<'t>, bound: usize) -> Result<usize, Refusal> {
        if !are_digits(token.bytes) {
            return token.refuse(NOT_OF_THE_KIND);
        }
        let digits = token.bytes.iter().map(|digit| usize::from(digit - b'0'));
        let number = digits.fold(0usize, |number, digit| number.saturating_mul(10).saturating_add(digit));
        if number >= bound {
            return token.refuse(OUT_OF_RANGE);
        }
        self.tables.add_cell(number);
        Ok(number)
    }

    fn value(&mut self) -> Result<Fraction, Refusal> {
        let token = self.token()?;
        self.value_of(token)
    }

    fn value_of(&mut self, token: Token<'t>) -> Result<Fraction, Refusal> {
        let value = read_value(token.bytes).or_else(|reason| token.refuse(reason))?;
        self.tables.add_value(value);
        Ok(value)
    }

    fn constraint_name(&mut self) -> Result<Token<'t>, Refusal> {
        let token = self.token()?;
        if self.names.insert(token.bytes) {
            Ok(token)
        } else {
            token.refuse(USED_BEFORE)
        }
    }
}

/// Sections, in 01's order.
impl Reader<'_, '_, '_> {
    fn certificate(&mut self) -> Result<Certificate, Refusal> {
        self.word(b"VER")?;
        self.word(b"1.0")?;
        let variables = self.variables()?;
        let is_integer = self.integers(variables)?;
        let (direction, objective) = self.objective(variables)?;
        let mut rows = self.given_rows(variables)?;
        let rtp = self.word(b"RTP")?;
        let claim = self.claim()?;
        let solutions = self.solutions(variables)?;
        let der = self.word(b"DER")?;
        let derivations = self.derivations(variables, &mut rows)?;
        Ok(Certificate { variables, is_integer, direction, objective, rows, claim, solutions, derivations, rtp, der })
    }

    /// `VAR` n, n names.
    fn variables(&mut self) -> Result<usize, Refusal> {
        self.word(b"VAR")?;
        let variables = self.count(MOST_VARIABLES)?;
        for _ in 0..variables {
            self.token()?;
        }
        Ok(variables)
    }

    /// `INT`, a count, that many variable indices.
    fn integers(&mut self, variables: usize) -> Result<Vec<bool>, Refusal> {
        self.word(b"INT")?;
        let mut is_integer = vec![false; variables];
        let mut seen = Seen::none();
        for _ in 0..self.count(variables)? {
            is_integer[self.distinct_index(variables, &mut seen)?] = true;
        }
        Ok(is_integer)
    }

    /// `OBJ`, `min` or `max`, a term list.
    fn objective(&mut self, variables: usize) -> Result<(Direction, Vec<Term>), Refusal> {
        self.word(b"OBJ")?;
        let direction = self.choice(&[(b"min", Direction::Min), (b"max", Direction::Max)])?;
        let count = self.count(variables)?;
        Ok((direction, self.terms(count, variables)?))
    }

    /// `CON` m b, m rows.
    fn given_rows(&mut self, variables: usize) -> Result<Vec<Row>, Refusal> {
        self.word(b"CON")?;
        let given = self.count(MOST_ROWS)?;
        self.count(given)?;
        (0..given).map(|row| self.row(row, variables)).collect()
    }

    /// `infeas`, or `range` and two ends.
    fn claim(&mut self) -> Result<Claim, Refusal> {
        if self.choice(&[(b"infeas", true), (b"range", false)])? {
            return Ok(Claim::Infeas);
        }
        Ok(Claim::Range { lower: self.end(b"-inf")?, upper: self.end(b"inf")? })
    }

    /// An end of a range: "0 infinite (`-inf` only below, `inf` only above), 1 with a value".
    fn end(&mut self, infinite: &[u8]) -> Result<Option<Fraction>, Refusal> {
        let token = self.token()?;
        if token.bytes == infinite {
            self.tables.add_cell(0);
            return Ok(None);
        }
        self.tables.add_cell(1);
        self.value_of(token).map(Some)
    }

    /// `SOL` s, then s times a name and a term list.
    fn solutions(&mut self, variables: usize) -> Result<Vec<Solution>, Refusal> {
        self.word(b"SOL")?;
        let solutions = self.count(MOST_SOLUTIONS)?;
        (0..solutions).map(|solution| self.solution(solution, variables)).collect()
    }

    fn solution(&mut self, solution: usize, variables: usize) -> Result<Solution, Refusal> {
        let name = self.token()?;
        self.tables.mark_row(MOST_ROWS + solution, name);
        let count = self.count(variables)?;
        Ok(Solution { name: name.place, terms: self.terms(count, variables)? })
    }

    /// After `DER`: d, then d times a row, `{`, a reason, `}`, a last index.
    fn derivations(&mut self, variables: usize, rows: &mut Vec<Row>) -> Result<Vec<Derivation>, Refusal> {
        let given = rows.len();
        let derived = self.count(MOST_ROWS - given)?;
        let mut derivations = Vec::with_capacity(derived);
        for row in given..given + derived {
            rows.push(self.row(row, variables)?);
            self.word(b"{")?;
            let reason = self.reason(row)?;
            self.word(b"}")?;
            derivations.push(Derivation { reason, last: self.last_index(given + derived)? });
        }
        Ok(derivations)
    }
}

/// Rows, term lists, reasons.
impl Reader<'_, '_, '_> {
    /// A name, a sense, a value, then a term list or `OBJ`.
    fn row(&mut self, row: usize, variables: usize) -> Result<Row, Refusal> {
        let name = self.constraint_name()?;
        self.tables.mark_row(row, name);
        let sense = self.choice(&[(b"E", Sense::Equal), (b"L", Sense::Less), (b"G", Sense::Greater)])?;
        let right = self.value()?;
        Ok(Row { name: name.place, sense, right, left: self.left(variables)? })
    }

    fn left(&mut self, variables: usize) -> Result<Left, Refusal> {
        let token = self.token()?;
        if token.bytes == b"OBJ" {
            self.tables.add_cell(usize::from(NO_NUMBER));
            return Ok(Left::Objective);
        }
        let count = self.number(token, variables + 1)?;
        self.terms(count, variables).map(Left::Terms)
    }

    /// The pairs of a term list whose count was read.
    fn terms(&mut self, count: usize, variables: usize) -> Result<Vec<Term>, Refusal> {
        let mut seen = Seen::none();
        (0..count).map(|_| Ok(Term { variable: self.distinct_index(variables, &mut seen)?, value: self.value()? })).collect()
    }

    fn reason(&mut self, row: usize) -> Result<Reason, Refusal> {
        let token = self.token()?;
        match self.choice_of(token, &[(b"asm", 'a'), (b"lin", 'l'), (b"rnd", 'r'), (b"uns", 'u'), (b"sol", 's')])? {
            'a' => self.assumption(token),
            'l' => self.multipliers(row).map(Reason::Lin),
            'r' => self.multipliers(row).map(Reason::Rnd),
            'u' => {
                Ok(Reason::Uns { i1: self.index(row)?, l1: self.index(row)?, i2: self.index(row)?, l2: self.index(row)? })
            }
            _ => Ok(Reason::Sol),
        }
    }

    /// "The 65th word `asm` is 5."
    fn assumption(&mut self, word: Token) -> Result<Reason, Refusal> {
        self.assumptions += 1;
        if self.assumptions > MOST_ASSUMPTIONS {
            return word.refuse(OUT_OF_RANGE);
        }
        Ok(Reason::Asm)
    }

    /// "multipliers 0 to the row's own index; a named row below its own index".
    fn multipliers(&mut self, row: usize) -> Result<Vec<Multiplier>, Refusal> {
        let mut seen = Seen::none();
        let count = self.count(row)?;
        (0..count).map(|_| Ok(Multiplier { row: self.distinct_index(row, &mut seen)?, value: self.value()? })).collect()
    }

    /// Below m + d, or "exactly `-1`".
    fn last_index(&mut self, rows: usize) -> Result<Option<usize>, Refusal> {
        let token = self.token()?;
        if token.bytes == b"-1" {
            self.tables.add_cell(usize::from(NO_NUMBER));
            return Ok(None);
        }
        self.number(token, rows).map(Some)
    }
}
