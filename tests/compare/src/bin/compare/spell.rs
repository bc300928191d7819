//! Certificates to tokens, and tokens to texts, in many spellings.

use plain::certificate::{Claim, Direction, Left, Multiplier, Reason, Sense, Term};
use plain::fraction::Fraction;

use crate::draft::{Draft, Row};
use crate::exponents;
use crate::prng::Prng;

#[derive(Clone, Copy, Debug, PartialEq, Eq)]
pub enum Kind {
    Section,
    Word,
    VariableName,
    SolutionName,
    RowName,
    Count,
    Index,
    Sense,
    Value,
    Brace,
    Last,
}

#[derive(Clone, Debug)]
pub struct Token {
    pub kind: Kind,
    pub bytes: Vec<u8>,
}

/// The tokens of a certificate. `oddness` is the percentage of numbers that are not written in the plain way.
pub fn tokens(draft: &Draft, oddness: usize, prng: &mut Prng) -> Vec<Token> {
    let mut speller = Speller { tokens: Vec::new(), oddness, prng };
    speller.certificate(draft);
    speller.tokens
}

struct Speller<'a> {
    tokens: Vec<Token>,
    oddness: usize,
    prng: &'a mut Prng,
}

impl Speller<'_> {
    fn add(&mut self, kind: Kind, bytes: &str) {
        self.tokens.push(Token { kind, bytes: bytes.as_bytes().to_vec() });
    }

    fn number(&mut self, kind: Kind, number: usize) {
        let zeros = if self.prng.below(1_000) < self.oddness { self.prng.below(25) } else { 0 };
        self.add(kind, &format!("{}{number}", "0".repeat(zeros)));
    }

    fn value(&mut self, value: Fraction) {
        let spelled = if self.prng.chance(self.oddness) { odd_value(value, self.prng) } else { plain_value(value) };
        self.add(Kind::Value, &spelled);
    }

    fn certificate(&mut self, draft: &Draft) {
        self.add(Kind::Section, "VER");
        self.add(Kind::Word, "1.0");
        self.add(Kind::Section, "VAR");
        self.number(Kind::Count, draft.variables.len());
        for name in &draft.variables {
            self.add(Kind::VariableName, name);
        }
        self.add(Kind::Section, "INT");
        self.number(Kind::Count, draft.integers.len());
        for &variable in &draft.integers {
            self.number(Kind::Index, variable);
        }
        self.add(Kind::Section, "OBJ");
        self.add(Kind::Word, if draft.direction == Direction::Min { "min" } else { "max" });
        self.terms(&draft.objective);
        self.add(Kind::Section, "CON");
        self.number(Kind::Count, draft.given());
        self.number(Kind::Count, draft.bounds);
        for row in &draft.rows[..draft.given()] {
            self.row(row);
        }
        self.add(Kind::Section, "RTP");
        self.claim(draft.claim);
        self.add(Kind::Section, "SOL");
        self.number(Kind::Count, draft.solutions.len());
        for solution in &draft.solutions {
            self.add(Kind::SolutionName, &solution.name);
            self.terms(&solution.terms);
        }
        self.add(Kind::Section, "DER");
        self.number(Kind::Count, draft.derivations.len());
        for (row, derivation) in draft.rows[draft.given()..].iter().zip(&draft.derivations) {
            self.row(row);
            self.add(Kind::Brace, "{");
            self.reason(&derivation.reason);
            self.add(Kind::Brace, "}");
            match derivation.last {
                Some(last) => self.number(Kind::Last, last),
                None => self.add(Kind::Last, "-1"),
            }
        }
    }

    fn terms(&mut self, terms: &[Term]) {
        self.number(Kind::Count, terms.len());
        for term in terms {
            self.number(Kind::Index, term.variable);
            self.value(term.value);
        }
    }

    fn row(&mut self, row: &Row) {
        self.add(Kind::RowName, &row.name);
        self.add(
            Kind::Sense,
            match row.sense {
                Sense::Equal => "E",
                Sense::Less => "L",
                Sense::Greater => "G",
            },
        );
        self.value(row.right);
        match &row.left {
            Left::Terms(terms) => self.terms(terms),
            Left::Objective => self.add(Kind::Word, "OBJ"),
        }
    }

    fn claim(&mut self, claim: Claim) {
        match claim {
            Claim::Infeas => self.add(Kind::Word, "infeas"),
            Claim::Range { lower, upper } => {
                self.add(Kind::Word, "range");
                self.end(lower, "-inf");
                self.end(upper, "inf");
            }
        }
    }

    fn end(&mut self, end: Option<Fraction>, infinite: &str) {
        match end {
            Some(value) => self.value(value),
            None => self.add(Kind::Word, infinite),
        }
    }

    fn reason(&mut self, reason: &Reason) {
        match reason {
            Reason::Asm => self.add(Kind::Word, "asm"),
            Reason::Sol => self.add(Kind::Word, "sol"),
            Reason::Lin(multipliers) => self.multipliers("lin", multipliers),
            Reason::Rnd(multipliers) => self.multipliers("rnd", multipliers),
            &Reason::Uns { i1, l1, i2, l2 } => {
                self.add(Kind::Word, "uns");
                for row in [i1, l1, i2, l2] {
                    self.number(Kind::Index, row);
                }
            }
        }
    }

    fn multipliers(&mut self, word: &str, multipliers: &[Multiplier]) {
        self.add(Kind::Word, word);
        self.number(Kind::Count, multipliers.len());
        for multiplier in multipliers {
            self.number(Kind::Index, multiplier.row);
            self.value(multiplier.value);
        }
    }
}

fn plain_value(value: Fraction) -> String {
    if value.is_whole() {
        value.num().to_string()
    } else {
        format!("{}/{}", value.num(), value.den())
    }
}

/// Another spelling of the same value, within 18 digits; a fifth of them with an exponent, where the value allows it.
fn odd_value(value: Fraction, prng: &mut Prng) -> String {
    if prng.chance(20) {
        if let Some(spelled) = exponents::spelled(value, prng) {
            return spelled;
        }
    }
    let sign = if value.num() < 0 || value.num() == 0 && prng.chance(20) { "-" } else { "" };
    let (num, den) = (value.num().unsigned_abs() as u64, value.den() as u64);
    let mut zeros = || "0".repeat(if prng.chance(50) { prng.below(4) } else { 0 });
    let (leading, inner, trailing) = (zeros(), zeros(), zeros());
    let decimals = (0..=7).find(|&places| 10u64.pow(places) % den == 0);
    match (prng.below(3), decimals) {
        (0, _) if den == 1 => format!("{sign}{leading}{num}"),
        (0 | 1, Some(places)) => {
            let scale = 10u64.pow(places);
            let (whole, rest) = (num * (scale / den) / scale, num * (scale / den) % scale);
            let fill = if places == 0 {
                format!("0{trailing}")
            } else {
                format!("{rest:0width$}{trailing}", width = places as usize)
            };
            format!("{sign}{leading}{whole}.{fill}")
        }
        _ => {
            let factor = *prng.pick(&[1, 2, 3, 7, 10, 1_000, 99_999_999]);
            format!("{sign}{leading}{}/{inner}{}", num * factor, den * factor)
        }
    }
}

/// How tokens are set apart.
#[derive(Clone, Copy)]
pub enum Layout {
    /// A single byte everywhere.
    Tight,
    /// Lines as 000 shows them.
    Lines,
    /// Lines that end in CR LF, tabs between tokens.
    Carriage,
    /// Anything.
    Wild,
}

impl Layout {
    pub fn random(prng: &mut Prng) -> Layout {
        *prng.pick(&[Layout::Tight, Layout::Lines, Layout::Lines, Layout::Carriage, Layout::Wild])
    }
}

/// Comments, then the tokens with separators between them, perhaps before and after.
pub fn text(tokens: &[Token], layout: Layout, prng: &mut Prng) -> Vec<u8> {
    let mut text = Vec::new();
    if prng.chance(25) {
        add_comments(&mut text, prng);
    }
    if matches!(layout, Layout::Wild) && prng.chance(30) {
        add_wild(&mut text, prng);
    }
    for (number, token) in tokens.iter().enumerate() {
        if number > 0 {
            add_separator(&mut text, token.kind, layout, prng);
        }
        text.extend(&token.bytes);
    }
    if prng.chance(85) {
        text.push(b'\n');
    }
    text
}

fn add_comments(text: &mut Vec<u8>, prng: &mut Prng) {
    for _ in 0..prng.from(1, 3) {
        text.push(b'%');
        for _ in 0..prng.below(30) {
            let byte = if prng.chance(90) { prng.from(32, 126) } else { prng.from(0, 255) } as u8;
            text.push(if byte == b'\n' { b'\r' } else { byte });
        }
        text.push(b'\n');
    }
}

fn add_separator(text: &mut Vec<u8>, next: Kind, layout: Layout, prng: &mut Prng) {
    let begins_line = matches!(next, Kind::Section | Kind::RowName | Kind::SolutionName);
    match layout {
        Layout::Tight => text.push(if begins_line { b'\n' } else { b' ' }),
        Layout::Lines if begins_line => text.push(b'\n'),
        Layout::Lines => text.extend(if next == Kind::Index && prng.chance(50) { "  " } else { " " }.bytes()),
        Layout::Carriage if begins_line => text.extend(b"\r\n"),
        Layout::Carriage => text.push(b'\t'),
        Layout::Wild => add_wild(text, prng),
    }
}

fn add_wild(text: &mut Vec<u8>, prng: &mut Prng) {
    text.push(*prng.pick(b" \t\r\n"));
    while prng.chance(15) {
        text.push(*prng.pick(b" \t\r\n"));
    }
}
