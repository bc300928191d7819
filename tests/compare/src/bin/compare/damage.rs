//! Damage: to the certificate, to its tokens, to the bytes of its text.

use plain::certificate::{Claim, Derivation, Direction, Left, Multiplier, Reason, Sense, Term};
use plain::fraction::Fraction;
use plain::reader::MOST_BYTES;

use crate::draft::{Draft, Row, Solution};
use crate::exponents;
use crate::grow::rejoin;
use crate::prng::Prng;
use crate::spell::{Kind, Token};

/// Values near the limit, so that 7 and 12 are near. The last three are near the limits of an exponent's value too.
const WIDE: [(i64, i64); 13] = [
    (2147483647, 1),
    (-2147483647, 1),
    (2147483646, 1),
    (1, 2147483647),
    (-1, 2147483646),
    (2147483647, 2147483646),
    (1073741824, 1),
    (65536, 32767),
    (46341, 1),
    (1, 46341),
    (2000000000, 1),
    (1, 2000000000),
    (819199999, 819200000),
];

pub fn wide_value(prng: &mut Prng) -> Fraction {
    let (num, den) = *prng.pick(&WIDE);
    Fraction::new(num, den).expect("the wide values are within the limit")
}

fn other_value(value: Fraction, prng: &mut Prng) -> Fraction {
    let step =
        Fraction::new(i64::from(*prng.pick(&[-2, -1, 1, 2])), *prng.pick(&[1, 1, 1, 2, 1000])).unwrap_or(Fraction::ONE);
    match prng.below(6) {
        0 => value.negated(),
        1 => Fraction::ZERO,
        2 => wide_value(prng),
        _ => value.sum(step).unwrap_or(Fraction::ONE),
    }
}

fn pick_mut<'a, T>(items: &'a mut [T], prng: &mut Prng) -> Option<&'a mut T> {
    let number = prng.below(items.len());
    items.get_mut(number)
}

// Certificates

type DraftDamage = fn(&mut Draft, &mut Prng) -> Option<()>;

const DRAFT_DAMAGE: [DraftDamage; 32] = [
    spend_row,
    spend_row,
    drop_last_row,
    exchange_split,
    move_split,
    move_split,
    split_on_given_row,
    split_on_copy,
    move_given_side,
    lean_on_assumption,
    round_equality,
    assume_row,
    break_solution,
    break_integrality,
    break_integrality,
    raise_claim,
    raise_claim,
    other_claim,
    drop_solutions,
    lean_on_no_solution,
    change_multiplier,
    negate_multiplier,
    split_multiplier,
    change_reason,
    relax_integer,
    tighten_row,
    turn_sense,
    widen_value,
    widen_value,
    turn_direction,
    repeat_name,
    crowd_assumptions,
];

/// Damages the certificate in one way that applies to it, if one of a few tries does.
pub fn damage_draft(draft: &mut Draft, prng: &mut Prng) {
    for _ in 0..5 {
        if prng.pick(&DRAFT_DAMAGE)(draft, prng).is_some() {
            return;
        }
    }
}

/// A row is named after its last index.
fn spend_row(draft: &mut Draft, prng: &mut Prng) -> Option<()> {
    let uses = draft.last_uses();
    let used: Vec<usize> = (0..uses.len()).filter(|&derived| uses[derived].is_some()).collect();
    let derived = *used.get(prng.below(used.len()))?;
    let last_use = uses[derived]?;
    draft.derivations[derived].last = Some(if prng.chance(50) { last_use.checked_sub(1)? } else { prng.below(last_use) });
    Some(())
}

/// The claim loses its proof; an assumption may be kept.
fn drop_last_row(draft: &mut Draft, prng: &mut Prng) -> Option<()> {
    let dropped = if prng.chance(80) { 1 } else { draft.derivations.len() };
    for _ in 0..dropped {
        draft.derivations.pop()?;
        draft.rows.pop();
    }
    let rows = draft.rows.len();
    for derivation in &mut draft.derivations {
        derivation.last = derivation.last.filter(|&last| last < rows);
    }
    Some(())
}

fn pick_reason<'a>(draft: &'a mut Draft, wanted: fn(&Reason) -> bool, prng: &mut Prng) -> Option<&'a mut Reason> {
    let mut reasons: Vec<&mut Reason> =
        draft.derivations.iter_mut().map(|derivation| &mut derivation.reason).filter(|reason| wanted(reason)).collect();
    let number = prng.below(reasons.len());
    (!reasons.is_empty()).then(|| reasons.swap_remove(number))
}

fn pick_row_with<'a>(draft: &'a mut Draft, wanted: fn(&Reason) -> bool, prng: &mut Prng) -> Option<&'a mut Row> {
    let given = draft.given();
    let derived: Vec<usize> =
        (0..draft.derivations.len()).filter(|&derived| wanted(&draft.derivations[derived].reason)).collect();
    let derived = *derived.get(prng.below(derived.len()))?;
    Some(&mut draft.rows[given + derived])
}

/// `uns` names other rows: assumptions are kept, rows that are no pair split.
fn exchange_split(draft: &mut Draft, prng: &mut Prng) -> Option<()> {
    let rows = draft.rows.len();
    let reason = pick_reason(draft, |reason| matches!(reason, Reason::Uns { .. }), prng)?;
    let &mut Reason::Uns { i1, l1, i2, l2 } = reason else { return None };
    let below = |row: usize, prng: &mut Prng| prng.below((row + 1).min(rows));
    *reason = match prng.below(8) {
        0..=1 => Reason::Uns { i1, l1: l2, i2, l2: l1 },
        2 => Reason::Uns { i1, l1, i2, l2: l1 },
        3 => Reason::Uns { i1: below(i1, prng), l1, i2, l2 },
        4 => Reason::Uns { i1, l1: below(l1, prng), i2, l2 },
        5 => Reason::Uns { i1, l1, i2, l2: below(l2, prng) },
        6 => Reason::Uns { i1, l1, i2: below(i2, prng), l2 },
        _ => Reason::Uns { i1: i2, l1, i2: i2, l2 },
    };
    Some(())
}

/// An assumption no longer stands one step from its other side.
fn move_split(draft: &mut Draft, prng: &mut Prng) -> Option<()> {
    let objective = draft.objective.clone();
    let row = pick_row_with(draft, |reason| matches!(reason, Reason::Asm), prng)?;
    match prng.below(6) {
        0 => row.sense = *prng.pick(&[Sense::Equal, Sense::Less, Sense::Greater]),
        3 => row.right = Fraction::new(i64::from(row.right.num()), *prng.pick(&[2, 3]))?,
        1 => row.left = Left::Terms(objective),
        2 => change_term(&mut row.left, prng)?,
        _ => row.right = other_value(row.right, prng),
    }
    Some(())
}

fn change_term(left: &mut Left, prng: &mut Prng) -> Option<()> {
    let Left::Terms(terms) = left else { return None };
    let term = pick_mut(terms, prng)?;
    term.value = other_value(term.value, prng);
    Some(())
}

/// One side of a split is a given row, whole or not.
fn split_on_given_row(draft: &mut Draft, prng: &mut Prng) -> Option<()> {
    let given = prng.below(draft.given());
    let mut other_side = draft.rows.get(given).filter(|_| draft.given() > 0)?.clone();
    let (sense, step) = match other_side.sense {
        Sense::Less => (Sense::Greater, Fraction::ONE),
        Sense::Greater => (Sense::Less, Fraction::ONE.negated()),
        Sense::Equal => return None,
    };
    (other_side.sense, other_side.right) = (sense, other_side.right.sum(step)?);
    other_side.name = "other-side".to_string();
    draft.rows.push(other_side);
    draft.derivations.push(Derivation { reason: Reason::Asm, last: None });
    let (joined, mut sides) = (prng.below(draft.rows.len()), [given, draft.rows.len() - 1]);
    prng.shuffle(&mut sides);
    draft.rows.push(Row { name: "joined".to_string(), ..draft.rows[joined].clone() });
    let reason = Reason::Uns { i1: joined, l1: sides[0], i2: joined, l2: sides[1] };
    draft.derivations.push(Derivation { reason, last: None });
    Some(())
}

/// `uns` names a copy of an assumption, and so keeps it.
fn split_on_copy(draft: &mut Draft, prng: &mut Prng) -> Option<()> {
    let last = draft.rows.len().checked_sub(1).filter(|_| !draft.derivations.is_empty())?;
    rejoin(draft, last, true, prng).map(|_| ())
}

/// The last row is derived once more from a split at a row whose other side is one too high or too low, or just right.
fn move_given_side(draft: &mut Draft, prng: &mut Prng) -> Option<()> {
    let last = draft.rows.len().checked_sub(1).filter(|_| !draft.derivations.is_empty())?;
    let before = draft.rows.len();
    rejoin(draft, last, false, prng)?;
    let assumed = &mut draft.rows[before];
    assumed.right = assumed.right.sum(Fraction::whole(prng.from(-1, 1)))?;
    Some(())
}

/// The last row is combined with an assumption times 0 as well, and so keeps it.
fn lean_on_assumption(draft: &mut Draft, _: &mut Prng) -> Option<()> {
    let given = draft.given();
    let assumed = draft.derivations.iter().position(|derivation| matches!(derivation.reason, Reason::Asm))?;
    match &mut draft.derivations.last_mut()?.reason {
        Reason::Lin(multipliers) | Reason::Rnd(multipliers) => {
            multipliers.retain(|multiplier| multiplier.row != given + assumed);
            multipliers.push(Multiplier { row: given + assumed, value: Fraction::ZERO });
        }
        &mut Reason::Uns { i1, .. } => {
            let copied = Row { name: "copied".to_string(), ..draft.rows[i1].clone() };
            let multipliers = vec![
                Multiplier { row: given + assumed, value: Fraction::ZERO },
                Multiplier { row: draft.rows.len() - 1, value: Fraction::ONE },
            ];
            draft.rows.push(copied);
            draft.derivations.push(Derivation { reason: Reason::Lin(multipliers), last: None });
        }
        Reason::Asm | Reason::Sol => return None,
    }
    draft.derivations[assumed].last = None;
    Some(())
}

/// An equality is rounded, also an absurd one.
fn round_equality(draft: &mut Draft, prng: &mut Prng) -> Option<()> {
    let right = Fraction::whole(prng.from(0, 1));
    let row = |name: &str| Row { name: name.to_string(), sense: Sense::Equal, right, left: Left::Terms(Vec::new()) };
    let multiplier = Multiplier { row: draft.rows.len(), value: Fraction::ONE };
    draft.rows.extend([row("equality"), row("rounded")]);
    for reason in [Reason::Asm, Reason::Rnd(vec![multiplier])] {
        draft.derivations.push(Derivation { reason, last: None });
    }
    Some(())
}

/// A derived row becomes an assumption.
fn assume_row(draft: &mut Draft, prng: &mut Prng) -> Option<()> {
    let last = draft.derivations.len().checked_sub(1)?;
    let derived = if prng.chance(50) { last } else { prng.below(last + 1) };
    draft.derivations[derived].reason = Reason::Asm;
    Some(())
}

fn break_solution(draft: &mut Draft, prng: &mut Prng) -> Option<()> {
    let variables = draft.variables.len();
    let solution = pick_mut(&mut draft.solutions, prng)?;
    match prng.below(4) {
        0 => solution.terms.clear(),
        1 if solution.terms.len() < variables => {
            let listed = |variable: &usize| solution.terms.iter().any(|term| term.variable == *variable);
            let variable = (0..variables).find(|variable| !listed(variable))?;
            solution.terms.push(Term { variable, value: wide_value(prng) });
        }
        _ => {
            let term = pick_mut(&mut solution.terms, prng)?;
            term.value = other_value(term.value, prng);
        }
    }
    Some(())
}

fn break_integrality(draft: &mut Draft, prng: &mut Prng) -> Option<()> {
    let term = pick_mut(&mut pick_mut(&mut draft.solutions, prng)?.terms, prng)?;
    term.value = term.value.sum(Fraction::new(1, *prng.pick(&[2, 3, 7, 1000]))?)?;
    Some(())
}

/// An end moves beyond what a solution reaches, or beyond what is proved.
fn raise_claim(draft: &mut Draft, prng: &mut Prng) -> Option<()> {
    let Claim::Range { lower, upper } = &mut draft.claim else { return None };
    let step = Fraction::new(i64::from(prng.from(1, 9)), *prng.pick(&[1, 1, 10]))?;
    if prng.chance(50) {
        *lower = Some((*lower)?.sum(step)?);
    } else {
        *upper = Some((*upper)?.sum(step.negated())?);
    }
    Some(())
}

fn other_claim(draft: &mut Draft, prng: &mut Prng) -> Option<()> {
    let mut end = |percent| prng.chance(percent).then(|| Fraction::whole(prng.from(-9, 9)));
    draft.claim = match draft.claim {
        Claim::Infeas => Claim::Range { lower: end(70), upper: end(70) },
        Claim::Range { lower, .. } if end(30).is_some() => Claim::Range { lower, upper: end(50) },
        Claim::Range { .. } => Claim::Infeas,
    };
    Some(())
}

fn drop_solutions(draft: &mut Draft, _: &mut Prng) -> Option<()> {
    draft.solutions.pop()?;
    draft.solutions.clear();
    Some(())
}

/// The reason `sol` with no solution listed, and none asked for.
fn lean_on_no_solution(draft: &mut Draft, prng: &mut Prng) -> Option<()> {
    draft.solutions.clear();
    draft.claim = match (draft.claim, draft.direction) {
        (Claim::Infeas, _) => Claim::Infeas,
        (Claim::Range { lower, .. }, Direction::Min) => Claim::Range { lower, upper: None },
        (Claim::Range { upper, .. }, Direction::Max) => Claim::Range { lower: None, upper },
    };
    if !draft.derivations.iter().any(|derivation| matches!(derivation.reason, Reason::Sol)) {
        pick_mut(&mut draft.derivations, prng)?.reason = Reason::Sol;
    }
    Some(())
}

fn pick_multipliers<'a>(draft: &'a mut Draft, prng: &mut Prng) -> Option<&'a mut Vec<Multiplier>> {
    match pick_reason(draft, |reason| matches!(reason, Reason::Lin(_) | Reason::Rnd(_)), prng)? {
        Reason::Lin(multipliers) | Reason::Rnd(multipliers) => Some(multipliers),
        _ => None,
    }
}

fn change_multiplier(draft: &mut Draft, prng: &mut Prng) -> Option<()> {
    let multipliers = pick_multipliers(draft, prng)?;
    if prng.chance(20) {
        multipliers.pop()?;
        return Some(());
    }
    let multiplier = pick_mut(multipliers, prng)?;
    match prng.below(4) {
        0 => multiplier.row = prng.below(multiplier.row + 1),
        _ => multiplier.value = other_value(multiplier.value, prng),
    }
    Some(())
}

fn negate_multiplier(draft: &mut Draft, prng: &mut Prng) -> Option<()> {
    let multiplier = pick_mut(pick_multipliers(draft, prng)?, prng)?;
    multiplier.value = multiplier.value.negated();
    Some(())
}

/// Multipliers that leave fractional coefficients.
fn split_multiplier(draft: &mut Draft, prng: &mut Prng) -> Option<()> {
    let Reason::Rnd(multipliers) = pick_reason(draft, |reason| matches!(reason, Reason::Rnd(_)), prng)? else { return None };
    let factor = Fraction::new(1, *prng.pick(&[2, 3, 5]))?;
    for multiplier in multipliers {
        multiplier.value = multiplier.value.product(factor)?;
    }
    Some(())
}

fn change_reason(draft: &mut Draft, prng: &mut Prng) -> Option<()> {
    let reason = &mut pick_mut(&mut draft.derivations, prng)?.reason;
    *reason = match std::mem::replace(reason, Reason::Sol) {
        Reason::Lin(multipliers) => Reason::Rnd(multipliers),
        Reason::Rnd(multipliers) => Reason::Lin(multipliers),
        Reason::Uns { i1, i2, .. } if i1 != i2 => {
            Reason::Lin(vec![Multiplier { row: i1, value: Fraction::ONE }, Multiplier { row: i2, value: Fraction::ONE }])
        }
        Reason::Asm if prng.chance(50) => Reason::Lin(Vec::new()),
        _ => Reason::Sol,
    };
    Some(())
}

fn relax_integer(draft: &mut Draft, prng: &mut Prng) -> Option<()> {
    let number = prng.below(draft.integers.len());
    (!draft.integers.is_empty()).then(|| {
        draft.integers.swap_remove(number);
    })
}

/// The right side or a coefficient of a row changes.
fn tighten_row(draft: &mut Draft, prng: &mut Prng) -> Option<()> {
    let row = pick_mut(&mut draft.rows, prng)?;
    if prng.chance(30) {
        return change_term(&mut row.left, prng);
    }
    row.right = other_value(row.right, prng);
    Some(())
}

fn turn_sense(draft: &mut Draft, prng: &mut Prng) -> Option<()> {
    let row = pick_mut(&mut draft.rows, prng)?;
    row.sense = match row.sense {
        Sense::Equal => *prng.pick(&[Sense::Less, Sense::Greater]),
        Sense::Less => *prng.pick(&[Sense::Equal, Sense::Greater]),
        Sense::Greater => *prng.pick(&[Sense::Equal, Sense::Less]),
    };
    Some(())
}

/// A value grows so wide that products or sums may not fit.
fn widen_value(draft: &mut Draft, prng: &mut Prng) -> Option<()> {
    let value = wide_value(prng);
    match prng.below(6) {
        0 => pick_mut(&mut draft.objective, prng)?.value = value,
        1 => pick_mut(&mut draft.rows, prng)?.right = value,
        2 => pick_mut(&mut pick_mut(&mut draft.solutions, prng)?.terms, prng)?.value = value,
        3 | 4 => pick_mut(pick_multipliers(draft, prng)?, prng)?.value = value,
        _ => match &mut pick_mut(&mut draft.rows, prng)?.left {
            Left::Terms(terms) => pick_mut(terms, prng)?.value = value,
            Left::Objective => return None,
        },
    }
    Some(())
}

fn turn_direction(draft: &mut Draft, _: &mut Prng) -> Option<()> {
    draft.direction = if draft.direction == Direction::Min { Direction::Max } else { Direction::Min };
    Some(())
}

/// A name that a row has, for another row; or for a solution or a variable, which may bear it.
fn repeat_name(draft: &mut Draft, prng: &mut Prng) -> Option<()> {
    let name = pick_mut(&mut draft.rows, prng)?.name.clone();
    match prng.below(4) {
        0 => *pick_mut(&mut draft.variables, prng)? = name,
        1 => pick_mut(&mut draft.solutions, prng)?.name = name,
        _ => pick_mut(&mut draft.rows, prng)?.name = name,
    }
    Some(())
}

/// 63 to 66 assumptions in all, before the last row.
fn crowd_assumptions(draft: &mut Draft, prng: &mut Prng) -> Option<()> {
    if draft.rows.len() > 900 {
        return None;
    }
    let wanted = prng.from(63, 66) as usize;
    let used = 64 - draft.assumptions_left();
    for number in used..wanted {
        let row =
            Row { name: format!("a{number}"), sense: Sense::Less, right: Fraction::ZERO, left: Left::Terms(Vec::new()) };
        draft.rows.push(row);
        draft.derivations.push(Derivation { reason: Reason::Asm, last: None });
    }
    Some(())
}

/// Many solutions, to the limit and beyond.
pub fn crowd_solutions(draft: &mut Draft, prng: &mut Prng) {
    let terms = draft.solutions.first().map_or(Vec::new(), |solution| solution.terms.clone());
    let wanted = prng.from(62, 66) as usize;
    while draft.solutions.len() < wanted {
        draft.solutions.push(Solution { name: "t".to_string(), terms: terms.clone() });
    }
}

// Tokens

/// Tokens that stand near the edges of the rules.
#[rustfmt::skip]
const EDGE_TOKENS: [&str; 76] = [
    "VER", "1.0", "1.00", "VAR", "INT", "OBJ", "CON", "RTP", "SOL", "DER", "min", "max", "E", "L", "G", "infeas", "range",
    "inf", "-inf", "+inf", "asm", "lin", "rnd", "uns", "sol", "{", "}", "{}", "{lin", "-1", "-01", "-0", "-0.0", "0",
    "00", "1", "2", "256", "257", "1024", "1025", "64", "65", "65535", "65536", "18446744073709551616",
    "99999999999999999999999999999", "2147483647", "2147483648", "-2147483648", "4294967294/2", "0.0000000005",
    "0.0000000001", "1/2147483647", "1/2147483648", "999999999999999999/999999999999999999",
    "9999999999999999999/9999999999999999999", "0/1000000000000000000", "0.000003814697265625", "1.5-101", "1/0", "1234567890123456789012/0", "1/0000000000000000000000",
    "1.5E-101", ".5", "5.", "+5", "1/-2", "1/2/3", "1.2.3", "--1", "1e3", "e", "g", "\u{7f}", "\u{e9}",
];

/// Values on either side of the limits: 7 or just taken.
#[rustfmt::skip]
const EDGE_VALUES: [&str; 18] = [
    "2147483647", "2147483648", "-2147483647", "-2147483648", "4294967294/2", "4294967296/2", "1/2147483647",
    "1/2147483648", "0.0000000005", "0.0000000001", "123456789.5", "1234567890.5",
    "999999999999999999/999999999999999999", "1000000000000000000/1000000000000000000", "0/1000000000000000000",
    "0.0000000000000000001", "00000000000000000000000001", "1.50000000000000000000000000",
];

/// A token from the edges of the rules, or of random bytes of the alphabet of values.
pub fn edge_token(prng: &mut Prng) -> Vec<u8> {
    match prng.below(10) {
        0..=4 => prng.pick(&EDGE_TOKENS).as_bytes().to_vec(),
        5..=7 => exponents::edge_token(prng).into_bytes(),
        _ => random_token(prng),
    }
}

fn random_token(prng: &mut Prng) -> Vec<u8> {
    let alphabet: &[u8] = if prng.chance(60) { b"00012345678999-./" } else { b"00012345678999-+.Ee" };
    let most = if prng.chance(90) { 12 } else { 45 };
    (0..1 + prng.below(most)).map(|_| *prng.pick(alphabet)).collect()
}

pub fn damage_tokens(tokens: &mut Vec<Token>, prng: &mut Prng) {
    if tokens.is_empty() {
        return;
    }
    let place = prng.below(tokens.len());
    match prng.below(24) {
        0 => {
            tokens.remove(place);
        }
        1 => tokens.insert(place, tokens[place].clone()),
        2 => {
            let other = prng.below(tokens.len());
            tokens.swap(place, other);
        }
        3 => tokens.swap(place, (place + 1).min(place.max(1) - 1)),
        4 => exchange_sections(tokens, prng),
        5 => tokens[place].bytes = edge_token(prng),
        6 => tokens.push(Token { kind: Kind::Word, bytes: edge_token(prng) }),
        7 | 8 => alter(tokens, Kind::Index, prng),
        9 => alter(tokens, Kind::Count, prng),
        10 | 11 => alter(tokens, Kind::Value, prng),
        12 | 13 => replace(tokens, Kind::Value, prng.pick(&EDGE_VALUES).as_bytes(), prng),
        14 => alter(tokens, Kind::Last, prng),
        15 => replace(
            tokens,
            Kind::Last,
            prng.pick(&["-1", "-01", "-0", "-2", "0", "+1", "65535", "00001", "1024"]).as_bytes(),
            prng,
        ),
        16 => alter(tokens, Kind::RowName, prng),
        17 => alter(tokens, Kind::Sense, prng),
        18 => exceed_count(tokens, prng),
        19 => sully_name(tokens, prng),
        20 | 21 => {
            let value = exponents::edge_value(prng);
            replace(tokens, Kind::Value, value.as_bytes(), prng);
        }
        _ => alter(tokens, Kind::Word, prng),
    }
}

fn replace(tokens: &mut [Token], kind: Kind, bytes: &[u8], prng: &mut Prng) {
    if let Some(place) = pick_kind(tokens, kind, prng) {
        tokens[place].bytes = bytes.to_vec();
    }
}

fn pick_kind(tokens: &[Token], kind: Kind, prng: &mut Prng) -> Option<usize> {
    let of_kind: Vec<usize> = (0..tokens.len()).filter(|&place| tokens[place].kind == kind).collect();
    of_kind.get(prng.below(of_kind.len())).copied()
}

/// Alters a token of the kind: takes another of its kind, one from the edges, or changes its number by a little.
fn alter(tokens: &mut [Token], kind: Kind, prng: &mut Prng) {
    let (Some(place), Some(other)) = (pick_kind(tokens, kind, prng), pick_kind(tokens, kind, prng)) else { return };
    let bytes = match prng.below(5) {
        0 | 1 => tokens[other].bytes.clone(),
        2 => edge_token(prng),
        _ => nudged(&tokens[place].bytes, prng),
    };
    tokens[place].bytes = bytes;
}

fn nudged(bytes: &[u8], prng: &mut Prng) -> Vec<u8> {
    let number = std::str::from_utf8(bytes).ok().and_then(|digits| digits.parse::<i64>().ok());
    let mut nudged = bytes.to_vec();
    match (number, prng.below(5)) {
        (Some(number), 0 | 1) => nudged = number.saturating_add(i64::from(*prng.pick(&[-1, 1, 2]))).to_string().into_bytes(),
        (_, 2) => nudged.insert(0, *prng.pick(b"-0/")),
        (_, 3) => nudged.insert(prng.below(bytes.len() + 1), *prng.pick(b"Ee")),
        _ => nudged.push(*prng.pick(b"0123456789./-+")),
    }
    nudged
}

/// The count of a section takes a limit, or one more.
fn exceed_count(tokens: &mut [Token], prng: &mut Prng) {
    let counts: Vec<usize> = (1..tokens.len())
        .filter(|&place| tokens[place - 1].kind == Kind::Section && tokens[place].kind == Kind::Count)
        .collect();
    if let Some(&place) = counts.get(prng.below(counts.len())) {
        let (limit, beyond) = match &tokens[place - 1].bytes[..] {
            b"VAR" => ("256", "257"),
            b"CON" => ("1024", "1025"),
            b"SOL" => ("64", "65"),
            _ => ("1023", "1024"),
        };
        tokens[place].bytes = if prng.chance(30) { limit } else { beyond }.as_bytes().to_vec();
    }
}

/// A byte at the edges of those allowed goes into a name.
fn sully_name(tokens: &mut [Token], prng: &mut Prng) {
    let kind = *prng.pick(&[Kind::RowName, Kind::VariableName, Kind::SolutionName]);
    if let Some(place) = pick_kind(tokens, kind, prng) {
        tokens[place].bytes.push(*prng.pick(&[0, 11, 12, 28, 31, 33, 126, 127, 128, 133, 160, 255]));
    }
}

/// Two neighbouring sections trade places.
fn exchange_sections(tokens: &mut Vec<Token>, prng: &mut Prng) {
    let mut starts: Vec<usize> = (0..tokens.len()).filter(|&place| tokens[place].kind == Kind::Section).collect();
    starts.push(tokens.len());
    if starts.len() < 3 {
        return;
    }
    let first = prng.below(starts.len() - 2);
    tokens[starts[first]..starts[first + 2]].rotate_left(starts[first + 1] - starts[first]);
}

// Bytes

pub fn damage_bytes(text: &mut Vec<u8>, prng: &mut Prng) {
    let place = prng.below(text.len() + 1);
    match prng.below(8) {
        0 => text.truncate(place),
        1..=3 if place < text.len() => text[place] = any_byte(prng),
        4 | 5 if place < text.len() => {
            text.remove(place);
        }
        6 if place < text.len() => text.insert(place, text[place]),
        _ => text.insert(place, any_byte(prng)),
    }
}

fn any_byte(prng: &mut Prng) -> u8 {
    match prng.below(3) {
        0 => *prng.pick(b" \n\t\r%-+./Ee0123456789{}\x00\x0b\x0c\x20\x21\x7e\x7f\x80\xa0\xff"),
        1 => prng.from(33, 126) as u8,
        _ => prng.next() as u8,
    }
}

/// Lengthens the text to the most bytes, or to one more or a few: separators after it, or a comment before it.
pub fn lengthen(text: &mut Vec<u8>, prng: &mut Prng) {
    let wanted = MOST_BYTES + *prng.pick(&[0, 0, 1, 1, 2, 100]);
    let missing = wanted.saturating_sub(text.len());
    if missing < 2 || prng.chance(50) {
        let separator = *prng.pick(b" \n\t\r");
        text.extend(std::iter::repeat_n(separator, missing));
    } else {
        let mut comment = vec![b'%'; missing - 1];
        comment.push(b'\n');
        text.splice(0..0, comment);
    }
}
