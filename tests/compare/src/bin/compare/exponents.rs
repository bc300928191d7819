//! Values with exponents (request 1 of 02): other spellings of a value, and tokens on either side of each rule.

use plain::fraction::Fraction;

use crate::prng::Prng;

/// N, and the power of ten by which it is multiplied. N may still have zeros at its end.
type Scaled = (u128, i64);

/// The value with an exponent, in one of many spellings, if it is taken so.
pub fn spelled(value: Fraction, prng: &mut Prng) -> Option<String> {
    let (num, den) = (u128::from(value.num().unsigned_abs()), value.den() as u128);
    let power = (0..=18).find(|&power| 10u128.pow(power) % den == 0)?;
    let n = num * (10u128.pow(power) / den);
    let x = if n == 0 { any_power(prng) } else { -i64::from(power) };
    let is_negative = value.num() < 0 || n == 0 && prng.chance(20);
    (n < 10u128.pow(18)).then(|| spelling(is_negative, (n, x), 40, prng))
}

/// A power for 0, which is taken with any.
fn any_power(prng: &mut Prng) -> i64 {
    let power = *prng.pick(&[0, 1, 5, 18, 19, 99_999, 2_147_483_648, 100_000_000_000_000_000]);
    power * i64::from(*prng.pick(&[-1, 1]))
}

/// Zeros around N, the point anywhere or not at all, and the exponent that makes up for both.
fn spelling(is_negative: bool, (n, x): Scaled, most_zeros: usize, prng: &mut Prng) -> String {
    let written = n.to_string();
    let kept = if n == 0 { "0" } else { written.trim_end_matches('0') };
    let (leading, trailing) = (zeros(most_zeros, prng), zeros(most_zeros, prng));
    let digits = format!("{leading}{kept}{trailing}");
    let after_point = if prng.chance(60) { prng.below(digits.len()) } else { 0 };
    let (whole, decimals) = digits.split_at(digits.len() - after_point);
    let point = if after_point > 0 { "." } else { "" };
    let dropped = (written.len() - kept.len()) as i64;
    let exponent = x + dropped + after_point as i64 - trailing.len() as i64;
    let sign = if is_negative { "-" } else { "" };
    format!("{sign}{whole}{point}{decimals}{}", after_number(exponent, most_zeros, prng))
}

/// The letter, a sign or none, zeros, and the exponent.
fn after_number(exponent: i64, most_zeros: usize, prng: &mut Prng) -> String {
    let letter = *prng.pick(&["E", "e"]);
    let sign = match exponent {
        0 => *prng.pick(&["", "+", "-"]),
        1.. => *prng.pick(&["", "+"]),
        _ => "-",
    };
    format!("{letter}{sign}{}{}", zeros(most_zeros, prng), exponent.unsigned_abs())
}

/// Half of the time none, else mostly few.
fn zeros(most: usize, prng: &mut Prng) -> String {
    let most = if prng.chance(80) { most.min(3) } else { most };
    "0".repeat(if prng.chance(50) { prng.below(most + 1) } else { 0 })
}

// On either side

/// Tokens of 02's text and of its decided readings, and numbers that are small again where a machine's integers wrap.
#[rustfmt::skip]
const LISTED: [&str; 58] = [
    "1.5E-7", "1.5e-07", "1.5E+007", "1.5E-101", "1.5-101", "0E99999", "-0E5", "0.0E-99999", "1E9", "2E9", "3E9", "1E18",
    "1E19", "1E-18", "1E-19", "5E-10", "4E-10", "100000000000000000000E-20", "0.00000000000000000015E20",
    "0.00000000000000000015", "29802322387695312.5E-18", "298023223876953125E-18", "2147483647E0", "2147483648E0",
    "-2147483647E0", "-2147483648E0", "2.147483647E9", "2.147483648E9", "20E-1", "15E-1", "4294967297E0",
    "18446744073709551617E0", "70368744177664E18", "999999999999999999E18", "9999999999999999999E-19", "1E", "1e", "1E+",
    "1E-", "1E+-1", "1E--1", "1.E5", ".5E1", "1E5E5", "1Ee5", "1e5.0", "1E.5", "1/2E3", "0/1e0", "1/2E", "E5", "-E5", "+1E5",
    "1E5x", "1E 5", "1d5", "1D5", "1.5E٣",
];

/// How often a denominator has the factors 2 and 5: one that fits, then one that does not, by turns. x is within the limits
/// for all of them.
#[rustfmt::skip]
const DENOMINATORS: [(u32, u32); 16] = [
    (10, 9), (11, 9), (17, 6), (18, 6), (7, 10), (8, 10), (5, 11), (6, 11), (12, 8), (13, 8), (14, 7), (15, 7), (0, 13),
    (1, 13), (3, 12), (4, 12),
];

/// -x, and how often N has the factor 5: so often that the result fits though N has 18 digits or more.
const LONG_DIGITS: [(u32, u32); 7] = [(13, 13), (17, 13), (18, 13), (18, 18), (19, 14), (19, 19), (20, 16)];

/// A token at the edge of one of the rules, or a misspelled one.
pub fn edge_token(prng: &mut Prng) -> String {
    match prng.below(10) {
        0..=1 => prng.pick(&LISTED).to_string(),
        2..=3 => misspelled(&edge_value(prng), prng),
        _ => edge_value(prng),
    }
}

/// A value that is just taken, or 7.
pub fn edge_value(prng: &mut Prng) -> String {
    let most_zeros = *prng.pick(&[0, 3, 3, 3, 3, 30, 30, 30, 30, 4_000]);
    if prng.chance(15) {
        let number = *prng.pick(&["0", "-0.00", "1", "-1", "1.5", "100", "0.01", "298023223876953125"]);
        return format!("{number}{}", long_exponent(most_zeros, prng));
    }
    let is_negative = prng.chance(25);
    let scaled = edge_number(prng);
    spelling(is_negative, scaled, most_zeros, prng)
}

fn edge_number(prng: &mut Prng) -> Scaled {
    match prng.below(7) {
        // The greatest whole numbers.
        0 => (2_147_483_640 + prng.below(16) as u128, 0),
        // The greatest numerators, over a power of 2.
        1 => over(2_147_483_643 + 2 * prng.below(5) as u128, 1 + prng.below(13) as u32, 0),
        // The greatest denominators.
        2 => {
            let (twos, fives) = *prng.pick(&DENOMINATORS);
            over(*prng.pick(&[1, 1, 3, 7, 999, 2_147_483_647]), twos, fives)
        }
        // 18 and 19 digits, x of -18 and -19.
        3 => {
            let (power, fives) = *prng.pick(&LONG_DIGITS);
            let near = 10u128.pow(18) / 5u128.pow(fives);
            let num = if prng.chance(70) { near + prng.below(6) as u128 - 3 } else { prng.below(1_000) as u128 };
            over(num | 1, power, power - fives)
        }
        // x of 18 and 19, on either side of 0, and where whole numbers grow too wide.
        4 => {
            let x = *prng.pick(&[8, 9, 10, 16, 17, 18, 19, 20]) * *prng.pick(&[-1, 1]);
            let below = *prng.pick(&[3, 10, 1_000]);
            (1 + prng.below(below) as u128, x)
        }
        5 => (0, any_power(prng)),
        // Any digits, from 16 of them to 20.
        _ => {
            let least = 10u128.pow(prng.from(15, 19) as u32);
            (least + u128::from(prng.next()) % (9 * least), i64::from(prng.from(-20, 20)))
        }
    }
}

/// `num / (2^twos 5^fives)`.
fn over(num: u128, twos: u32, fives: u32) -> Scaled {
    let power = twos.max(fives);
    (num * 2u128.pow(power - twos) * 5u128.pow(power - fives), -i64::from(power))
}

/// An exponent near a power of 2, or of many digits, or of few after many zeros.
fn long_exponent(most_zeros: usize, prng: &mut Prng) -> String {
    let (letter, sign) = (*prng.pick(&["E", "e"]), *prng.pick(&["", "+", "-"]));
    let digits = match prng.below(3) {
        0 => {
            let power = 1u128 << *prng.pick(&[7, 8, 15, 16, 31, 32, 63, 64, 127]);
            (power + prng.below(12) as u128 - 2).to_string()
        }
        1 => prng.pick(&["1", "9", "18"]).repeat(1 + prng.below(20 + most_zeros)),
        _ => format!("{}{}", "0".repeat(prng.below(20 + most_zeros)), prng.below(21)),
    };
    format!("{letter}{sign}{digits}")
}

/// The token with a flaw. A few of the flaws leave a value.
fn misspelled(token: &str, prng: &mut Prng) -> String {
    let (number, exponent) = token.split_once(['E', 'e']).unwrap_or((token, "0"));
    let sign = *prng.pick(&["+", "-"]);
    match prng.below(14) {
        0 => format!("{number}E"),
        1 => format!("{number}e{sign}"),
        2 => format!("{number}E{sign}{exponent}"),
        3 => format!("{number}e{exponent}{sign}"),
        4 => format!("{number}E{exponent}E{exponent}"),
        5 => format!("{number}eE{exponent}"),
        6 => format!("{number}/2E{exponent}"),
        7 => format!("1/{number}e{exponent}"),
        8 => format!("{number}E{exponent}.0"),
        9 => format!("{number}E{exponent}/1"),
        10 => format!("{number}.E{exponent}"),
        11 => format!("{}{number}E{exponent}", *prng.pick(&[".", "+", "-", "E", " "])),
        12 => format!("{}E{exponent}", *prng.pick(&["", "-", "."])),
        _ => format!("{number}{}{exponent}", *prng.pick(&["", "d", "D", "F", "p", "^", "E ", "*E", "EE"])),
    }
}
