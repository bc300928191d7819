//! Certificates of 32,768 bytes, or nearly as many: those that force the most work, and one of branch-and-bound kind.

use crate::random::Random;

pub const MOST_BYTES: usize = 32_768;
const MOST_ROWS: usize = 1_024;
const VARIABLES: usize = 256;
const SOLUTIONS: usize = 64;

pub struct Case {
    pub name: &'static str,
    pub text: Vec<u8>,
}

/// Those that are verified; reading them is measured too.
pub fn to_verify() -> Vec<Case> {
    vec![
        Case { name: "derivations, whole", text: derivations(false) },
        Case { name: "derivations, fractions", text: derivations(true) },
        Case { name: "solutions, whole", text: solutions(false) },
        Case { name: "solutions, fractions", text: solutions(true) },
        Case { name: "branching, 6 variables", text: branching(6) },
        Case { name: "branching, 64 variables", text: branching(64) },
        Case { name: "branching, 128 variables", text: branching(128) },
        Case { name: "branching, 256 variables", text: branching(256) },
    ]
}

/// Those that are only read: each makes one part of reading as long as it can be.
pub fn to_read() -> Vec<Case> {
    vec![
        Case { name: "many short names", text: names("") },
        Case { name: "many long names", text: names("constraint_") },
        Case { name: "long lists", text: long_lists() },
        Case { name: "wide values", text: wide_values() },
        Case { name: "exponents", text: exponents() },
    ]
}

/// A short name for each row, all different.
fn short_name(row: usize) -> String {
    let letters = b"abcdefghijklmnopqrstuvwxyzABCDEFGHIJKLMNOPQRSTUVWXYZ";
    let mut name = String::new();
    let mut rest = row;
    loop {
        name.push(char::from(letters[rest % letters.len()]));
        rest /= letters.len();
        if rest == 0 {
            return name;
        }
        rest -= 1;
    }
}

/// `num/den` in lowest terms, as a token.
fn spelled(num: i64, den: i64) -> String {
    let divisor = gcd(num.abs(), den);
    match (num / divisor, den / divisor) {
        (num, 1) => num.to_string(),
        (num, den) => format!("{num}/{den}"),
    }
}

fn gcd(a: i64, b: i64) -> i64 {
    if b == 0 {
        a
    } else {
        gcd(b, a % b)
    }
}

fn listed(values: &[String]) -> String {
    let terms: Vec<String> = values.iter().enumerate().map(|(i, value)| format!("{i} {value}")).collect();
    format!("{} {}", values.len(), terms.join(" "))
}

/// `VER` to `OBJ`, with 256 variables.
fn head(objective: &[String]) -> String {
    format!("VER 1.0\nVAR {VARIABLES}{}\nINT 0\nOBJ min {}\n", " x".repeat(VARIABLES), listed(objective))
}

/// Blanks at the end, to the most bytes.
fn filled(mut text: String) -> Vec<u8> {
    assert!(text.len() <= MOST_BYTES, "{} bytes", text.len());
    text.push_str(&"\n".repeat(MOST_BYTES - text.len()));
    text.into_bytes()
}

/// A denominator that all of the multipliers' divide.
const MULTIPLES: i64 = 27_720;

/// Multipliers of so many rows that sum to 1, over `MULTIPLES`; partial sums stay small.
fn multipliers(random: &mut Random, count: usize, fractions: bool) -> Vec<i64> {
    let mut all = Vec::new();
    let mut sum = 0;
    for _ in 1..count {
        let magnitude = if fractions {
            let den = random.between(2, 12);
            random.between(1, den - 1) * MULTIPLES / den
        } else {
            random.between(1, 9) * MULTIPLES
        };
        let next = if fractions && sum > 0 { -magnitude } else { magnitude };
        sum += next;
        all.push(next);
    }
    all.push(MULTIPLES - sum);
    all
}

/// Each of 100 given rows is the objective, of 256 terms, and each derivation combines all of them: a multiplier takes about
/// 5 bytes and makes 257 products and sums. The multipliers sum to 1, so each derived row is the objective again.
fn derivations(fractions: bool) -> Vec<u8> {
    const GIVEN: usize = 100;
    const PRIMES: [i64; 8] = [2, 3, 5, 7, 53, 71, 89, 97];
    let mut random = Random::new(1);
    let objective: Vec<String> = (0..VARIABLES)
        .map(|_| {
            if fractions {
                let den = PRIMES[random.between(0, 7) as usize];
                spelled(random.sign() * random.between(1, den - 1), den)
            } else {
                random.between(1, 9).to_string()
            }
        })
        .collect();
    let rights: Vec<i64> = (0..GIVEN).map(|_| random.between(1, 9)).collect();
    let mut text = head(&objective);
    text.push_str(&format!("CON {GIVEN} 0\n"));
    for (row, right) in rights.iter().enumerate() {
        text.push_str(&format!("{} E {right} OBJ\n", short_name(row)));
    }
    text.push_str("RTP range -99999 inf\nSOL 0\n");
    let mut derived = String::new();
    let mut count = 0;
    loop {
        let multipliers = multipliers(&mut random, GIVEN, fractions);
        let right: i64 = multipliers.iter().zip(&rights).map(|(multiplier, right)| multiplier * right).sum();
        let multipliers: Vec<String> = multipliers.iter().map(|&multiplier| spelled(multiplier, MULTIPLES)).collect();
        let row =
            format!("{} E {} OBJ {{ lin {} }} -1\n", short_name(GIVEN + count), spelled(right, MULTIPLES), listed(&multipliers));
        if text.len() + "DER 000\n".len() + derived.len() + row.len() > MOST_BYTES {
            break;
        }
        derived.push_str(&row);
        count += 1;
    }
    filled(format!("{text}DER {count}\n{derived}"))
}

/// Each of 1,024 given rows is the objective, of 256 terms, and is tested at each of 64 solutions: the most products that
/// 32,768 bytes can force. The solutions have as many values other than 0 as fit.
fn solutions(fractions: bool) -> Vec<u8> {
    let mut random = Random::new(2);
    let mut value = |fractions: bool| {
        if fractions {
            let den = random.between(2, 9);
            spelled(random.between(1, den - 1), den)
        } else {
            random.between(1, 9).to_string()
        }
    };
    let objective: Vec<String> = (0..VARIABLES).map(|_| value(fractions)).collect();
    let mut text = head(&objective);
    text.push_str(&format!("CON {MOST_ROWS} 0\n"));
    for row in 0..MOST_ROWS {
        text.push_str(&format!("{} G 0 OBJ\n", short_name(row)));
    }
    text.push_str(&format!("RTP range -inf 99999\nSOL {SOLUTIONS}\n"));
    let bytes = (MOST_BYTES - text.len() - "DER 0\n".len()) / SOLUTIONS;
    for solution in 0..SOLUTIONS {
        let mut terms = String::new();
        let mut count = 0;
        while count < VARIABLES {
            // Variables all over the row: 67 has no divisor in common with 256.
            let term = format!(" {} {}", (solution + 67 * count) % VARIABLES, value(fractions));
            if "s 000\n".len() + terms.len() + term.len() > bytes {
                break;
            }
            terms.push_str(&term);
            count += 1;
        }
        text.push_str(&format!("s {count}{terms}\n"));
    }
    text.push_str("DER 0\n");
    filled(text)
}

/// Pairs of integer variables with 2 x + 2 y ≥ 1. A split of x proves x + y ≥ 1 for each pair: two assumptions, a rounding, two
/// combinations and an `uns`, 32 times. Then combinations of two rows each, as many as fit.
fn branching(variables: usize) -> Vec<u8> {
    const SPLITS: usize = 32;
    let pairs = variables / 2;
    let given = pairs + variables;
    let bound_of = |variable: usize| pairs + variable;
    let integers: Vec<String> = (0..variables).map(|variable| variable.to_string()).collect();
    let mut text = format!("VER 1.0\nVAR {variables}{}\nINT {variables} {}\n", " x".repeat(variables), integers.join(" "));
    text.push_str(&format!("OBJ min 2 0 1 1 1\nCON {given} {variables}\n"));
    for pair in 0..pairs {
        text.push_str(&format!("C{pair} G 1 2 {} 2 {} 2\n", 2 * pair, 2 * pair + 1));
    }
    for variable in 0..variables {
        text.push_str(&format!("B{variable} G 0 1 {variable} 1\n"));
    }
    text.push_str("RTP range 1 inf\nSOL 0\n");
    let mut derived = Vec::new();
    for split in 0..SPLITS {
        let pair = split % pairs;
        let (x, y) = (2 * pair, 2 * pair + 1);
        let own = given + derived.len();
        let sum = format!("2 {x} 1 {y} 1");
        for row in [
            format!("L 0 1 {x} 1 {{ asm }} -1"),
            format!("G 1 1 {x} 1 {{ asm }} -1"),
            format!("G 1 1 {y} 1 {{ rnd 2 {pair} 1/2 {own} -1 }} -1"),
            format!("G 1 {sum} {{ lin 2 {} 1 {} 1 }} -1", own + 2, bound_of(x)),
            format!("G 1 {sum} {{ lin 2 {} 1 {} 1 }} -1", own + 1, bound_of(y)),
            format!("G 1 {sum} {{ uns {} {own} {} {} }} -1", own + 3, own + 4, own + 1),
        ] {
            derived.push(format!("D{} {row}\n", derived.len()));
        }
    }
    let proved = given + 5;
    let last = |count: usize| format!("D{count} G 1 OBJ {{ lin 1 {proved} 1 }} -1\n");
    let mut random = Random::new(3);
    let mut bytes = text.len() + "DER 0000\n".len() + derived.iter().map(String::len).sum::<usize>();
    while given + derived.len() + 1 < MOST_ROWS {
        let split = random.between(0, SPLITS as i64 - 1) as usize;
        let (x, y) = (2 * (split % pairs), 2 * (split % pairs) + 1);
        let times = random.between(1, 9);
        let row = format!(
            "D{} G 1 2 {x} {} {y} 1 {{ lin 2 {} 1 {} {times} }} -1\n",
            derived.len(),
            1 + times,
            given + 6 * split + 5,
            bound_of(x)
        );
        if bytes + row.len() + last(1_000).len() > MOST_BYTES {
            break;
        }
        bytes += row.len();
        derived.push(row);
    }
    derived.push(last(derived.len()));
    filled(format!("{text}DER {}\n{}", derived.len(), derived.concat()))
}

/// 1,024 given rows of no terms: each name is held against those before it.
fn names(prefix: &str) -> Vec<u8> {
    let mut text = format!("VER 1.0\nVAR 0\nINT 0\nOBJ min 0\nCON {MOST_ROWS} 0\n");
    for row in 0..MOST_ROWS {
        let name = if prefix.is_empty() { short_name(row) } else { format!("{prefix}{row:04}") };
        text.push_str(&format!("{name} G 0 0\n"));
    }
    text.push_str("RTP range -inf inf\nSOL 0\nDER 0\n");
    filled(text)
}

/// Derivations that each name all rows before them: each index is held against those before it.
fn long_lists() -> Vec<u8> {
    const GIVEN: usize = 950;
    let mut text = format!("VER 1.0\nVAR 0\nINT 0\nOBJ min 0\nCON {GIVEN} 0\n");
    for row in 0..GIVEN {
        text.push_str(&format!("{} E 0 0\n", short_name(row)));
    }
    text.push_str("RTP range -inf inf\nSOL 0\n");
    let mut derived = String::new();
    let mut count = 0;
    loop {
        let multipliers = vec!["1".to_string(); GIVEN + count];
        let row = format!("{} E 0 0 {{ lin {} }} -1\n", short_name(GIVEN + count), listed(&multipliers));
        if text.len() + "DER 00\n".len() + derived.len() + row.len() > MOST_BYTES {
            break;
        }
        derived.push_str(&row);
        count += 1;
    }
    filled(format!("{text}DER {count}\n{derived}"))
}

/// Decimals and quotients of many digits.
fn wide_values() -> Vec<u8> {
    let mut random = Random::new(4);
    rows_of(|| match random.between(0, 2) {
        0 => format!("{}.{:06}", random.between(-2_000, 2_000), random.between(0, 999_999)),
        1 => spelled(random.sign() * random.between(1, 2_147_483_647), random.between(1, 2_147_483_647)),
        _ => random.between(-2_147_483_647, 2_147_483_647).to_string(),
    })
}

/// One digit before the point, one to five after it, and an exponent: `1.5E-7`, `-2.25e+03`. x is -9 or more, and magnitudes
/// are below 10^9, so that all are taken.
fn exponents() -> Vec<u8> {
    let mut random = Random::new(5);
    rows_of(|| {
        let places = random.between(1, 5);
        let sign = if random.between(0, 3) == 0 { "-" } else { "" };
        let (whole, decimals) = (random.between(1, 9), random.between(0, 10i64.pow(places as u32) - 1));
        let number = format!("{sign}{whole}.{decimals:0width$}", width = places as usize);
        let exponent = random.between(places - 9, 8);
        if random.between(0, 1) == 0 {
            format!("{number}E{exponent}")
        } else {
            format!("{number}e{exponent:+03}")
        }
    })
}

/// Rows of 64 terms with the values that are made.
fn rows_of(mut value: impl FnMut() -> String) -> Vec<u8> {
    const TERMS: usize = 64;
    let mut rows = String::new();
    let mut count = 0;
    let head = format!("VER 1.0\nVAR {TERMS}{}\nINT 0\nOBJ min 0\nCON ", " x".repeat(TERMS));
    let tail = "RTP range -inf inf\nSOL 0\nDER 0\n";
    loop {
        let values: Vec<String> = (0..TERMS).map(|_| value()).collect();
        let row = format!("{} L {} {}\n", short_name(count), value(), listed(&values));
        if head.len() + "000 0\n".len() + rows.len() + row.len() + tail.len() > MOST_BYTES {
            return filled(format!("{head}{count} 0\n{rows}{tail}"));
        }
        rows.push_str(&row);
        count += 1;
    }
}
