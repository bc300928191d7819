//! **Read one value**: a token's bytes to a fraction, or a refusal.

use crate::fraction::Fraction;
use crate::refusal::{NOT_OF_THE_KIND, VALUE_TOO_WIDE};

/// The most digits in a numerator, a denominator, both parts of a decimal together, or N.
const MOST_DIGITS: usize = 18;
/// The greatest magnitude of x, the power of ten by which N is multiplied.
const MOST_POWER: i128 = 18;
/// Exponents beyond it are not told apart: no token has so many digits that they bring x back to -18 to 18.
const FAR: i128 = 1 << 100;

/// "optional `-`, digits; then nothing, or `.` and digits, or `/` and digits not all zero"; "a whole or decimal value may
/// end in `E` or `e`, an optional sign and digits". What is misspelled is 4, however wide; then what is too wide is 7.
pub fn read_value(token: &[u8]) -> Result<Fraction, u8> {
    let (negative, rest) = match token {
        [b'-', rest @ ..] => (true, rest),
        _ => (false, token),
    };
    let (whole, rest) = split_digits(rest)?;
    let (decimals, rest) = match rest {
        [b'.', rest @ ..] => split_digits(rest)?,
        _ => (&b""[..], rest),
    };
    let (magnitude, den) = match rest {
        [] => read_parts(whole, decimals)?,
        [b'/', den @ ..] if decimals.is_empty() => read_fraction(whole, den)?,
        [b'E' | b'e', exponent @ ..] => read_scaled(whole, decimals, exponent)?,
        _ => return Err(NOT_OF_THE_KIND),
    };
    Fraction::new(if negative { -magnitude } else { magnitude }, den).ok_or(VALUE_TOO_WIDE)
}

/// The digits at the start, one or more, and what follows them.
fn split_digits(bytes: &[u8]) -> Result<(&[u8], &[u8]), u8> {
    let count = bytes.iter().take_while(|byte| byte.is_ascii_digit()).count();
    require(count > 0, NOT_OF_THE_KIND)?;
    Ok(bytes.split_at(count))
}

/// A whole part and decimals, none for a whole number: the numerator's magnitude and the denominator, a power of ten.
fn read_parts(whole: &[u8], decimals: &[u8]) -> Result<(i64, i64), u8> {
    let whole = drop_leading_zeros(whole);
    let decimals = drop_trailing_zeros(decimals);
    require(whole.len() + decimals.len() <= MOST_DIGITS, VALUE_TOO_WIDE)?;
    let den = 10i64.pow(decimals.len() as u32);
    Ok((number(whole) * den + number(decimals), den))
}

fn read_fraction(num: &[u8], den: &[u8]) -> Result<(i64, i64), u8> {
    require(are_digits(den), NOT_OF_THE_KIND)?;
    let (num, den) = (drop_leading_zeros(num), drop_leading_zeros(den));
    require(!den.is_empty(), NOT_OF_THE_KIND)?;
    require(num.len() <= MOST_DIGITS && den.len() <= MOST_DIGITS, VALUE_TOO_WIDE)?;
    Ok((number(num), number(den)))
}

/// "Take the digits without the point, leading and trailing zeros dropped: N, to be multiplied by ten to the power x." x is
/// the exponent as written, less the digits after the point, plus the trailing zeros dropped.
fn read_scaled(whole: &[u8], decimals: &[u8], exponent: &[u8]) -> Result<(i64, i64), u8> {
    let exponent = read_exponent(exponent)?;
    let digits = || whole.iter().chain(decimals);
    let count = whole.len() + decimals.len();
    let leading = digits().take_while(|&&digit| digit == b'0').count();
    if leading == count {
        return Ok((0, 1));
    }
    let trailing = digits().rev().take_while(|&&digit| digit == b'0').count();
    let kept = count - leading - trailing;
    let x = exponent - decimals.len() as i128 + trailing as i128;
    require(kept <= MOST_DIGITS && x.abs() <= MOST_POWER, VALUE_TOO_WIDE)?;
    let n = number(digits().skip(leading).take(kept));
    let power = 10i64.pow(x.unsigned_abs() as u32);
    if x < 0 {
        Ok((n, power))
    } else {
        Ok((n.checked_mul(power).ok_or(VALUE_TOO_WIDE)?, 1))
    }
}

/// "an optional sign and digits", one digit or more: the exponent as written, `FAR` in place of all beyond it.
fn read_exponent(exponent: &[u8]) -> Result<i128, u8> {
    let (negative, digits) = match exponent {
        [b'-', digits @ ..] => (true, digits),
        [b'+', digits @ ..] => (false, digits),
        _ => (false, exponent),
    };
    require(are_digits(digits), NOT_OF_THE_KIND)?;
    let magnitude = digits.iter().fold(0, |number, &digit| (number * 10 + i128::from(digit - b'0')).min(FAR));
    Ok(if negative { -magnitude } else { magnitude })
}

fn require(condition: bool, reason: u8) -> Result<(), u8> {
    if condition {
        Ok(())
    } else {
        Err(reason)
    }
}

/// One digit or more, and nothing else.
pub fn are_digits(bytes: &[u8]) -> bool {
    !bytes.is_empty() && bytes.iter().all(u8::is_ascii_digit)
}

fn drop_leading_zeros(digits: &[u8]) -> &[u8] {
    let zeros = digits.iter().take_while(|&&digit| digit == b'0').count();
    &digits[zeros..]
}

fn drop_trailing_zeros(digits: &[u8]) -> &[u8] {
    let zeros = digits.iter().rev().take_while(|&&digit| digit == b'0').count();
    &digits[..digits.len() - zeros]
}

/// The number that at most 18 digits write; no digits write 0.
fn number<'a>(digits: impl IntoIterator<Item = &'a u8>) -> i64 {
    digits.into_iter().fold(0, |number, &digit| number * 10 + i64::from(digit - b'0'))
}

#[cfg(test)]
mod tests {
    use super::*;

    fn taken(token: &str, num: i32, den: i32) {
        let value = read_value(token.as_bytes()).unwrap_or_else(|reason| panic!("{token}: refused {reason}"));
        assert_eq!((value.num(), value.den()), (num, den), "{token}");
    }

    fn refused(token: &str, reason: u8) {
        assert_eq!(read_value(token.as_bytes()), Err(reason), "{token}");
    }

    /// 01, "Numbers on either side".
    #[test]
    fn numbers_on_either_side() {
        taken("2147483647", 2147483647, 1);
        refused("2147483648", 7);
        taken("4294967294/2", 2147483647, 1);
        taken("0.0000000005", 1, 2000000000);
        refused("0.0000000001", 7);
        taken("-0.0", 0, 1);
        taken("999999999999999999/999999999999999999", 1, 1);
        refused("9999999999999999999/9999999999999999999", 7);
        refused("1.5-101", 4);
        refused("1/0", 4);
        for token in [".5", "5.", "+5"] {
            refused(token, 4);
        }
        refused("1.5E-101", 7); // by request 1 of 02
    }

    /// The decided readings of values.
    #[test]
    fn digits_are_counted_after_dropping_zeros_and_before_lowest_terms() {
        taken("0.000003814697265625", 1, 262144);
        refused("0/1000000000000000000", 7);
        taken("0/0001000000000000000", 0, 1);
        taken("000000000000000000000000012", 12, 1);
        taken("1.50000000000000000000000000000", 3, 2);
        refused("1.00000000000000000000000000001", 7);
        refused("1.000000000000000001", 7);
        refused("1000000000000000000.0", 7);
        taken("-3/0000000000000000000000006", -1, 2);
        refused("123456789012345678901234567890/0", 4);
        refused("123456789012345678901234567890/000", 4);
        refused("-2147483648", 7);
        taken("-2147483647", -2147483647, 1);
        refused("1/2147483648", 7);
        taken("-0/7", 0, 1);
    }

    #[test]
    fn misspelled_values() {
        for token in [
            "", "-", "--1", "-.5", "/2", "1/", "1/-2", "1/2/3", "1.2.3", "1.2/3", "1/2.3", " 1", "1 ", "1\n", "inf", "-inf",
            "1,5", "٣", "-+1", "1.-5", "0x1", "./", "1./2",
        ] {
            refused(token, 4);
        }
    }

    /// Request 1 of 02: N times ten to the power x, however it is spelled.
    #[test]
    fn exponents_are_taken() {
        taken("1.5E-7", 3, 20000000);
        taken("1.5e-07", 3, 20000000);
        taken("-1.5E-7", -3, 20000000);
        taken("1.5E+007", 15000000, 1);
        taken("1e5", 100000, 1);
        taken("1E9", 1000000000, 1);
        taken("2E9", 2000000000, 1);
        taken("5E-10", 1, 2000000000);
        taken("20E-1", 2, 1);
        taken("15E-1", 3, 2);
        taken("7E+0", 7, 1);
        taken("7e-000", 7, 1);
        taken("100000000000000000000E-20", 1, 1);
        taken("0.00000000000000000015E20", 15, 1);
        taken("-00010.0500E02", -1005, 1);
        taken("1E00000000000000000000000000000009", 1000000000, 1);
    }

    /// "N zero gives 0", before anything else is asked.
    #[test]
    fn zero_with_any_exponent() {
        for token in ["0E99999", "-0E5", "0E0", "0.0E-5", "-0.00e-00", "00.000E+340282366920938463463374607431768211456"] {
            taken(token, 0, 1);
        }
        let zeros = "0".repeat(5_000);
        taken(&format!("{zeros}.{zeros}E-{}", "9".repeat(5_000)), 0, 1);
    }

    /// 7 for "N over 18 digits, or x outside -18 to 18, or a result too wide", where possible with the other two allowed.
    #[test]
    fn exponents_on_either_side() {
        taken("298023223876953125E-18", 78125, 262144);
        refused("29802322387695312.5E-18", 7);
        taken("999999998779296875E-18", 819199999, 819200000);
        refused("1000000001220703125E-18", 7); // 819200001/819200000 if 19 digits were allowed
        taken("3814697265625E-18", 1, 262144);
        refused("19073486328125E-19", 7); // 1/524288 if x = -19 were allowed
        for token in ["1E18", "1E19", "1E-18", "1E-19", "1.5E-101", "999999999999999999E18", "70368744177664E18"] {
            refused(token, 7);
        }
        taken("2147483647E0", 2147483647, 1);
        taken("2.147483647E9", 2147483647, 1);
        taken("-21474836470E-1", -2147483647, 1);
        refused("2.147483648E9", 7);
        refused("-2147483648E0", 7);
        refused("3E9", 7);
        taken("1073741823.5e0", 2147483647, 2);
        refused("1073741824.5e0", 7);
        taken("48828125E-17", 1, 2048000000);
        refused("4E-10", 7); // 1/2500000000
    }

    #[test]
    fn exponents_of_any_length() {
        let nines = "9".repeat(30);
        for exponent in
            ["256", "65536", "4294967296", "18446744073709551616", "340282366920938463463374607431768211456", &nines]
        {
            refused(&format!("1E{exponent}"), 7);
            refused(&format!("1e+{exponent}"), 7);
            refused(&format!("1000.0E-{exponent}"), 7);
        }
        let zeros = "0".repeat(5_000);
        taken(&format!("1E{zeros}9"), 1000000000, 1);
        taken(&format!("1E-{zeros}"), 1, 1);
        refused(&format!("1E1{zeros}"), 7);
        refused(&format!("1E-{}", "9".repeat(5_000)), 7);
    }

    /// Zeros before, between and after the digits, and the exponents that make up for them.
    #[test]
    fn thousands_of_zeros() {
        let zeros = "0".repeat(5_000);
        taken(&format!("1{zeros}E-5000"), 1, 1);
        taken(&format!("1{zeros}E-4991"), 1000000000, 1);
        refused(&format!("1{zeros}E-4990"), 7);
        taken(&format!("0.{zeros}1E5001"), 1, 1);
        taken(&format!("0.{zeros}5E4991"), 1, 2000000000);
        refused(&format!("0.{zeros}4E4991"), 7);
        taken(&format!("1{zeros}.{zeros}e-5000"), 1, 1);
        taken(&format!("{zeros}1.5{zeros}E1"), 15, 1);
        refused(&format!("1{zeros}1E-5001"), 7);
        refused(&format!("0.{zeros}1{zeros}25E5001"), 7);
        taken(&format!("0.{zeros}298023223876953125E5000"), 78125, 262144);
        refused(&format!("0.{zeros}298023223876953125E4999"), 7);
        taken(&format!("298023223876953125{zeros}E-5018"), 78125, 262144);
        refused(&format!("298023223876953125{zeros}E-5019"), 7);
        taken(&format!("29802322387695312.5{zeros}E-17"), 78125, 262144);
        taken(&format!("2147483647{zeros}E-5000"), 2147483647, 1);
        refused(&format!("2147483648{zeros}E-5000"), 7);
    }

    /// 4, however wide, and also where N is zero.
    #[test]
    fn misspelled_exponents() {
        for token in [
            "1E", "1e", "1E+", "1E-", "1E+-1", "1E--1", "1E++1", "1E5-", "1.E5", ".5E1", "1.5.E1", "1E5E5", "1Ee5", "1e5.0",
            "1E.5", "1E5/2", "1/2E3", "1/2e0", "0/1E0", "1/E3", "E5", "-E5", "e", "+1E5", "--1E5", "1E5x", "1E 5", "1 E5",
            "1E5\n", "1d5", "1D5", "1F5", "1EINF", "1E0x5", "0E", "0.0e+", "-0E-", "0E5E", "1E٣",
        ] {
            refused(token, 4);
        }
        let nines = "9".repeat(5_000);
        refused(&format!("{nines}E{nines}E"), 4);
        refused(&format!("{nines}.{nines}E-{nines}."), 4);
        refused(&format!("{nines}.E{nines}"), 4);
        refused(&format!("{nines}/{nines}E{nines}"), 4);
        refused("1234567890123456789E+", 4);
    }

    /// The same digits without the letter: their zeros after the point still count.
    #[test]
    fn without_the_letter_nothing_changes() {
        refused("1000000000000000000.0", 7);
        refused("0.00000000000000000015", 7);
        taken("0.00000000000000000015E20", 15, 1);
        refused("1.5-101", 4);
        refused("1.5+7", 4);
    }
}
