//! The plain implementation, called as the other one is.

use crate::lent::Lent;
use crate::other::Answer;

fn answer(result: Result<(), (u8, u32)>) -> Answer {
    result.err().unwrap_or((0, 0))
}

pub fn verify(text: &[u8], lent: &mut Lent) -> Answer {
    let (index, values, rows) = lent.parts();
    answer(plain::verify(text, index, values, rows))
}

pub fn read_certificate(text: &[u8], lent: &mut Lent) -> Answer {
    let (index, values, rows) = lent.parts();
    answer(plain::read_certificate(text, index, values, rows))
}

pub fn read_value(token: &[u8], stored: &mut (i32, i32)) -> u8 {
    match plain::read_value(token) {
        Ok(value) => {
            *stored = (value.num(), value.den());
            0
        }
        Err(reason) => reason,
    }
}

pub fn show_token(text: &[u8], place: usize) -> usize {
    plain::show_token(text, place).len()
}
