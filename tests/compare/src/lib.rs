//! A plain reader and checker of VIPR 1.0 certificates, written from documents 01 and 02 (request 1) alone.

pub mod certificate;
pub mod checker;
pub mod fraction;
pub mod reader;
pub mod refusal;
pub mod text;
pub mod value;

#[cfg(test)]
mod tests;

use certificate::Certificate;
use reader::{Tables, MOST_BYTES};
use refusal::{Refusal, TABLE_TOO_SMALL, TEXT_TOO_LONG};

pub use text::show_token;
pub use value::read_value;

/// **Read a certificate**: fills the tables, or gives a reason of 1 to 8 and its line.
pub fn read_certificate(text: &[u8], index: &mut [u16], values: &mut [i32], rows: &mut [u16]) -> Result<(), (u8, u32)> {
    read(text, index, values, rows).map(|_| ())
}

/// **Verify a certificate**: reading, then checking. Gives a reason of 1 to 18 and its line.
pub fn verify(text: &[u8], index: &mut [u16], values: &mut [i32], rows: &mut [u16]) -> Result<(), (u8, u32)> {
    let certificate = read(text, index, values, rows)?;
    checker::check(&certificate).map_err(|refusal| with_line(text, refusal))
}

/// 1 and 2 leave the tables untouched; 3 to 8 leave them all zero.
fn read(text: &[u8], index: &mut [u16], values: &mut [i32], rows: &mut [u16]) -> Result<Certificate, (u8, u32)> {
    let mut tables = Tables::new(index, values, rows);
    if tables.are_too_small() {
        return Err((TABLE_TOO_SMALL, 0));
    }
    if text.len() > MOST_BYTES {
        return Err((TEXT_TOO_LONG, 0));
    }
    tables.clear();
    reader::read(text, &mut tables).map_err(|refusal| {
        tables.clear();
        with_line(text, refusal)
    })
}

fn with_line(text: &[u8], refusal: Refusal) -> (u8, u32) {
    (refusal.reason, text::line_at(text, refusal.place))
}
