//! The other implementation: the library for C, or the plain one again where that is not linked.

/// An answer as the C functions give it: 0 or a reason, and the line.
pub type Answer = (u8, u32);

#[cfg(vipr_c)]
mod linked {
    use super::Answer;
    use crate::lent::Lent;

    pub const NAME: &str = "libvipr_c.a";

    #[link(name = "vipr_c", kind = "static")]
    extern "C" {
        fn vipr_read_value(token: *const u8, length: usize, num: *mut i32, den: *mut i32) -> u8;
        fn vipr_show_token(text: *const u8, length: usize, place: usize) -> usize;
        fn vipr_read_certificate(
            text: *const u8,
            length: usize,
            index: *mut u16,
            index_cells: usize,
            values: *mut i32,
            value_cells: usize,
            rows: *mut u16,
            row_cells: usize,
            line: *mut u32,
        ) -> u8;
        fn vipr_verify(
            text: *const u8,
            length: usize,
            index: *mut u16,
            index_cells: usize,
            values: *mut i32,
            value_cells: usize,
            rows: *mut u16,
            row_cells: usize,
            line: *mut u32,
        ) -> u8;
    }

    type OnTables =
        unsafe extern "C" fn(*const u8, usize, *mut u16, usize, *mut i32, usize, *mut u16, usize, *mut u32) -> u8;

    fn call(function: OnTables, text: &[u8], lent: &mut Lent) -> Answer {
        let mut line = u32::MAX;
        let (index, values, rows) = lent.parts();
        // SAFETY: each pointer comes with the length of the slice that it is of, and the slices do not overlap.
        let reason = unsafe {
            function(
                text.as_ptr(),
                text.len(),
                index.as_mut_ptr(),
                index.len(),
                values.as_mut_ptr(),
                values.len(),
                rows.as_mut_ptr(),
                rows.len(),
                &mut line,
            )
        };
        (reason, line)
    }

    pub fn verify(text: &[u8], lent: &mut Lent) -> Answer {
        call(vipr_verify, text, lent)
    }

    pub fn read_certificate(text: &[u8], lent: &mut Lent) -> Answer {
        call(vipr_read_certificate, text, lent)
    }

    pub fn read_value(token: &[u8], stored: &mut (i32, i32)) -> u8 {
        // SAFETY: the token's pointer comes with its length; the others point to two numbers.
        unsafe { vipr_read_value(token.as_ptr(), token.len(), &mut stored.0, &mut stored.1) }
    }

    pub fn show_token(text: &[u8], place: usize) -> usize {
        // SAFETY: the text's pointer comes with its length.
        unsafe { vipr_show_token(text.as_ptr(), text.len(), place) }
    }
}

#[cfg(not(vipr_c))]
mod linked {
    pub use crate::own::{read_certificate, read_value, show_token, verify};
    pub const NAME: &str = "itself";
}

pub use linked::*;
