//! What is measured: the library for C, the plain implementation, and mpq. Each verifies and reads texts over the same tables,
//! and makes products and sums of the same operands.

use plain::fraction::Fraction;

/// 0 or the reason of a refusal.
pub type Answer = u8;

#[link(name = "vipr_c", kind = "static")]
extern "C" {
    fn vipr_read_certificate(
        text: *const u8,
        length: usize,
        index: *mut u16,
        index_cells: usize,
        values: *mut i32,
        value_cells: usize,
        rows: *mut u16,
        row_cells: usize,
        line: *mut u32,
    ) -> u8;
    fn vipr_verify(
        text: *const u8,
        length: usize,
        index: *mut u16,
        index_cells: usize,
        values: *mut i32,
        value_cells: usize,
        rows: *mut u16,
        row_cells: usize,
        line: *mut u32,
    ) -> u8;
}

#[link(name = "fraction_c", kind = "static")]
extern "C" {
    fn fraction_product(a_num: i32, a_den: i32, b_num: i32, b_den: i32, num: *mut i32, den: *mut i32) -> u8;
    fn fraction_sum(a_num: i32, a_den: i32, b_num: i32, b_den: i32, num: *mut i32, den: *mut i32) -> u8;
}

#[repr(C)]
struct MpqOperands {
    private: [u8; 0],
}

#[link(name = "mpq", kind = "static")]
extern "C" {
    fn bench_seconds() -> f64;
    fn mpq_operands(a: *const i32, b: *const i32, count: usize) -> *mut MpqOperands;
    fn mpq_products(operands: *mut MpqOperands);
    fn mpq_sums(operands: *mut MpqOperands);
    fn mpq_result(operands: *const MpqOperands, i: usize, num: *mut i64, den: *mut i64);
    fn mpq_check(index: *const u16, values: *const i32, rows: *const u16) -> i32;
    fn mpq_products_made() -> u64;
}

#[link(name = "gmp")]
extern "C" {}

pub fn seconds() -> f64 {
    // SAFETY: it only reads a clock.
    unsafe { bench_seconds() }
}

pub struct Tables {
    index: Vec<u16>,
    values: Vec<i32>,
    rows: Vec<u16>,
}

type OnTables =
    unsafe extern "C" fn(*const u8, usize, *mut u16, usize, *mut i32, usize, *mut u16, usize, *mut u32) -> u8;

impl Tables {
    pub fn new() -> Tables {
        Tables { index: vec![0; 16_384], values: vec![0; 16_384], rows: vec![0; 4_352] }
    }

    fn call(&mut self, function: OnTables, text: &[u8]) -> Answer {
        let mut line = 0;
        // SAFETY: each pointer comes with the length of what it points to, and nothing overlaps.
        unsafe {
            function(
                text.as_ptr(),
                text.len(),
                self.index.as_mut_ptr(),
                self.index.len(),
                self.values.as_mut_ptr(),
                self.values.len(),
                self.rows.as_mut_ptr(),
                self.rows.len(),
                &mut line,
            )
        }
    }

    pub fn verify(&mut self, text: &[u8]) -> Answer {
        self.call(vipr_verify, text)
    }

    pub fn read(&mut self, text: &[u8]) -> Answer {
        self.call(vipr_read_certificate, text)
    }

    pub fn verify_plain(&mut self, text: &[u8]) -> Answer {
        plain::verify(text, &mut self.index, &mut self.values, &mut self.rows).map_or_else(|(reason, _)| reason, |()| 0)
    }

    pub fn read_plain(&mut self, text: &[u8]) -> Answer {
        let read = plain::read_certificate(text, &mut self.index, &mut self.values, &mut self.rows);
        read.map_or_else(|(reason, _)| reason, |()| 0)
    }

    /// Reading as the library does it, then checking with mpq.
    pub fn verify_mpq(&mut self, text: &[u8]) -> Answer {
        let reason = self.read(text);
        if reason != 0 {
            return reason;
        }
        // SAFETY: the tables hold a certificate that was read.
        unsafe { mpq_check(self.index.as_ptr(), self.values.as_ptr(), self.rows.as_ptr()) as u8 }
    }
}

/// How many products the last check with mpq made.
pub fn products_made() -> u64 {
    // SAFETY: it only reads a number.
    unsafe { mpq_products_made() }
}

#[derive(Clone, Copy)]
pub enum Operation {
    Product,
    Sum,
}

/// Operands, numerator and denominator by turns, and room for the results of each.
pub struct Operands {
    a: Vec<i32>,
    b: Vec<i32>,
    results: Vec<i32>,
    plain_a: Vec<Fraction>,
    plain_b: Vec<Fraction>,
    plain_results: Vec<Option<Fraction>>,
    mpq: *mut MpqOperands,
}

#[inline(never)]
fn plain_product(a: Fraction, b: Fraction) -> Option<Fraction> {
    a.product(b)
}

#[inline(never)]
fn plain_sum(a: Fraction, b: Fraction) -> Option<Fraction> {
    a.sum(b)
}

impl Operands {
    /// Each fraction is in lowest terms.
    pub fn new(a: &[(i32, i32)], b: &[(i32, i32)]) -> Operands {
        let flat = |all: &[(i32, i32)]| all.iter().flat_map(|&(num, den)| [num, den]).collect::<Vec<i32>>();
        let plain = |all: &[(i32, i32)]| {
            all.iter().map(|&(num, den)| Fraction::new(i64::from(num), i64::from(den)).unwrap()).collect::<Vec<Fraction>>()
        };
        let (plain_a, plain_b) = (plain(a), plain(b));
        let (count, a, b) = (a.len(), flat(a), flat(b));
        // SAFETY: both pointers come with as many pairs as are said.
        let mpq = unsafe { mpq_operands(a.as_ptr(), b.as_ptr(), count) };
        Operands { a, b, results: vec![0; 2 * count], plain_a, plain_b, plain_results: vec![None; count], mpq }
    }

    pub fn count(&self) -> usize {
        self.plain_a.len()
    }

    pub fn run(&mut self, operation: Operation) {
        let function = match operation {
            Operation::Product => fraction_product,
            Operation::Sum => fraction_sum,
        };
        for ((a, b), result) in self.a.chunks_exact(2).zip(self.b.chunks_exact(2)).zip(self.results.chunks_exact_mut(2)) {
            let (num, den) = result.split_at_mut(1);
            // SAFETY: the pointers point to two different numbers.
            unsafe { function(a[0], a[1], b[0], b[1], &mut num[0], &mut den[0]) };
        }
    }

    pub fn run_plain(&mut self, operation: Operation) {
        let function = match operation {
            Operation::Product => plain_product,
            Operation::Sum => plain_sum,
        };
        for ((&a, &b), result) in self.plain_a.iter().zip(&self.plain_b).zip(&mut self.plain_results) {
            *result = function(a, b);
        }
    }

    pub fn run_mpq(&mut self, operation: Operation) {
        // SAFETY: the operands were made by mpq_operands.
        match operation {
            Operation::Product => unsafe { mpq_products(self.mpq) },
            Operation::Sum => unsafe { mpq_sums(self.mpq) },
        }
    }

    /// After the same operation was run by each: all have the same results, none too wide.
    pub fn agree(&self) -> bool {
        (0..self.count()).all(|i| {
            let (mut num, mut den) = (0, 0);
            // SAFETY: i is below the number of operands.
            unsafe { mpq_result(self.mpq, i, &mut num, &mut den) };
            let ours = (i64::from(self.results[2 * i]), i64::from(self.results[2 * i + 1]));
            let plain = self.plain_results[i].map(|value| (i64::from(value.num()), i64::from(value.den())));
            ours == (num, den) && plain == Some(ours)
        })
    }
}
