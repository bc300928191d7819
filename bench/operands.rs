//! Operands of products and sums: their results are within the limit.

use crate::linked::Operation;
use crate::random::Random;

/// So many that no processor learns the course of their loops by heart, and so few that all of them stay in its cache.
const COUNT: usize = 4_096;

type Pair = (i32, i32);

pub struct Kind {
    pub name: &'static str,
    pub operation: Operation,
    pub whole: bool,
    pub a: Vec<Pair>,
    pub b: Vec<Pair>,
}

pub fn kinds() -> Vec<Kind> {
    let mut random = Random::new(5);
    let mut kind = |name, operation, whole, make: fn(&mut Random) -> (Pair, Pair)| {
        let (a, b) = (0..COUNT).map(|_| make(&mut random)).unzip();
        Kind { name, operation, whole, a, b }
    };
    vec![
        kind("product, whole", Operation::Product, true, |r| (whole(r, 40_000), whole(r, 40_000))),
        kind("product, whole and fraction", Operation::Product, false, |r| (whole(r, 99), small(r))),
        kind("product, fractions", Operation::Product, false, |r| (small(r), small(r))),
        kind("product, wide fractions", Operation::Product, false, wide_factors),
        kind("sum, whole", Operation::Sum, true, |r| (whole(r, 1_000_000_000), whole(r, 1_000_000_000))),
        kind("sum, whole and fraction", Operation::Sum, false, |r| (whole(r, 99), small(r))),
        kind("sum, fractions", Operation::Sum, false, |r| (small(r), small(r))),
        kind("sum, wide fractions", Operation::Sum, false, wide_summands),
    ]
}

fn lowest(num: i64, den: i64) -> Pair {
    let (mut a, mut b) = (num.abs(), den);
    while b != 0 {
        (a, b) = (b, a % b);
    }
    ((num / a) as i32, (den / a) as i32)
}

fn whole(random: &mut Random, most: i64) -> Pair {
    (random.between(-most, most) as i32, 1)
}

/// A denominator of 2 to 99, and most often lowest terms already.
fn small(random: &mut Random) -> Pair {
    loop {
        let fraction = lowest(random.sign() * random.between(1, 999), random.between(2, 99));
        if fraction.1 > 1 {
            return fraction;
        }
    }
}

/// Numerators and denominators of about 30 bits, half of whose bits cancel across.
fn wide_factors(random: &mut Random) -> (Pair, Pair) {
    let mut part = || random.between(20_000, 40_000);
    let (u, v) = (part(), part());
    let a = lowest(part() * u, part() * v);
    let b = lowest(part() * v, part() * u);
    ((a.0 * random.sign() as i32, a.1), b)
}

/// Denominators of about 22 bits with a common divisor of about 15; the sum's has about 29.
fn wide_summands(random: &mut Random) -> (Pair, Pair) {
    let common = random.between(16_384, 32_767);
    let mut one = || lowest(random.sign() * random.between(1, 4_000_000), common * random.between(64, 127));
    (one(), one())
}
