//! Measures the library for C beside the plain Rust implementation and beside GMP's mpq. `bench/run` builds and runs it.
//!
//! Each measurement is of processor time, repeated three times. Within a repetition those that are compared are run by turns,
//! in slices, so that what else the machine does falls on all of them. The medians are printed, and their ratios.

mod certificates;
mod linked;
mod operands;
mod random;

use certificates::Case;
use linked::{Answer, Operands, Tables};
use operands::Kind;

const REPETITIONS: usize = 3;
/// Slices of a repetition.
const SLICES: u32 = 20;
/// Seconds that a measurement takes at least, all slices together.
const LEAST: f64 = 0.2;

/// The goals to plain Rust: ours takes at most so many times as long. Wide operands have one of their own.
const VERIFIES_OF_PLAIN: f64 = 1.0;
const ZEROS_OF_PLAIN: f64 = 0.3;
const READS_OF_PLAIN: f64 = 0.65;
const WORKS_OF_PLAIN: f64 = 1.25;
const WIDE_OF_PLAIN: f64 = 1.45;
/// The goals to mpq: ours is at least so many times as fast. With few variables a combination's arrays are mostly empty.
const VERIFIES_OF_MPQ: f64 = 2.0;
const FEW_VARIABLES_OF_MPQ: f64 = 1.5;
const WHOLE_OF_MPQ: f64 = 4.0;
const FRACTIONS_OF_MPQ: f64 = 1.0;

/// How often a work is to be run to take the least time.
fn runs(work: &mut dyn FnMut()) -> u32 {
    let mut count = 1;
    loop {
        let time = measure(work, count);
        if time > LEAST / 4.0 {
            return (f64::from(count) * LEAST / time).ceil() as u32;
        }
        count *= 4;
    }
}

/// Seconds for so many runs.
fn measure(work: &mut dyn FnMut(), count: u32) -> f64 {
    let start = linked::seconds();
    for _ in 0..count {
        work();
    }
    linked::seconds() - start
}

/// The median seconds of one run of each work; they are run by turns.
fn medians<const WORKS: usize>(mut works: [&mut dyn FnMut(); WORKS]) -> [f64; WORKS] {
    let counts = works.each_mut().map(|work| runs(work));
    let mut times = [[0.0; REPETITIONS]; WORKS];
    for repetition in 0..REPETITIONS {
        for slice in 0..SLICES {
            for (i, work) in works.iter_mut().enumerate() {
                let count = counts[i] * (slice + 1) / SLICES - counts[i] * slice / SLICES;
                times[i][repetition] += measure(work, count) / f64::from(counts[i]);
            }
        }
    }
    times.map(|mut all| {
        all.sort_by(f64::total_cmp);
        all[REPETITIONS / 2]
    })
}

fn shown(seconds: f64) -> String {
    if seconds >= 1e-3 {
        format!("{:.2} ms", seconds * 1e3)
    } else if seconds >= 1e-6 {
        format!("{:.1} us", seconds * 1e6)
    } else {
        format!("{:.1} ns", seconds * 1e9)
    }
}

fn line(name: &str, columns: [&str; 7]) {
    let [ours, plain, mpq, by_plain, by_mpq, checks, goal] = columns;
    println!("{name:<38} {ours:>10} {plain:>10} {mpq:>10} {by_plain:>10} {by_mpq:>8} {checks:>8}  {goal}");
}

fn met(goals: &[(&str, bool)]) -> String {
    let missed: Vec<&str> = goals.iter().filter(|(_, met)| !met).map(|&(name, _)| name).collect();
    if missed.is_empty() {
        "met".to_string()
    } else {
        format!("missed: {}", missed.join(", "))
    }
}

fn verified(answer: Answer) {
    assert_eq!(answer, 0, "the certificate is refused");
}

fn verify(case: &Case) {
    let text = &case.text;
    let [mut one, mut two, mut three, mut four] = [(); 4].map(|()| Tables::new());
    let [ours, plain, mpq, reading] = medians([
        &mut || verified(one.verify(text)),
        &mut || verified(two.verify_plain(text)),
        &mut || verified(three.verify_mpq(text)),
        &mut || verified(four.read(text)),
    ]);
    let of_plain = if case.name == "solutions, fractions" { ZEROS_OF_PLAIN } else { VERIFIES_OF_PLAIN };
    let of_mpq = if case.name == "branching, 6 variables" { FEW_VARIABLES_OF_MPQ } else { VERIFIES_OF_MPQ };
    let goals = [("plain", ours <= of_plain * plain), ("mpq", of_mpq * ours <= mpq)];
    line(
        &format!("{} ({})", case.name, linked::products_made()),
        [
            &shown(ours),
            &shown(plain),
            &shown(mpq),
            &format!("{:.2}", ours / plain),
            &format!("{:.2}", mpq / ours),
            &format!("{:.2}", (mpq - reading) / (ours - reading)),
            &met(&goals),
        ],
    );
}

fn read(case: &Case) {
    let text = &case.text;
    let [mut one, mut two] = [(); 2].map(|()| Tables::new());
    let [ours, plain] = medians([&mut || verified(one.read(text)), &mut || verified(two.read_plain(text))]);
    let goals = [("plain", ours <= READS_OF_PLAIN * plain)];
    line(case.name, [&shown(ours), &shown(plain), "", &format!("{:.2}", ours / plain), "", "", &met(&goals)]);
}

fn operate(kind: &Kind) {
    let [mut one, mut two, mut three] = [(); 3].map(|()| Operands::new(&kind.a, &kind.b));
    let operation = kind.operation;
    let [ours, plain, mpq] = medians([
        &mut || one.run(operation),
        &mut || two.run_plain(operation),
        &mut || three.run_mpq(operation),
    ])
    .map(|time| time / kind.a.len() as f64);
    let mut all = Operands::new(&kind.a, &kind.b);
    all.run(operation);
    all.run_plain(operation);
    all.run_mpq(operation);
    assert!(all.agree(), "{}: the results differ", kind.name);
    let of_plain = if kind.name.contains("wide") { WIDE_OF_PLAIN } else { WORKS_OF_PLAIN };
    let of_mpq = if kind.whole { WHOLE_OF_MPQ } else { FRACTIONS_OF_MPQ };
    let goals = [("plain", ours <= of_plain * plain), ("mpq", of_mpq * ours <= mpq)];
    line(
        kind.name,
        [
            &shown(ours),
            &shown(plain),
            &shown(mpq),
            &format!("{:.2}", ours / plain),
            &format!("{:.2}", mpq / ours),
            "",
            &met(&goals),
        ],
    );
}

fn heading(name: &str) {
    println!();
    line(name, ["ours", "plain Rust", "mpq", "ours/plain", "mpq/ours", "checking", "goal"]);
}

/// Writes the certificates to a folder, one file each.
fn write(folder: &str, cases: &[Case]) {
    for case in cases {
        let name = case.name.replace(", ", "-").replace(' ', "-");
        std::fs::write(format!("{folder}/{name}.vipr"), &case.text).unwrap();
    }
}

/// `--write FOLDER` writes the certificates and measures nothing. With another word, only the cases that have it in their names
/// are measured.
fn main() {
    let only = std::env::args().nth(1).unwrap_or_default();
    let to_verify: Vec<Case> = certificates::to_verify();
    let to_read: Vec<Case> = certificates::to_read();
    if only == "--write" {
        let folder = std::env::args().nth(2).unwrap_or_else(|| ".".to_string());
        write(&folder, &to_verify);
        return write(&folder, &to_read);
    }
    heading("1. verifying (products)");
    to_verify.iter().filter(|case| case.name.contains(&only)).for_each(verify);
    heading("2. reading alone");
    to_verify.iter().chain(&to_read).filter(|case| case.name.contains(&only)).for_each(read);
    heading("3. one operation");
    operands::kinds().iter().filter(|kind| kind.name.contains(&only)).for_each(operate);
}
