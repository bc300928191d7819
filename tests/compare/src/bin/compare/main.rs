//! Compares the plain implementation with the library for C on texts of a seeded generator: `compare COUNT SEED FOLDER`.
//! Differences go to the folder; the exit status is 1 if there is any.

mod branch;
mod census;
mod comparison;
mod constraint;
mod damage;
mod draft;
mod exponents;
mod grow;
mod lent;
mod limits;
mod make;
mod other;
mod own;
mod prng;
mod proof;
mod simplex;
mod spell;
mod texts;

use std::path::PathBuf;
use std::process::ExitCode;

use comparison::Comparison;
use texts::Texts;

fn main() -> ExitCode {
    let arguments: Vec<String> = std::env::args().skip(1).collect();
    let number = |place: usize| arguments.get(place).and_then(|argument| argument.parse::<u64>().ok());
    let (Some(count), Some(seed), Some(folder)) = (number(0), number(1), arguments.get(2)) else {
        eprintln!("usage: compare COUNT SEED FOLDER");
        return ExitCode::from(2);
    };
    let mut comparison = Comparison::new(seed, PathBuf::from(folder));
    let mut texts = Texts::new(seed);
    for _ in 0..count {
        comparison.compare(&texts.next());
    }
    texts.census.print();
    comparison.print_report();
    if comparison.differences() == 0 {
        ExitCode::SUCCESS
    } else {
        ExitCode::from(1)
    }
}
